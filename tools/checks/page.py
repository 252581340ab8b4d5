"""Has Chromium show the page of a relay, and measures its bars.

    tools/check page [--pictures FOLDER]

A relay of three buffers and two feeds is served over 127.0.0.1 and given articles. Then `cnrelay report DIR` and
`cnrelay report DIR --html` are asked, and Chromium takes the page's picture, as wide as a telephone (390) and as
a desk's screen (1000). In each picture a bar has to be there for each buffer and each feed, its box as wide as
the page, and its filled part as many hundredths of that as the report's numbers say, to a pixel. The page may name
nothing from elsewhere, nor be wider than the picture. With --pictures these are kept in that folder. Wants Debian's
`chromium`. Prints a line for each picture; ends with status 1 at the first thing that is wrong, or where
nothing could be tried.
"""
import re
import shutil
import struct
import subprocess
import zlib
from pathlib import Path

from lib import ports
from lib.nntp import called, dated
from lib.relay import Life, asked, configure, report
from lib.trying import Wrong, room, waits_until

# Seconds that an answer may take.
PATIENCE = 60
# How wide pages are shown.
WIDTHS = (390, 1000)
# The colours of a bar's box and of its filled part (docs/FORMATS.md, Page).
BOX, FILLED = (0xDD, 0xDD, 0xDD), (0x33, 0x66, 0xCC)


def wanted(told):
    """The hundredths of the bars that the page of a report has, in their order."""
    sizes, waiting = [], []
    for line in told.splitlines():
        words = line.split()
        if words[0] == "size":
            blocks, filled = (int(it.partition("=")[2]) for it in words[2:])
            sizes.append(filled * 100 // blocks)
        elif words[0] == "feed":
            waiting.append(int(words[2]))
    most = max(waiting, default=0)
    return sizes + [it * 100 // most for it in waiting if most]


def pixels(picture):
    """The rows of a picture in PNG of 8 bits, each a list of the colours of its pixels."""
    octets, at, packed = picture.read_bytes(), 8, b""
    while at < len(octets):
        count, kind = struct.unpack(">I4s", octets[at:at + 8])
        part = octets[at + 8:at + 8 + count]
        if kind == b"IHDR":
            width, height, depth, colours, _, _, laced = struct.unpack(">IIBBBBB", part)
        elif kind == b"IDAT":
            packed += part
        at += 12 + count
    if depth != 8 or colours not in (2, 6) or laced:
        raise Wrong(f"{picture}: a PNG of another form: {depth}, {colours}, {laced}")
    step, plain, rows = {2: 3, 6: 4}[colours], zlib.decompress(packed), []
    above = bytearray(width * step)
    for row in range(height):
        start = row * (width * step + 1)
        rule, line = plain[start], bytearray(plain[start + 1:start + 1 + width * step])
        for i in range(len(line)):
            left, up = line[i - step] if i >= step else 0, above[i]
            corner = above[i - step] if i >= step else 0
            if rule == 4:
                near = left + up - corner
                best = min((abs(near - left), 0, left), (abs(near - up), 1, up), (abs(near - corner), 2, corner))[2]
            else:
                best = (0, left, up, (left + up) // 2)[rule]
            line[i] = (line[i] + best) & 255
        above = line
        rows.append([tuple(line[i:i + 3]) for i in range(0, len(line), step)])
    return rows


def bars(rows):
    """The bars of a picture from above: the places where each begins and ends, and how much of it is filled."""
    found, is_in = [], False
    for row in rows:
        places = [at for at, colour in enumerate(row) if colour in (BOX, FILLED)]
        is_bar = len(places) > len(row) // 2 and places[-1] - places[0] == len(places) - 1
        if is_bar and not is_in:
            found.append((places[0], places[-1] + 1, sum(row[at] == FILLED for at in places)))
        is_in = is_bar
    return found


def look(chromium, page, told, width, picture):
    """Takes the picture of a page, and measures its bars."""
    done = subprocess.run(
        [chromium, "--headless", "--no-sandbox", "--disable-gpu", "--hide-scrollbars", "--force-device-scale-factor=1",
         f"--user-data-dir={page.parent / 'chromium'}", f"--window-size={width},2000", f"--screenshot={picture}",
         page.as_uri()], capture_output=True, text=True, timeout=PATIENCE)
    if done.returncode or not picture.exists():
        raise Wrong(f"{chromium} ended with {done.returncode}: {done.stderr}")
    rows, due = pixels(picture), wanted(told)
    found = bars(rows)
    if len(rows[0]) != width:
        raise Wrong(f"{picture}: {len(rows[0])} pixels wide, not {width}")
    if not due or len(found) != len(due):
        raise Wrong(f"{width} wide: {len(found)} bars, not {len(due)}")
    for at, ((begin, end, filled), hundredths) in enumerate(zip(found, due)):
        if begin > 20 or end < width - 20 and end - begin < 900:
            raise Wrong(f"{width} wide, bar {at}: from {begin} to {end}")
        if abs(filled - (end - begin) * hundredths / 100) > 1:
            raise Wrong(f"{width} wide, bar {at}: {filled} of {end - begin} pixels, not {hundredths} hundredths")
    print(f"{width} wide: {len(found)} bars, of {', '.join(map(str, due))} hundredths", flush=True)


def give(port, count):
    """Sends articles, of three groups in turn."""
    peer = called(port, PATIENCE)
    for at in range(count):
        group = ("misc.test", "other.test", "third.test")[min(at % 6, 2)]
        peer.send(f"TAKETHIS <a{at}@x>\r\n".encode() + dated(f"<a{at}@x>", b"x" * 70 + b"\r\n", group) + b".\r\n")
        if not peer.line().startswith(b"239"):
            raise Wrong(f"article {at} isn't taken")
    peer.closes()


def options(about):
    about.add_argument("--pictures", metavar="FOLDER")


def main(given):
    chromium = shutil.which("chromium")
    if not chromium:
        raise Wrong("there is no chromium: apt-get install chromium")
    with room("page") as folder:
        pictures = Path(given.pictures).resolve() if given.pictures else folder
        port = ports.free()
        configure(folder, ["own relay.example", "bind 127.0.0.1", f"peer one one.example {port}",
                           "peer p-2 two.example 0", "peer three three.example 0", "feed p-2 40 *",
                           "feed three 100 third.*"],
                  ("A:a.buf:4", "B.2:b.buf:64", "C:c.buf:19"), ("G:A", "H:B.2", "I:C"),
                  (("misc.*", "G"), ("other.*", "H"), ("third.*", "I")))
        relay = Life(folder, port)
        try:
            waits_until(lambda: "ids" in asked("report", folder).stdout, "it isn't served", PATIENCE)
            give(port, 43)
            told, page = report(folder), folder / "page.html"
            page.write_text(report(folder, "--html"))
            if elsewhere := re.search(r"https?:|src=|href=|url\(|@import|<script", page.read_text()):
                raise Wrong(f"the page has {elsewhere.group()}")
            for width in WIDTHS:
                look(chromium, page, told, width, pictures / f"page-{width}.png")
            if asked("stop", folder).returncode:
                raise Wrong("a stop ends with a fault")
        finally:
            relay.kill()
