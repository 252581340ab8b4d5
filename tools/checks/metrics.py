"""Has Prometheus' own reader look at the metrics of a relay, and compares them with its report.

A relay of two buffers and a feed is served over 127.0.0.1 and given articles, new ones, known ones
and refused ones. Then `cnrelay report DIR` and `cnrelay report DIR --openmetrics` are asked, each
number of the one has to be a sample of the other, and none is besides; `promtool check metrics` of
Debian's package prometheus has to find nothing, its warnings count. So it is after a kill, while the
relay is repaired, where that is still to be seen. Installs prometheus where promtool isn't. Prints a
line for each; ends with status 1 at the first thing that is wrong.
"""
import re
import shutil
import subprocess

from lib import ports
from lib.nntp import called, dated
from lib.relay import Life, asked, configure, report
from lib.servers import needed
from lib.trying import Wrong, room, waits_until

# Seconds that an answer may take.
PATIENCE = 60
# The families of the numbers of a line, by its first word, in their order (docs/FORMATS.md, Metrics).
FAMILIES = {
    "buffer": [f"cnrelay_buffer_{it}" for it in (
        "cycles_total", "front_blocks_total", "articles_begun_total", "articles_stored_total")],
    "size": ["cnrelay_buffer_size_blocks", "cnrelay_buffer_filled_blocks"],
    "oldest": ["cnrelay_buffer_oldest_article_timestamp_seconds"],
    "feed": [f"cnrelay_feed_tokens_{it}" for it in ("waiting", "gained_total", "overwritten_total")],
    "ids": [f"cnrelay_message_ids_{it}" for it in ("offered", "storing", "stored", "refused")],
    "peer": ["cnrelay_peer_sessions_open", *(f"cnrelay_peer_articles_{it}_total" for it in (
        "accepted", "known", "refused", "later")), "cnrelay_peer_received_bytes_total",
        "cnrelay_peer_offers_open"],
    "refused": [f"cnrelay_peer_refused_{it}_total" for it in (
        "size", "grammar", "id_mismatch", "bad_path", "loop", "date", "no_class", "too_large")],
    "from": [],
}
LABELS = {"buffer": "buffer", "feed": "peer", "peer": "peer", "refused": "peer", "from": "peer", "size": "buffer",
          "oldest": "buffer"}


def wanted(told):
    """The samples that a report has to have."""
    found, is_recovering = {"cnrelay_report_lines_unread": "0"}, told.startswith("recovering\n")
    found["cnrelay_recovering"] = str(int(is_recovering))
    for line in told.splitlines():
        word, *words = line.split()
        if is_recovering and word == "buffer":
            found[f'cnrelay_buffer_recovering{{buffer="{words[0]}"}}'] = "1"
        elif not is_recovering:
            name = words.pop(0).removeprefix("buffer=") if word in LABELS else ""
            label = f'{{{LABELS[word]}="{name}"}}' if word in LABELS else ""
            numbers = [it.rpartition("=")[2] for it in words]
            if len(numbers) != len(FAMILIES[word]):
                raise Wrong(f"the report has a line that isn't known: {line}")
            found.update({f"{family}{label}": it for family, it in zip(FAMILIES[word], numbers)})
    return found


def compare(what, told, metrics):
    """The samples are those of the report, and promtool finds nothing."""
    samples = [line.rpartition(" ") for line in metrics.splitlines() if not line.startswith("#")]
    if len(samples) != len({it[0] for it in samples}):
        raise Wrong(f"{what}: a sample stands twice")
    came, due = {name: it for name, _, it in samples}, wanted(told)
    for name in sorted({*came, *due}):
        if came.get(name) != due.get(name):
            raise Wrong(f"{what}: {name} is {came.get(name)}, not {due.get(name)}")
    if not metrics.endswith("# EOF\n"):
        raise Wrong(f"{what}: no # EOF at the end")
    done = subprocess.run(["promtool", "check", "metrics"], input=metrics, capture_output=True, text=True,
                          timeout=PATIENCE)
    if done.returncode or done.stdout or done.stderr:
        raise Wrong(f"{what}: promtool: {done.stdout}{done.stderr}")
    print(f"{what}: {len(came)} samples", flush=True)


def serve(folder, port):
    """A relay in this folder, once it isn't repaired any more."""
    relay = Life(folder, port)
    waits_until(lambda: "ids" in asked("report", folder).stdout, "it isn't served", PATIENCE)
    return relay


def main(_):
    if not shutil.which("promtool"):
        needed("prometheus")
    with room("metrics") as folder:
        port = ports.free()
        configure(folder, ["own relay.example", "bind 127.0.0.1", f"peer one one.example {port}",
                           "peer p-2 two.example 0", "feed p-2 2 *"],
                  ("A:a.buf:4", "B.2:b.buf:32768"), ("G:A", "H:B.2"), (("misc.*", "G"), ("other.*", "H")))
        relay = serve(folder, port)
        try:
            compare("served, before anything came", report(folder), report(folder, "--openmetrics"))
            peer = called(port, PATIENCE)
            for at in range(30):
                group = ("misc.test", "other.test", "alt.test")[at % 3]
                peer.send(f"TAKETHIS <a{at}@x>\r\n".encode() + dated(f"<a{at}@x>", b"x" * 70 + b"\r\n", group) + b".\r\n")
                peer.line()
            for one in ("a0", "b"):
                peer.send(f"CHECK <{one}@x>\r\n".encode())
                peer.line()
            compare("served, with articles", report(folder), report(folder, "--openmetrics"))
            peer.closes()
            relay.kill()
            relay = Life(folder, port)

            def is_repaired():
                done = asked("report", folder, "--openmetrics")
                if is_told := re.search("^cnrelay_recovering 1$", done.stdout, re.M):
                    compare("while it is repaired", "recovering\nbuffer A\nbuffer B.2\n", done.stdout)
                return done.returncode == 0 and not is_told

            waits_until(is_repaired, "it isn't repaired", PATIENCE)
            compare("after a repair", report(folder), report(folder, "--openmetrics"))
            if asked("stop", folder).returncode:
                raise Wrong("a stop ends with a fault")
        finally:
            relay.kill()
