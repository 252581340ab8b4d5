//! Drives a news server from outside: `load WORD KEY=VALUE ..`, and prints what it saw in one line.
//!
//! take     articles by TAKETHIS, pipelined          code=239, or 439 for ids that are known
//! check    CHECK, pipelined                         code=438, or 238 for ids that are new
//! new      CHECK of new ids, 200 a connection, one connection after the other; each is timed alone
//! offer    CHECK, then TAKETHIS of what is wanted, as a peer streams them
//! fetch    ARTICLE, or command=HEAD|BODY|STAT, pipelined
//! pace     what=take|check|fetch, burst=K commands at once, then a wait for their answers
//! try      articles of many kinds by TAKETHIS, which `push_rest` makes
//! soak     many peers and readers for some minutes (soak.rs)
//!
//! to=ADDRESS:PORT,.. a connection each, from=ADDRESS,.. and identity=NAME,.. of each; group=NAME,..
//! of each article in turn; run=TAG the part of the message-ids that tells runs apart; count=N
//! commands a connection, distinct=N of them with ids of their own; octets=N of an article;
//! window=N unanswered at most, bytes=N of articles among them; gather=N sends more once an N-th of
//! the window is free; lazy=1 leaves it to the system when to acknowledge what was read, up to 40 ms
//! later, else at once. An answer with another code, or on another message-id, ends the program
//! with status 1.
mod readers;
mod sender;
mod soak;
mod texts;
mod wire;

use std::collections::{HashMap, VecDeque};
use std::io;
use std::net::{Ipv4Addr, SocketAddrV4};
use std::sync::{Arc, Barrier};
use std::thread;
use std::time::Instant;
use texts::Origin;
use wire::{Wire, Words, wrong};

/// What one connection has to do.
pub struct Load {
    to: SocketAddrV4,
    from: Ipv4Addr,
    origin: Origin,
    groups: Vec<String>,
    run: String,
    ids: Vec<String>,
    number: usize,
    count: usize,
    distinct: usize,
    octets: usize,
    window: usize,
    bytes: usize,
    code: u16,
    command: String,
    burst: usize,
    what: String,
    is_lazy: bool,
    /// What part of the window has to be free before more is sent: one in so many.
    gather: usize,
}

/// How many ids word `new` offers in a connection: a peer may be let have no more than 256 open.
const OFFERED: usize = 200;

/// What one connection saw; `timed` are its seconds, where not all between begin and end count.
struct Seen {
    begun: Instant,
    ended: Instant,
    timed: Option<f64>,
    waits: Vec<f64>,
    octets: usize,
}

impl Load {
    /// Makes the message-ids, before the time is taken.
    fn make_ids(&mut self) {
        let ids = (0..self.distinct)
            .map(|number| format!("<{}.{}.{number:08}@bench.example>", self.run, self.number));
        self.ids = ids.collect();
    }

    /// Adds the command number `number`, with its article where it has one.
    fn push(&self, what: &str, octets: &mut Vec<u8>, number: usize) {
        let id = &self.ids[number % self.ids.len()];
        let keyword = match what {
            "take" => "TAKETHIS",
            "check" => "CHECK",
            _ => &self.command,
        };
        for part in [keyword, " ", id, "\r\n"] {
            octets.extend_from_slice(part.as_bytes());
        }
        if what == "take" {
            let group = &self.groups[number % self.groups.len()];
            texts::push_plain(octets, &self.origin, group, id, self.octets);
            octets.extend_from_slice(b".\r\n");
        }
    }

    /// Reads the answer to the command number `number`; the octets of the text that came with it.
    fn hear(&self, what: &str, wire: &mut Wire, number: usize) -> io::Result<usize> {
        let id = &self.ids[number % self.ids.len()];
        if what != "fetch" {
            let code = wire.answer_on(id.as_bytes())?;
            return if code == self.code {
                Ok(0)
            } else {
                wrong(format!("{code} for {what} of {id}"))
            };
        }
        let line = wire.line()?;
        let code = wire::code_of(&line);
        if !(220..=223).contains(&code) || !line.windows(id.len()).any(|part| part == id.as_bytes())
        {
            return wrong(format!(
                "{} for {} {id}",
                wire::text_of(&line),
                self.command
            ));
        }
        if code == 223 {
            Ok(0)
        } else {
            wire.skip_block()
        }
    }

    /// Commands in a row from `first` to before `last`, as many unanswered as the window lets.
    fn stream(&self, what: &str, wire: &mut Wire, first: usize, last: usize) -> io::Result<usize> {
        let (mut out, mut unanswered) = (Vec::new(), VecDeque::new());
        let (mut next, mut heard, mut pending, mut octets) = (first, first, 0, 0);
        while heard < last {
            out.clear();
            let free = self.window - unanswered.len();
            if self.gather * free >= self.window || unanswered.len() < 2 {
                while next < last
                    && unanswered.len() < self.window
                    && (unanswered.len() < 2 || pending < self.bytes)
                {
                    let before = out.len();
                    self.push(what, &mut out, next);
                    unanswered.push_back(out.len() - before);
                    pending += out.len() - before;
                    next += 1;
                }
            }
            if !out.is_empty() {
                wire.send(&out)?;
            }
            loop {
                octets += self.hear(what, wire, heard)?;
                pending -= unanswered.pop_front().unwrap_or(0);
                heard += 1;
                if heard == last || !wire.has_line() {
                    break;
                }
            }
        }
        Ok(octets)
    }

    /// CHECK ahead, TAKETHIS of each id as it is wanted.
    fn offer(&self, wire: &mut Wire) -> io::Result<usize> {
        let (mut out, mut awaited) = (Vec::new(), VecDeque::new());
        let (mut next, mut taken) = (0, 0);
        while taken < self.count {
            while next < self.count && awaited.len() < self.window {
                self.push("check", &mut out, next);
                awaited.push_back((238, next));
                next += 1;
            }
            if !out.is_empty() {
                wire.send(&out)?;
                out.clear();
            }
            loop {
                let Some((wanted, number)) = awaited.pop_front() else {
                    break;
                };
                let id = &self.ids[number % self.ids.len()];
                let code = wire.answer_on(id.as_bytes())?;
                if code != wanted {
                    return wrong(format!("{code} for {id}, not {wanted}"));
                }
                if wanted == 238 {
                    self.push("take", &mut out, number);
                    awaited.push_back((239, number));
                } else {
                    taken += 1;
                }
                if !wire.has_line() || out.len() > self.bytes {
                    break;
                }
            }
        }
        Ok(0)
    }

    /// So many commands at once, then their answers; microseconds of each wait.
    fn pace(&self, wire: &mut Wire) -> io::Result<Vec<f64>> {
        let (mut out, mut waits) = (Vec::new(), Vec::new());
        for first in (0..self.count).step_by(self.burst) {
            let last = (first + self.burst).min(self.count);
            out.clear();
            (first..last).for_each(|number| self.push(&self.what, &mut out, number));
            let begun = Instant::now();
            wire.send(&out)?;
            for number in first..last {
                self.hear(&self.what, wire, number)?;
            }
            waits.push(1e6 * begun.elapsed().as_secs_f64());
        }
        Ok(waits)
    }

    fn open(&self) -> io::Result<Wire> {
        let mut wire = Wire::open(self.from, self.to)?;
        wire.is_lazy = self.is_lazy;
        let line = wire.ask("MODE STREAM")?;
        // A server for readers has no such mode.
        if line.starts_with("203") || line.starts_with("50") {
            Ok(wire)
        } else {
            wrong(line)
        }
    }

    /// CHECKs of new ids, in further connections too; seconds of the CHECKs alone.
    fn offer_new(&self, wire: &mut Wire) -> io::Result<f64> {
        let mut seconds = 0.0;
        for first in (0..self.count).step_by(OFFERED) {
            if first > 0 {
                wire.ask("QUIT")?;
                // The relay waits for the end of what a peer sends before it takes the next connection.
                wire.close()?;
                *wire = self.open()?;
            }
            let begun = Instant::now();
            self.stream("check", wire, first, (first + OFFERED).min(self.count))?;
            seconds += begun.elapsed().as_secs_f64();
        }
        Ok(seconds)
    }

    fn serve(&self, word: &str, start: &Barrier) -> io::Result<Seen> {
        let opened = self.open();
        start.wait();
        let mut wire = opened?;
        let begun = Instant::now();
        let (mut waits, mut octets, mut timed) = (Vec::new(), 0, None);
        match word {
            "take" | "check" | "fetch" => octets = self.stream(word, &mut wire, 0, self.count)?,
            "new" => timed = Some(self.offer_new(&mut wire)?),
            "offer" => octets = self.offer(&mut wire)?,
            "pace" => waits = self.pace(&mut wire)?,
            _ => return wrong(format!("{word}: no such word")),
        }
        let ended = Instant::now();
        wire.ask("QUIT")?;
        Ok(Seen {
            begun,
            ended,
            timed,
            waits,
            octets,
        })
    }
}

/// The loads that the words ask for, one a connection.
fn loads(words: &Words) -> Vec<Load> {
    let to = words.list("to", "127.0.0.1:11901");
    let (from, identity) = (
        words.list("from", "127.0.0.1"),
        words.list("identity", "one.example"),
    );
    (0..to.len())
        .map(|number| Load {
            to: to[number].parse().expect("an address and a port"),
            from: from[number % from.len()].parse().expect("an address"),
            origin: Origin::new(&identity[number % identity.len()]),
            groups: words.list("group", "bench.a.x"),
            run: words.text("run", "r"),
            ids: Vec::new(),
            number,
            count: words.number("count", 1_000) as usize,
            distinct: words.number("distinct", words.number("count", 1_000)) as usize,
            octets: words.number("octets", 1_024) as usize,
            window: words.number("window", 64) as usize,
            bytes: words.number("bytes", 1 << 20) as usize,
            code: words.number("code", 239) as u16,
            command: words.text("command", "ARTICLE"),
            burst: words.number("burst", 1) as usize,
            what: words.text("what", ""),
            is_lazy: words.number("lazy", 0) == 1,
            gather: words.number("gather", 8) as usize,
        })
        .collect()
}

/// Processor seconds of this program so far.
fn own_seconds() -> f64 {
    let stat = std::fs::read_to_string("/proc/self/stat").unwrap_or_default();
    let fields: Vec<&str> = stat
        .rsplit(')')
        .next()
        .unwrap_or("")
        .split_whitespace()
        .collect();
    let ticks: f64 = fields
        .iter()
        .skip(11)
        .take(2)
        .filter_map(|ticks| ticks.parse::<f64>().ok())
        .sum();
    ticks / 100.0
}

fn print_seen(loads: &[Load], seen: &[Seen]) {
    let begun = seen
        .iter()
        .map(|seen| seen.begun)
        .min()
        .expect("a connection");
    let ended = seen
        .iter()
        .map(|seen| seen.ended)
        .max()
        .expect("a connection");
    let done: usize = loads.iter().map(|load| load.count).sum();
    let octets: usize = seen.iter().map(|seen| seen.octets).sum();
    let timed = seen
        .iter()
        .filter_map(|seen| seen.timed)
        .max_by(f64::total_cmp);
    let seconds = timed.unwrap_or((ended - begun).as_secs_f64());
    print!(
        "done={done} seconds={seconds:.6} octets={octets} own={:.2}",
        own_seconds()
    );
    let mut waits: Vec<f64> = seen
        .iter()
        .flat_map(|seen| seen.waits.iter().copied())
        .collect();
    waits.sort_by(f64::total_cmp);
    if let Some(most) = waits.last() {
        let stalls = waits.iter().filter(|wait| **wait > 30_000.0).count();
        let (middle, high) = (waits[waits.len() / 2], waits[waits.len() * 99 / 100]);
        print!(
            " waits={} middle={middle:.1} high={high:.1} most={most:.1} stalls={stalls}",
            waits.len()
        );
    }
    println!();
}

fn main() {
    let mut arguments = std::env::args().skip(1);
    let word = arguments.next().unwrap_or_default();
    let words = Words(
        arguments
            .map(|word| {
                word.split_once('=')
                    .map(|(key, value)| (key.to_string(), value.to_string()))
                    .expect("KEY=VALUE")
            })
            .collect::<HashMap<_, _>>(),
    );
    if word == "soak" || word == "try" {
        let ended = if word == "soak" {
            soak::soak(&words)
        } else {
            soak::send_tried(&words)
        };
        if let Err(error) = ended {
            eprintln!("load {word}: {error}");
            std::process::exit(1);
        }
        return;
    }
    let mut loads = loads(&words);
    loads.iter_mut().for_each(Load::make_ids);
    let loads = Arc::new(loads);
    let start = Arc::new(Barrier::new(loads.len()));
    let threads: Vec<_> = (0..loads.len())
        .map(|number| {
            let (loads, start, word) = (loads.clone(), start.clone(), word.clone());
            thread::spawn(move || loads[number].serve(&word, &start))
        })
        .collect();
    let mut seen = Vec::new();
    for thread in threads {
        match thread.join().expect("a thread that ends") {
            Ok(one) => seen.push(one),
            Err(error) => {
                eprintln!("load {word}: {error}");
                std::process::exit(1);
            }
        }
    }
    print_seen(&loads, &seen);
}
