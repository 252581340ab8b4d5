//! Four peers that send the same articles in different orders, and two readers that check what
//! they fetch.
//!
//! The senders go through the numbers in blocks, each in an order of its own, none more than two
//! blocks ahead of another: by TAKETHIS, by CHECK and TAKETHIS, or by IHAVE. One gives a Path that
//! isn't its own every second time. Each connection ends in one of three ways: by QUIT, in the
//! middle of an article, or with offers that nothing follows; always with nothing unanswered, so
//! that the articles stored are those that were answered 239 or 235, exactly.
use crate::readers;
use crate::sender::Sender;
use crate::texts::Articles;
use crate::wire::Words;
use std::collections::VecDeque;
use std::io;
use std::net::SocketAddrV4;
use std::sync::Mutex;
use std::sync::atomic::{AtomicBool, AtomicU64, Ordering::SeqCst};
use std::thread;
use std::time::{Duration, Instant};

/// How many accepted articles the readers are told of.
const RECENT: usize = 4_096;

/// An accepted article: its number, and the blocks that had been accepted in its group by then.
#[derive(Clone, Copy)]
pub struct Accepted {
    pub number: u64,
    pub passed: u64,
}

/// What senders and readers share.
pub struct Soak {
    pub articles: Articles,
    pub own: String,
    pub identities: Vec<String>,
    pub senders: Vec<SocketAddrV4>,
    pub readers: Vec<SocketAddrV4>,
    pub connections: u64,
    /// The numbers that each sender has begun.
    pub begun: Vec<AtomicU64>,
    /// Articles by the code that answered them: stored, known, refused, later.
    pub stored: AtomicU64,
    pub known: AtomicU64,
    pub later: AtomicU64,
    /// Blocks that were accepted in each group.
    pub passed: Vec<AtomicU64>,
    pub recent: Mutex<VecDeque<Accepted>>,
    /// The blocks of a buffer, and how many may be accepted in a group before an article of it may
    /// be gone.
    pub buffer_blocks: u64,
    pub kept_blocks: u64,
    pub sent: AtomicBool,
    begins: Instant,
    duration: Duration,
}

impl Soak {
    fn new(words: &Words) -> Soak {
        let addresses = |key: &str| -> Vec<SocketAddrV4> {
            let listed = words.list(key, "");
            let given = listed.iter().filter(|address| !address.is_empty());
            given
                .map(|address| address.parse().expect("an address and a port"))
                .collect()
        };
        let groups = words.list("group", "bench.a.x,bench.b.x");
        let senders = addresses("to");
        Soak {
            own: words.text("own", "relay.example"),
            identities: words.list(
                "identity",
                "one.example,two.example,three.example,four.example",
            ),
            readers: addresses("readers"),
            connections: words.number("connections", 4),
            begun: senders.iter().map(|_| AtomicU64::new(0)).collect(),
            senders,
            stored: AtomicU64::new(0),
            known: AtomicU64::new(0),
            later: AtomicU64::new(0),
            passed: groups.iter().map(|_| AtomicU64::new(0)).collect(),
            recent: Mutex::new(VecDeque::with_capacity(RECENT)),
            articles: Articles::new(
                &words.text("run", "s"),
                groups,
                words.number("largest", 900_000),
            ),
            buffer_blocks: words.number("blocks", 32_768),
            kept_blocks: words.number("kept", 32_768),
            sent: AtomicBool::new(false),
            begins: Instant::now(),
            duration: Duration::from_secs(words.number("seconds", 600)),
        }
    }

    /// When connection number `connection` of a port is to end.
    pub fn end_of(&self, connection: u64) -> Instant {
        self.begins
            + self
                .duration
                .mul_f64((connection + 1) as f64 / self.connections as f64)
    }

    /// The Path that a sender gives an article.
    pub fn path(&self, sender: usize, number: u64) -> String {
        if sender == 3 && number % 2 == 1 {
            return "elsewhere.example!not-for-mail".to_string();
        }
        format!("{}!not-for-mail", self.identities[sender])
    }

    /// The Path lines that an article may have been stored with.
    pub fn stored_paths(&self, number: u64) -> Vec<String> {
        (0..self.senders.len())
            .map(|sender| {
                let (path, identity) = (self.path(sender, number), &self.identities[sender]);
                let mark = if path.starts_with(identity.as_str()) {
                    "!".to_string()
                } else {
                    format!(".MISMATCH.{identity}")
                };
                format!("Path: {}!{mark}!{path}\r\n", self.own).replace("!!!", "!!")
            })
            .collect()
    }

    pub fn group_of(&self, number: u64) -> usize {
        (number % self.passed.len() as u64) as usize
    }

    /// An article of so many octets was answered as stored.
    pub fn accept(&self, number: u64, octets: usize) {
        let blocks = octets.div_ceil(480) as u64;
        let passed = self.passed[self.group_of(number)].fetch_add(blocks, SeqCst);
        self.stored.fetch_add(1, SeqCst);
        let mut recent = self.recent.lock().expect("a lock");
        if recent.len() == RECENT {
            recent.pop_front();
        }
        recent.push_back(Accepted { number, passed });
    }
}

/// Prints what the server has in memory by the articles stored, now and then.
fn watch(soak: &Soak, pid: u64) {
    let mut next = Instant::now();
    while !soak.sent.load(SeqCst) {
        if Instant::now() >= next {
            let status = std::fs::read_to_string(format!("/proc/{pid}/status")).unwrap_or_default();
            let resident = status
                .lines()
                .find_map(|line| line.strip_prefix("VmRSS:"))
                .unwrap_or("0")
                .trim();
            let kilobytes = resident.split(' ').next().unwrap_or("0");
            println!(
                "memory seconds={:.1} stored={} kilobytes={kilobytes}",
                soak.begins.elapsed().as_secs_f64(),
                soak.stored.load(SeqCst)
            );
            next += soak.duration / 60;
        }
        thread::sleep(Duration::from_millis(20));
    }
}

/// Sends articles of many kinds, so many from number 0 on, by one connection.
pub fn send_tried(words: &Words) -> io::Result<()> {
    let soak = Soak::new(words);
    let sender = words.number("sender", 0) as usize;
    Sender::new(&soak, sender).send_all(words.number("count", 1_000))?;
    println!(
        "stored={} known={}",
        soak.stored.load(SeqCst),
        soak.known.load(SeqCst)
    );
    Ok(())
}

/// An error with who met it.
fn met_by(who: String, error: io::Error) -> io::Error {
    io::Error::new(error.kind(), format!("{who}: {error}"))
}

/// Lets all senders and readers at the server until the time is over; prints what they saw.
pub fn soak(words: &Words) -> io::Result<()> {
    let soak = &Soak::new(words);
    let pid = words.number("pid", 0);
    let ends = thread::scope(|scope| {
        let senders: Vec<_> = (0..soak.senders.len())
            .map(|number| scope.spawn(move || Sender::new(soak, number).run()))
            .collect();
        let by_id = scope.spawn(|| readers::by_id(soak));
        let by_token = scope.spawn(|| readers::by_token(soak));
        scope.spawn(move || watch(soak, pid));
        let mut ends = Vec::new();
        for (number, sender) in senders.into_iter().enumerate() {
            ends.push((format!("sender {number}"), sender.join()));
        }
        soak.sent.store(true, SeqCst);
        ends.push(("reader by id".to_string(), by_id.join()));
        ends.push(("reader by token".to_string(), by_token.join()));
        ends
    });
    println!(
        "sent stored={} known={} later={} begun={} blocks={}",
        soak.stored.load(SeqCst),
        soak.known.load(SeqCst),
        soak.later.load(SeqCst),
        sum(&soak.begun),
        sum(&soak.passed)
    );
    for (who, end) in ends {
        end.expect("a thread that ends")
            .map_err(|error| met_by(who, error))?;
    }
    Ok(())
}

fn sum(numbers: &[AtomicU64]) -> u64 {
    numbers.iter().map(|number| number.load(SeqCst)).sum()
}
