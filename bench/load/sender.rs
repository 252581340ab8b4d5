//! A sender of a soak: its articles, its connections and how they end.
use crate::soak::Soak;
use crate::texts::push_block;
use crate::wire::{Wire, code_of, wrong};
use std::collections::VecDeque;
use std::io;
use std::net::Ipv4Addr;
use std::sync::atomic::Ordering::SeqCst;
use std::thread;
use std::time::{Duration, Instant};

/// The numbers of a block, in which every order is a permutation.
const BLOCK: u64 = 500;
/// Numbers prime to `BLOCK`: the step of each sender's order.
const STEPS: [u64; 4] = [1, 499, 171, 333];
/// Octets that may be on their way without an answer, and articles.
const WINDOW_OCTETS: usize = 1 << 20;
const WINDOW: usize = 64;

/// One sender, and what it reuses.
pub struct Sender<'soak> {
    soak: &'soak Soak,
    number: usize,
    text: Vec<u8>,
    out: Vec<u8>,
    /// Of each answer that is due: the number, the octets, whether it is to an article.
    awaited: VecDeque<(u64, usize, bool)>,
    pending: usize,
}

impl Sender<'_> {
    pub fn new(soak: &Soak, number: usize) -> Sender<'_> {
        Sender {
            soak,
            number,
            text: Vec::new(),
            out: Vec::new(),
            awaited: VecDeque::new(),
            pending: 0,
        }
    }

    /// Adds the block of an article; the octets of its text.
    fn push_article(&mut self, number: u64) -> usize {
        self.text.clear();
        self.text.extend_from_slice(
            format!("Path: {}\r\n", self.soak.path(self.number, number)).as_bytes(),
        );
        self.soak.articles.push_rest(&mut self.text, number);
        push_block(&mut self.out, &self.text);
        self.text.len()
    }

    fn push_take(&mut self, number: u64) {
        self.out.extend_from_slice(
            format!("TAKETHIS {}\r\n", self.soak.articles.id(number)).as_bytes(),
        );
        let octets = self.push_article(number);
        self.pending += octets;
        self.awaited.push_back((number, octets, true));
    }

    fn flush(&mut self, wire: &mut Wire) -> io::Result<()> {
        if !self.out.is_empty() {
            wire.send(&self.out)?;
            self.out.clear();
        }
        Ok(())
    }

    /// Hears what is due, until no more than so many answers are.
    fn hear(&mut self, wire: &mut Wire, most: usize) -> io::Result<()> {
        while self.awaited.len() > most {
            self.flush(wire)?;
            let Some((number, octets, is_article)) = self.awaited.pop_front() else {
                break;
            };
            let id = self.soak.articles.id(number);
            let code = wire.answer_on(id.as_bytes())?;
            if is_article {
                self.pending -= octets;
            }
            match (is_article, code) {
                (true, 239) => self.soak.accept(number, octets),
                (true, 439) | (false, 438) => _ = self.soak.known.fetch_add(1, SeqCst),
                (false, 431) => _ = self.soak.later.fetch_add(1, SeqCst),
                (false, 238) => self.push_take(number),
                _ => return wrong(format!("{code} for {id}")),
            }
        }
        self.flush(wire)
    }

    fn ihave(&mut self, wire: &mut Wire, number: u64) -> io::Result<()> {
        let line = wire.ask(&format!("IHAVE {}", self.soak.articles.id(number)))?;
        match code_of(line.as_bytes()) {
            335 => {
                let octets = self.push_article(number);
                self.flush(wire)?;
                match code_of(&wire.line()?) {
                    235 => self.soak.accept(number, octets),
                    436 => _ = self.soak.later.fetch_add(1, SeqCst),
                    437 => _ = self.soak.known.fetch_add(1, SeqCst),
                    code => return wrong(format!("{code} after IHAVE of number {number}")),
                }
            }
            435 => _ = self.soak.known.fetch_add(1, SeqCst),
            436 => _ = self.soak.later.fetch_add(1, SeqCst),
            _ => return wrong(line),
        }
        Ok(())
    }

    /// The place of the `index`-th number of this sender.
    fn number_at(&self, index: u64) -> u64 {
        let (block, place) = (index / BLOCK, index % BLOCK);
        block * BLOCK + (place * STEPS[self.number % STEPS.len()] + 37 * self.number as u64) % BLOCK
    }

    /// Waits while another sender is two blocks behind.
    fn keep_together(&self, end: Instant) {
        let own = self.soak.begun[self.number].load(SeqCst) / BLOCK;
        while Instant::now() < end
            && self
                .soak
                .begun
                .iter()
                .any(|begun| begun.load(SeqCst) / BLOCK + 2 < own)
        {
            thread::sleep(Duration::from_millis(1));
        }
    }

    fn send_until(&mut self, wire: &mut Wire, end: Instant) -> io::Result<()> {
        while Instant::now() < end {
            let index = self.soak.begun[self.number].load(SeqCst);
            if index % BLOCK == 0 {
                self.hear(wire, 0)?;
                self.keep_together(end);
            }
            let number = self.number_at(index);
            match (index / BLOCK + self.number as u64) % 8 {
                5 => self.ihave(wire, number)?,
                2 | 4 => {
                    self.out.extend_from_slice(
                        format!("CHECK {}\r\n", self.soak.articles.id(number)).as_bytes(),
                    );
                    self.awaited.push_back((number, 0, false));
                }
                _ => self.push_take(number),
            }
            self.soak.begun[self.number].store(index + 1, SeqCst);
            if self.out.len() > 8_192 || self.awaited.len() >= WINDOW {
                self.flush(wire)?;
            }
            while self.awaited.len() >= WINDOW || self.pending > WINDOW_OCTETS {
                self.hear(wire, self.awaited.len() - 1)?;
            }
        }
        self.hear(wire, 0)
    }

    /// Ends a connection in one of three ways, with nothing unanswered.
    fn leave(&mut self, wire: &mut Wire, connection: u64) -> io::Result<()> {
        let index = self.soak.begun[self.number].load(SeqCst);
        match (connection + self.number as u64) % 3 {
            0 => {
                let line = wire.ask("QUIT")?;
                if !line.starts_with("205") {
                    return wrong(line);
                }
            }
            1 => {
                self.push_take(self.number_at(index));
                self.out.truncate(self.out.len() / 2);
                self.flush(wire)?;
            }
            _ => {
                for ahead in 0..20 {
                    let line = wire.ask(&format!(
                        "CHECK {}",
                        self.soak.articles.id(self.number_at(index + ahead))
                    ))?;
                    if !matches!(code_of(line.as_bytes()), 238 | 431 | 438) {
                        return wrong(line);
                    }
                }
            }
        }
        self.awaited.clear();
        self.pending = 0;
        Ok(())
    }

    pub fn run(&mut self) -> io::Result<()> {
        for connection in 0..self.soak.connections {
            let mut wire = Wire::open(Ipv4Addr::LOCALHOST, self.soak.senders[self.number])?;
            let end = self.soak.end_of(connection);
            self.send_until(&mut wire, end)?;
            self.leave(&mut wire, connection)?;
        }
        Ok(())
    }

    /// Sends so many articles from number 0 on, by one connection.
    pub fn send_all(&mut self, count: u64) -> io::Result<()> {
        let mut wire = Wire::open(Ipv4Addr::LOCALHOST, self.soak.senders[self.number])?;
        for number in 0..count {
            self.push_take(number);
            self.flush(&mut wire)?;
            while self.awaited.len() >= WINDOW || self.pending > WINDOW_OCTETS {
                self.hear(&mut wire, self.awaited.len() - 1)?;
            }
        }
        self.hear(&mut wire, 0)?;
        wire.ask("QUIT")?;
        Ok(())
    }
}
