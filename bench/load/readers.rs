//! The two readers of a soak: one fetches by message-id, one takes its feed's tokens and fetches by
//! token. What comes has to be the article of that number, octet for octet, with one of the Paths
//! that it may have been stored with.
use crate::soak::Soak;
use crate::texts::Chance;
use crate::wire::{Wire, code_of, find, text_of, wrong};
use std::collections::{BTreeMap, VecDeque};
use std::io;
use std::net::Ipv4Addr;
use std::sync::atomic::Ordering::SeqCst;
use std::thread;
use std::time::{Duration, Instant};

/// Blocks that may have been begun without the senders' having heard of it yet.
const ON_THE_WAY: u64 = 12_000;
/// How many tokens are kept to be fetched again once all is sent.
const KEPT: usize = 20_000;

/// What is wrong with a text that should be that of article `number`, if anything.
fn fault_of(soak: &Soak, number: u64, text: &[u8]) -> Option<String> {
    let mut rest = Vec::new();
    soak.articles.push_rest(&mut rest, number);
    let line = find(text, b"\r\n").map_or(text.len(), |at| at + 2);
    let path = text_of(&text[..line]);
    if !soak.stored_paths(number).contains(&path) {
        return Some(format!("number {number} has the Path line {path:?}"));
    }
    if text[line..] == rest[..] {
        return None;
    }
    let at = text[line..]
        .iter()
        .zip(&rest)
        .take_while(|(left, right)| left == right)
        .count();
    Some(format!(
        "number {number} has {} octets behind its Path, not {}, and differs from {at} on",
        text.len() - line,
        rest.len()
    ))
}

/// Whether this is the overview line of an article under one of its Paths.
fn is_over(soak: &Soak, number: u64, line: &str) -> bool {
    soak.stored_paths(number).iter().any(|path| {
        let mut text = path.clone().into_bytes();
        soak.articles.push_rest(&mut text, number);
        soak.articles.overview(number, &text) == line
    })
}

/// Whether an article is surely still there that was accepted when so many blocks had been.
fn is_kept(soak: &Soak, number: u64, passed: u64, blocks: u64) -> bool {
    let now = soak.passed[soak.group_of(number)].load(SeqCst);
    now - passed + ON_THE_WAY < blocks
}

/// Asks for one article in one of the ways, and checks the answer; whether it was there.
fn ask(soak: &Soak, wire: &mut Wire, number: u64, way: u64) -> io::Result<bool> {
    let id = soak.articles.id(number);
    let command = [
        "ARTICLE", "ARTICLE", "ARTICLE", "HEAD", "BODY", "STAT", "OVER",
    ][way as usize];
    let line = wire.ask(&format!("{command} {id}"))?;
    let code = code_of(line.as_bytes());
    if code == 430 {
        return Ok(false);
    }
    let wanted = match command {
        "ARTICLE" => 220,
        "HEAD" => 221,
        "BODY" => 222,
        "STAT" => 223,
        _ => 224,
    };
    if code != wanted || (code != 224 && line != format!("{code} 0 {id}")) {
        return wrong(format!("{line} for {command} {id}"));
    }
    if code == 223 {
        return Ok(true);
    }
    let text = wire.block()?;
    let mut rest = Vec::new();
    soak.articles.push_rest(&mut rest, number);
    let head = find(&rest, b"\r\n\r\n").map_or(rest.len(), |at| at + 2);
    let fault = match code {
        220 => fault_of(soak, number, &text),
        // The header alone is looked at as if the body followed.
        221 => fault_of(soak, number, &[&text[..], &rest[head..]].concat()),
        222 => (text != rest[head + 2..]).then(|| format!("the body of {id} differs")),
        _ => (!is_over(soak, number, text_of(&text).trim_end_matches("\r\n")))
            .then(|| format!("the overview of {id}: {}", text_of(&text))),
    };
    match fault {
        Some(fault) => wrong(format!("{command}: {fault}")),
        None => Ok(true),
    }
}

/// Fetches by message-id: ids of late, of long ago, and such as nobody sent yet.
pub fn by_id(soak: &Soak) -> io::Result<()> {
    let mut chance = Chance::new(99);
    let blocks = soak.kept_blocks;
    let (mut whole, mut gone, mut surely) = (0, 0, 0);
    for connection in 0..soak.connections {
        let mut wire = Wire::open(Ipv4Addr::LOCALHOST, soak.readers[0])?;
        let end = soak.end_of(connection);
        while Instant::now() < end {
            let way = chance.below(7);
            let recent = {
                let recent = soak.recent.lock().expect("a lock");
                let at = chance.below(recent.len().max(1) as u64) as usize;
                recent.get(at).copied()
            };
            let least = soak
                .begun
                .iter()
                .map(|begun| begun.load(SeqCst))
                .min()
                .unwrap_or(0);
            match recent {
                Some(accepted) if chance.below(2) == 0 => {
                    let is_there = ask(soak, &mut wire, accepted.number, way)?;
                    let is_due = is_kept(soak, accepted.number, accepted.passed, blocks);
                    if is_due && !is_there {
                        return wrong(format!(
                            "{} is gone too early",
                            soak.articles.id(accepted.number)
                        ));
                    }
                    surely += u64::from(is_due);
                    if is_there { whole += 1 } else { gone += 1 }
                }
                _ => {
                    let number = chance.below(least + 1_000);
                    if ask(soak, &mut wire, number, way)? {
                        whole += 1
                    } else {
                        gone += 1
                    }
                }
            }
        }
        // Now and then it goes away in the middle of what it asked for.
        if connection % 2 == 1 {
            let asked: String = soak
                .recent
                .lock()
                .expect("a lock")
                .iter()
                .rev()
                .take(50)
                .map(|accepted| format!("ARTICLE {}\r\n", soak.articles.id(accepted.number)))
                .collect();
            wire.send(asked.as_bytes())?;
        } else {
            wire.ask("QUIT")?;
        }
    }
    println!("by id whole={whole} gone={gone} surely={surely}");
    Ok(())
}

/// A token's buffer, its place (cycle times the buffer's blocks, and its first), and its octets.
fn parts_of(token: &str, blocks: u64) -> Option<(u64, u64, u64)> {
    let digits = token.strip_prefix('@')?.strip_suffix('@')?;
    let number = |from: usize, to: usize| u64::from_str_radix(digits.get(from..to)?, 16).ok();
    Some((
        number(2, 4)?,
        number(4, 12)? * blocks + number(12, 20)?,
        number(20, 28)?,
    ))
}

/// What the reader by token has seen.
#[derive(Default)]
struct Tokens {
    /// The last place that was listed of each buffer: they rise, since a writer's articles settle
    /// in its order.
    places: BTreeMap<u64, u64>,
    kept: VecDeque<String>,
    serial: u64,
    taken: u64,
    missed: u64,
    whole: u64,
    gone: u64,
}

impl Tokens {
    /// Takes tokens from the feed; those that came.
    fn take(&mut self, soak: &Soak, wire: &mut Wire, count: u64) -> io::Result<Vec<String>> {
        let line = wire.ask(&format!("XTAKE {count}"))?;
        if code_of(line.as_bytes()) != 290 {
            return wrong(line);
        }
        let listed = text_of(&wire.block()?);
        let mut lines = listed.lines();
        let missed: u64 = lines
            .next()
            .and_then(|line| line.parse().ok())
            .unwrap_or(u64::MAX);
        self.missed += missed;
        self.serial += missed;
        let mut tokens = Vec::new();
        for line in lines {
            let (serial, token) = line.split_once(' ').unwrap_or(("", ""));
            self.serial += 1;
            self.taken += 1;
            let Some((buffer, place, _)) = parts_of(token, soak.buffer_blocks) else {
                return wrong(line.to_string());
            };
            let before = self.places.insert(buffer, place);
            if serial.parse() != Ok(self.serial) || before.is_some_and(|before| before >= place) {
                return wrong(format!(
                    "XTAKE lists {line:?} where serial {} is due, behind {before:?}",
                    self.serial
                ));
            }
            if self.kept.len() == KEPT {
                self.kept.pop_front();
            }
            self.kept.push_back(token.to_string());
            tokens.push(token.to_string());
        }
        Ok(tokens)
    }

    /// Fetches by tokens, eight at once; of each whether it was there.
    fn fetch(&mut self, soak: &Soak, wire: &mut Wire, tokens: &[String]) -> io::Result<Vec<bool>> {
        let mut found = Vec::new();
        for eight in tokens.chunks(8) {
            wire.send(
                eight
                    .iter()
                    .map(|token| format!("XFETCH {token}\r\n"))
                    .collect::<String>()
                    .as_bytes(),
            )?;
            for token in eight {
                let line = text_of(&wire.line()?);
                if line == format!("492 {token} gone") {
                    self.gone += 1;
                    found.push(false);
                    continue;
                }
                if line != format!("292 {token}") {
                    return wrong(format!("{line} for XFETCH {token}"));
                }
                let text = wire.block()?;
                let octets = parts_of(token, 1).map_or(0, |(_, _, octets)| octets);
                let id = text_of(&text)
                    .lines()
                    .find_map(|line| line.strip_prefix("Message-ID: ").map(str::to_string));
                let Some(number) = id.and_then(|id| soak.articles.number_of(&id)) else {
                    return wrong(format!(
                        "{token} gives a text without one of the message-ids"
                    ));
                };
                if text.len() as u64 != octets {
                    return wrong(format!("{token} gives {} octets", text.len()));
                }
                if let Some(fault) = fault_of(soak, number, &text) {
                    return wrong(format!("{token}: {fault}"));
                }
                self.whole += 1;
                found.push(true);
            }
        }
        Ok(found)
    }
}

/// Takes its feed's tokens and fetches them; once all is sent, what is left, and some again.
pub fn by_token(soak: &Soak) -> io::Result<()> {
    let mut tokens = Tokens::default();
    for connection in 0..soak.connections {
        let mut wire = Wire::open(Ipv4Addr::LOCALHOST, soak.readers[1])?;
        let end = soak.end_of(connection);
        let is_last = connection + 1 == soak.connections;
        loop {
            let is_over = if is_last {
                soak.sent.load(SeqCst)
            } else {
                Instant::now() >= end
            };
            let taken = tokens.take(soak, &mut wire, 100)?;
            tokens.fetch(soak, &mut wire, &taken)?;
            if taken.is_empty() {
                thread::sleep(Duration::from_millis(1));
            }
            if is_over && (taken.is_empty() || !is_last) {
                break;
            }
        }
        if is_last {
            print_kept(soak, &mut tokens, &mut wire)?;
        }
        wire.ask("QUIT")?;
    }
    println!(
        "by token whole={} gone={} taken={} missed={}",
        tokens.whole, tokens.gone, tokens.taken, tokens.missed
    );
    Ok(())
}

/// Fetches kept tokens once more, now that nothing is written, and prints of each buffer the last
/// place that is gone and the first that is found.
fn print_kept(soak: &Soak, tokens: &mut Tokens, wire: &mut Wire) -> io::Result<()> {
    let kept: Vec<String> = tokens.kept.iter().rev().step_by(7).cloned().collect();
    let found = tokens.fetch(soak, wire, &kept)?;
    let mut buffers: BTreeMap<u64, (u64, u64)> = BTreeMap::new();
    for (token, is_found) in kept.iter().zip(found) {
        let Some((buffer, place, _)) = parts_of(token, soak.buffer_blocks) else {
            return wrong(token.clone());
        };
        let (gone, there) = buffers.entry(buffer).or_insert((0, u64::MAX));
        if is_found {
            *there = place.min(*there)
        } else {
            *gone = (place + 1).max(*gone)
        }
    }
    for (buffer, (gone, there)) in buffers {
        println!("kept buffer={buffer} gone={gone} there={there}");
    }
    Ok(())
}
