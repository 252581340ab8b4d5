//! Articles: of a given size for measuring, and of many kinds, told by their number, for trying.
use crate::wire::find;
use std::sync::OnceLock;
use std::time::{SystemTime, UNIX_EPOCH};

/// What an article for measuring says of where it comes from.
pub struct Origin {
    pub identity: String,
    pub date: String,
}

impl Origin {
    pub fn new(identity: &str) -> Origin {
        Origin {
            identity: identity.to_string(),
            date: today(),
        }
    }
}

/// The moment, as a Date field has it.
fn today() -> String {
    let seconds = SystemTime::now()
        .duration_since(UNIX_EPOCH)
        .expect("after 1970")
        .as_secs();
    let (days, second) = (seconds / 86_400, seconds % 86_400);
    // Howard Hinnant's days to civil date, for dates after 1970.
    let shifted = days + 719_468;
    let (era, day_of_era) = (shifted / 146_097, shifted % 146_097);
    let year_of_era =
        (day_of_era - day_of_era / 1_460 + day_of_era / 36_524 - day_of_era / 146_096) / 365;
    let day_of_year = day_of_era - (365 * year_of_era + year_of_era / 4 - year_of_era / 100);
    let part = (5 * day_of_year + 2) / 153;
    let day = day_of_year - (153 * part + 2) / 5 + 1;
    let month = if part < 10 { part + 3 } else { part - 9 };
    let year = year_of_era + era * 400 + u64::from(month <= 2);
    let names = [
        "Jan", "Feb", "Mar", "Apr", "May", "Jun", "Jul", "Aug", "Sep", "Oct", "Nov", "Dec",
    ];
    format!(
        "{day:02} {} {year} {:02}:{:02}:{:02} +0000",
        names[month as usize - 1],
        second / 3_600,
        second / 60 % 60,
        second % 60
    )
}

/// Adds an article of so many octets, lines of 62 with their ends 64, none with a dot in front.
pub fn push_plain(text: &mut Vec<u8>, origin: &Origin, group: &str, id: &str, octets: usize) {
    let begin = text.len();
    text.extend_from_slice(
        format!(
            "Path: {}!not-for-mail\r\nFrom: poster@bench.example\r\nNewsgroups: {group}\r\n\
             Subject: an article\r\nMessage-ID: {id}\r\nDate: {}\r\n\r\n",
            origin.identity, origin.date
        )
        .as_bytes(),
    );
    let line = b"The quick brown fox jumps over the lazy dog, and over one more\r\n";
    while text.len() - begin + line.len() + 3 <= octets {
        text.extend_from_slice(line);
    }
    while text.len() - begin + 2 < octets {
        text.push(b'x');
    }
    text.extend_from_slice(b"\r\n");
}

/// Numbers that follow from a first one.
pub struct Chance(u64);

impl Chance {
    pub fn new(seed: u64) -> Chance {
        Chance(seed.wrapping_mul(0x9E37_79B9_7F4A_7C15) | 1)
    }

    pub fn next(&mut self) -> u64 {
        self.0 ^= self.0 << 13;
        self.0 ^= self.0 >> 7;
        self.0 ^= self.0 << 17;
        self.0.wrapping_mul(0x2545_F491_4F6C_DD1D) >> 16
    }

    pub fn below(&mut self, bound: u64) -> u64 {
        self.next() % bound
    }
}

/// The octets of the body of an article: mostly few, now and then many, sometimes none.
fn body_octets(chance: &mut Chance, largest: u64) -> u64 {
    let wanted = match chance.below(1_000) {
        0..=19 => 0,
        20..=899 => 200 + chance.below(4_000),
        900..=979 => chance.below(24_000),
        980..=996 => chance.below(100_000),
        _ => chance.below(900_000),
    };
    wanted.min(largest)
}

/// Octets that lines are taken from: letters, and octets past ASCII; no octet of a line's end.
struct Noise {
    letters: Vec<u8>,
    high: Vec<u8>,
}

const NOISE: u64 = 1 << 16;

fn noise() -> &'static Noise {
    static NOISE_ONCE: OnceLock<Noise> = OnceLock::new();
    NOISE_ONCE.get_or_init(|| {
        let mut chance = Chance::new(7);
        let known = b"abcdefghijklmnopqrstuvwxyz ABCDEFGHIJKLMNOPQRSTUVWXYZ.:-0123456789 \t";
        let letters = (0..2 * NOISE)
            .map(|_| known[chance.below(known.len() as u64) as usize])
            .collect();
        let high = (0..2 * NOISE).map(|_| 0x80 | chance.next() as u8).collect();
        Noise { letters, high }
    })
}

/// Adds a line without its end: some have dots in front, some octets past ASCII.
fn push_line(text: &mut Vec<u8>, chance: &mut Chance, octets: u64) {
    let drawn = chance.next();
    let (kind, from) = (drawn % 16, (drawn / 16 % NOISE) as usize);
    text.extend_from_slice(match kind {
        0 => b".",
        1 => b"..",
        2 => b"...",
        _ => b"",
    });
    let source = if kind == 3 {
        &noise().high
    } else {
        &noise().letters
    };
    text.extend_from_slice(&source[from..from + octets as usize]);
}

/// The articles of a run, each of which follows from its number.
pub struct Articles {
    pub run: String,
    pub groups: Vec<String>,
    pub date: String,
    /// The octets of the largest body, but for dots and line ends.
    pub largest: u64,
}

impl Articles {
    pub fn new(run: &str, groups: Vec<String>, largest: u64) -> Articles {
        Articles {
            run: run.to_string(),
            groups,
            date: today(),
            largest,
        }
    }

    pub fn id(&self, number: u64) -> String {
        format!("<{}.{number}@try.example>", self.run)
    }

    pub fn number_of(&self, id: &str) -> Option<u64> {
        id.strip_prefix(&format!("<{}.", self.run))?
            .strip_suffix("@try.example>")?
            .parse()
            .ok()
    }

    fn references(chance: &mut Chance) -> &'static str {
        if chance.below(8) == 0 {
            "<1@try.example>\r\n <2@try.example>\r\n\t<3@try.example>"
        } else {
            ""
        }
    }

    /// Adds what follows the Path line of the article of that number.
    pub fn push_rest(&self, text: &mut Vec<u8>, number: u64) {
        let mut chance = Chance::new(number + 1);
        let group = &self.groups[(number % self.groups.len() as u64) as usize];
        text.extend_from_slice(
            format!(
                "From: poster@try.example\r\nNewsgroups: {group}\r\nSubject: article {number}\r\n\
                 Message-ID: {}\r\nDate: {}\r\n",
                self.id(number),
                self.date
            )
            .as_bytes(),
        );
        let references = Articles::references(&mut chance);
        if !references.is_empty() {
            text.extend_from_slice(format!("References: {references}\r\n").as_bytes());
        }
        if chance.below(8) == 0 {
            text.extend_from_slice(b"X-Octets: \xC3\xA4\xF6 .\r\n .\r\n");
        }
        text.extend_from_slice(b"\r\n");
        let mut left = body_octets(&mut chance, self.largest);
        while left > 0 {
            let drawn = chance.below(150);
            let octets = if chance.below(200) == 0 {
                20 * drawn
            } else {
                drawn
            }
            .min(left);
            push_line(text, &mut chance, octets);
            text.extend_from_slice(b"\r\n");
            left -= octets.max(1);
        }
    }

    /// The overview line of the article of that number, whose whole text is given.
    pub fn overview(&self, number: u64, text: &[u8]) -> String {
        let mut chance = Chance::new(number + 1);
        let references = Articles::references(&mut chance)
            .replace("\r\n", "")
            .replace('\t', " ");
        let body = find(text, b"\r\n\r\n").map_or(text.len(), |at| at + 4);
        let lines = text[body..].iter().filter(|octet| **octet == b'\n').count();
        format!(
            "0\tarticle {number}\tposter@try.example\t{}\t{}\t{references}\t{}\t{lines}",
            self.date,
            self.id(number),
            text.len()
        )
    }
}

/// Adds a text as a block: dots doubled in front of lines, and the closing line.
pub fn push_block(block: &mut Vec<u8>, text: &[u8]) {
    for line in text.split_inclusive(|octet| *octet == b'\n') {
        if line[0] == b'.' {
            block.push(b'.');
        }
        block.extend_from_slice(line);
    }
    block.extend_from_slice(b".\r\n");
}
