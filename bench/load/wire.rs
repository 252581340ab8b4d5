//! A connection to a news server: lines, blocks, and octets that go out.
use std::collections::HashMap;
use std::io::{self, ErrorKind, Read, Write};
use std::net::{Ipv4Addr, Shutdown, SocketAddrV4, TcpStream};
use std::os::fd::{AsRawFd, FromRawFd};
use std::time::Duration;

/// How long a read or a write may stand still.
const PATIENCE: Duration = Duration::from_secs(60);

const INTERNET: u16 = 2;
const STREAM: i32 = 1;
const TCP: i32 = 6;
const QUICK_ACK: i32 = 12;

/// An address of IPv4, as the system's calls take it; port and address in network order.
#[repr(C)]
struct SystemAddress {
    family: u16,
    port: [u8; 2],
    address: [u8; 4],
    padding: [u8; 8],
}

unsafe extern "C" {
    fn socket(domain: i32, kind: i32, protocol: i32) -> i32;
    fn bind(descriptor: i32, address: *const SystemAddress, length: u32) -> i32;
    fn connect(descriptor: i32, address: *const SystemAddress, length: u32) -> i32;
    fn setsockopt(descriptor: i32, level: i32, name: i32, value: *const i32, length: u32) -> i32;
    fn memchr(text: *const u8, octet: i32, length: usize) -> *const u8;
    fn memmem(text: *const u8, length: usize, part: *const u8, part_length: usize) -> *const u8;
}

fn system_address(address: SocketAddrV4) -> SystemAddress {
    SystemAddress {
        family: INTERNET,
        port: address.port().to_be_bytes(),
        address: address.ip().octets(),
        padding: [0; 8],
    }
}

/// Where `part` first begins in `text`.
pub fn find(text: &[u8], part: &[u8]) -> Option<usize> {
    let at = unsafe { memmem(text.as_ptr(), text.len(), part.as_ptr(), part.len()) };
    if at.is_null() {
        None
    } else {
        Some(at as usize - text.as_ptr() as usize)
    }
}

/// Where this octet first stands in `text`.
fn first_of(octet: u8, text: &[u8]) -> Option<usize> {
    let at = unsafe { memchr(text.as_ptr(), i32::from(octet), text.len()) };
    if at.is_null() {
        None
    } else {
        Some(at as usize - text.as_ptr() as usize)
    }
}

pub fn wrong<T>(what: String) -> io::Result<T> {
    Err(io::Error::new(ErrorKind::InvalidData, what))
}

pub fn text_of(octets: &[u8]) -> String {
    String::from_utf8_lossy(octets).into_owned()
}

pub struct Wire {
    stream: TcpStream,
    /// Whether what is read is acknowledged when the system thinks fit, up to 40 ms later, instead
    /// of at once.
    pub is_lazy: bool,
    read: Vec<u8>,
    begin: usize,
    end: usize,
}

impl Wire {
    /// A connection from one address of this machine to a server, behind its greeting.
    pub fn open(from: Ipv4Addr, to: SocketAddrV4) -> io::Result<Wire> {
        let length = std::mem::size_of::<SystemAddress>() as u32;
        let own = system_address(SocketAddrV4::new(from, 0));
        let stream = unsafe {
            let descriptor = socket(INTERNET as i32, STREAM, 0);
            if descriptor < 0 {
                return Err(io::Error::last_os_error());
            }
            let stream = TcpStream::from_raw_fd(descriptor);
            if bind(descriptor, &own, length) != 0
                || connect(descriptor, &system_address(to), length) != 0
            {
                return Err(io::Error::last_os_error());
            }
            stream
        };
        stream.set_nodelay(true)?;
        stream.set_read_timeout(Some(PATIENCE))?;
        stream.set_write_timeout(Some(PATIENCE))?;
        let mut wire = Wire {
            stream,
            is_lazy: false,
            read: vec![0; 1 << 17],
            begin: 0,
            end: 0,
        };
        let greeting = wire.line()?;
        if !greeting.starts_with(b"20") {
            return wrong(format!("greeted by {}", text_of(&greeting)));
        }
        Ok(wire)
    }

    pub fn send(&mut self, octets: &[u8]) -> io::Result<()> {
        self.stream.write_all(octets)
    }

    /// Reads more, waiting for it.
    fn fill(&mut self) -> io::Result<()> {
        if self.begin > 0 {
            self.read.copy_within(self.begin..self.end, 0);
            self.end -= self.begin;
            self.begin = 0;
        }
        if self.end == self.read.len() {
            self.read.resize(2 * self.end, 0);
        }
        if !self.is_lazy {
            // The system takes this back now and then, so it is said before each read.
            unsafe { setsockopt(self.stream.as_raw_fd(), TCP, QUICK_ACK, &1, 4) };
        }
        let count = self.stream.read(&mut self.read[self.end..])?;
        if count == 0 {
            return Err(io::Error::new(
                ErrorKind::UnexpectedEof,
                "the server closed",
            ));
        }
        self.end += count;
        Ok(())
    }

    /// Whether a whole line has been read already.
    pub fn has_line(&self) -> bool {
        first_of(b'\n', &self.read[self.begin..self.end]).is_some()
    }

    /// What stands before the next `mark`, which is dropped.
    fn until(&mut self, mark: &[u8]) -> io::Result<(usize, usize)> {
        let mut looked = 0;
        loop {
            let unread = &self.read[self.begin..self.end];
            if let Some(at) = find(&unread[looked..], mark) {
                let begin = self.begin;
                self.begin += looked + at + mark.len();
                return Ok((begin, begin + looked + at));
            }
            looked = unread.len().saturating_sub(mark.len() - 1);
            self.fill()?;
        }
    }

    /// The next line, without its end.
    pub fn line(&mut self) -> io::Result<Vec<u8>> {
        let (begin, end) = self.until(b"\r\n")?;
        Ok(self.read[begin..end].to_vec())
    }

    /// The code of the next line, whose second word has to be `id`.
    pub fn answer_on(&mut self, id: &[u8]) -> io::Result<u16> {
        while !self.has_line() {
            self.fill()?;
        }
        let unread = &self.read[self.begin..self.end];
        let line = &unread[..first_of(b'\n', unread).unwrap_or(0)];
        let is_of = line.get(3) == Some(&b' ')
            && line[4..].starts_with(id)
            && matches!(line.get(4 + id.len()), Some(b' ' | b'\r'));
        if !is_of {
            return wrong(format!("{} for {}", text_of(line), text_of(id)));
        }
        let digit = |at: usize| u16::from(line[at].wrapping_sub(b'0'));
        let code = 100 * digit(0) + 10 * digit(1) + digit(2);
        self.begin += line.len() + 1;
        Ok(code)
    }

    /// The text of the block that follows, with its line ends, dots taken off.
    pub fn block(&mut self) -> io::Result<Vec<u8>> {
        let mut text = Vec::new();
        loop {
            let (begin, end) = self.until(b"\r\n")?;
            let line = &self.read[begin..end];
            if line == b"." {
                return Ok(text);
            }
            text.extend_from_slice(line.strip_prefix(b".").unwrap_or(line));
            text.extend_from_slice(b"\r\n");
        }
    }

    /// How many octets the block that follows has, as it is sent, but for its closing line.
    pub fn skip_block(&mut self) -> io::Result<usize> {
        let (begin, end) = self.until(b"\r\n.\r\n")?;
        Ok(end - begin)
    }

    /// Ends the connection, both ways.
    pub fn close(&mut self) -> io::Result<()> {
        self.stream.shutdown(Shutdown::Both)
    }

    /// Sends a command and gives the line that answers it.
    pub fn ask(&mut self, command: &str) -> io::Result<String> {
        self.send(command.as_bytes())?;
        self.send(b"\r\n")?;
        Ok(text_of(&self.line()?))
    }
}

/// The number that a reply begins with, 0 where it has none.
pub fn code_of(line: &[u8]) -> u16 {
    std::str::from_utf8(line.get(..3).unwrap_or(b""))
        .ok()
        .and_then(|digits| digits.parse().ok())
        .unwrap_or(0)
}

/// The words KEY=VALUE of the command line.
pub struct Words(pub HashMap<String, String>);

impl Words {
    pub fn text(&self, key: &str, without: &str) -> String {
        self.0
            .get(key)
            .cloned()
            .unwrap_or_else(|| without.to_string())
    }

    pub fn number(&self, key: &str, without: u64) -> u64 {
        self.0.get(key).map_or(without, |value| {
            value
                .parse()
                .unwrap_or_else(|_| panic!("{key}={value}: no number"))
        })
    }

    pub fn list(&self, key: &str, without: &str) -> Vec<String> {
        self.text(key, without)
            .split(',')
            .map(str::to_string)
            .collect()
    }
}
