//! The texts of `elltree run`: a file of start keys and operations is read, and the answer written, as elltree does both.

use std::io::{self, Read, Write};

const LARGEST_KEY: u64 = u64::MAX - 2;

#[derive(Clone, Copy)]
pub enum Operation {
    Insert(u64, u64),
    Delete(u64),
    Find(u64),
}

impl Operation {
    #[allow(dead_code)]
    pub fn key(self) -> u64 {
        match self {
            Operation::Insert(key, _) | Operation::Delete(key) | Operation::Find(key) => key,
        }
    }
}

/// What an operation answers. A find that found its key has the value.
#[derive(Clone, Copy)]
pub enum Reply {
    No,
    Yes,
    Found(u64),
}

impl From<bool> for Reply {
    fn from(holds: bool) -> Reply {
        if holds { Reply::Yes } else { Reply::No }
    }
}

impl From<Option<u64>> for Reply {
    fn from(value: Option<u64>) -> Reply {
        value.map_or(Reply::No, Reply::Found)
    }
}

/// What stands before the first space and what stands after it: all and nothing where there is none.
fn split_at_space(text: &[u8]) -> (&[u8], &[u8]) {
    match text.iter().position(|&byte| byte == b' ') {
        Some(at) => (&text[..at], &text[at + 1..]),
        None => (text, &[]),
    }
}

/// Reads a number as it is written: decimal digits with no zero before them.
fn parse_number(text: &[u8]) -> Option<u64> {
    let is_plain = text.iter().all(u8::is_ascii_digit) && (text == b"0" || !text.starts_with(b"0"));
    let number = std::str::from_utf8(text).ok()?.parse().ok()?;
    is_plain.then_some(number)
}

fn parse_key(text: &[u8]) -> Result<u64, &'static str> {
    parse_number(text).filter(|&key| key <= LARGEST_KEY).ok_or("not a key")
}

/// A bulk text: whether it has version 2, the keys that are there before the first operation, ascending, with their values, and
/// the operations. In version 1 each value is 0.
#[derive(Default)]
pub struct Bulk {
    pub has_values: bool,
    pub start: Vec<(u64, u64)>,
    pub operations: Vec<Operation>,
}

impl Bulk {
    /// Reads a key and, in version 2, the value behind it.
    fn parse_pair(&self, text: &[u8]) -> Result<(u64, u64), &'static str> {
        if !self.has_values {
            return Ok((parse_key(text)?, 0));
        }
        let (key, value) = split_at_space(text);
        Ok((parse_key(key)?, parse_number(value).ok_or("not a value")?))
    }

    /// Appends what a line says, or tells why it says nothing.
    fn append(&mut self, line: &[u8]) -> Result<(), &'static str> {
        let is_opening = self.operations.is_empty();
        if line == b"version 2" && is_opening && self.start.is_empty() && !self.has_values {
            self.has_values = true;
            return Ok(());
        }
        let (name, rest) = split_at_space(line);
        let operation = match name {
            b"start" if is_opening => return self.append_start(self.parse_pair(rest)?),
            b"insert" => self.parse_pair(rest).map(|(key, value)| Operation::Insert(key, value))?,
            b"delete" => Operation::Delete(parse_key(rest)?),
            b"find" => Operation::Find(parse_key(rest)?),
            _ => return Err("not an operation"),
        };
        self.operations.push(operation);
        Ok(())
    }

    fn append_start(&mut self, pair: (u64, u64)) -> Result<(), &'static str> {
        if self.start.last().is_some_and(|before| pair.0 <= before.0) {
            return Err("start keys not ascending");
        }
        self.start.push(pair);
        Ok(())
    }
}

fn is_skipped(line: &[u8]) -> bool {
    line.starts_with(b"#") || line.iter().all(|byte| matches!(byte, b' ' | b'\t'))
}

fn error(text: String) -> io::Error {
    io::Error::new(io::ErrorKind::InvalidData, text)
}

/// What standard input says.
pub fn read_bulk() -> io::Result<Bulk> {
    let mut input = Vec::new();
    io::stdin().lock().read_to_end(&mut input)?;
    let mut bulk = Bulk::default();
    for (index, line) in input.split(|&byte| byte == b'\n').enumerate() {
        let line = line.strip_suffix(b"\r").unwrap_or(line);
        if !is_skipped(line) {
            bulk.append(line).map_err(|why| error(format!("line {}: {why}", index + 1)))?;
        }
    }
    Ok(bulk)
}

/// Writes the answer to standard output: a line for each reply, the number of keys, and the keys, in version 2 with values.
pub fn write_answer(has_values: bool, replies: &[Reply], pairs: impl ExactSizeIterator<Item = (u64, u64)>) -> io::Result<()> {
    let mut output = Vec::new();
    for &reply in replies {
        match reply {
            Reply::Found(value) if has_values => writeln!(output, "yes {value}")?,
            Reply::Yes | Reply::Found(_) => output.extend_from_slice(b"yes\n"),
            Reply::No => output.extend_from_slice(b"no\n"),
        }
    }
    writeln!(output, "keys {}", pairs.len())?;
    for (key, value) in pairs {
        if has_values {
            writeln!(output, "{key} {value}")?;
        } else {
            writeln!(output, "{key}")?;
        }
    }
    io::stdout().lock().write_all(&output)
}
