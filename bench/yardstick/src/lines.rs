//! A line of a log to its event.

use crate::limits::LINE;
use std::slice::Iter;

pub enum Event {
    Call {
        cpu: u64,
        code: u32,
        a1: u64,
        a2: u64,
    },
    /// The record's bytes are the first `len` of the record that was handed in.
    Create {
        cpu: u64,
        len: usize,
    },
    Store {
        cpu: u64,
        word: u64,
        value: u32,
    },
    Fault {
        cpu: u64,
    },
    Exit {
        cpu: u64,
        kind: u64,
    },
    Poll,
    Malformed,
}

/// No line can bring more bytes.
pub type Record = [u8; LINE / 2];

/// The event of the first line of `log`, whose last line has its line feed, and the lines behind it.
pub fn next<'a>(log: &'a [u8], record: &mut Record) -> (Event, &'a [u8]) {
    match well_formed(log, record) {
        Some(found) => found,
        None => (Event::Malformed, &log[line_feed(log) + 1..]),
    }
}

/// Reads on from byte to byte, since all lines but `create` are short: where the form ends, the line has to.
fn well_formed<'a>(log: &'a [u8], record: &mut Record) -> Option<(Event, &'a [u8])> {
    let (word, rest) = log.split_first_chunk::<5>()?;
    let mut bytes = rest.iter();
    let event = match word {
        b"call " => call(&mut bytes)?,
        b"store" => store(&mut bytes)?,
        b"poll\n" => Event::Poll,
        b"exit " => Event::Exit { cpu: number(&mut bytes, b' ')?, kind: number(&mut bytes, b'\n')? },
        b"fault" => fault(&mut bytes)?,
        b"creat" => return create(log, record),
        _ => return None,
    };
    Some((event, bytes.as_slice()))
}

fn call(bytes: &mut Iter<u8>) -> Option<Event> {
    let cpu = number(bytes, b' ')?;
    let code = number(bytes, b' ')?.try_into().ok()?;
    let a1 = number(bytes, b' ')?;
    let a2 = number(bytes, b'\n')?;
    Some(Event::Call { cpu, code, a1, a2 })
}

fn store(bytes: &mut Iter<u8>) -> Option<Event> {
    space(bytes)?;
    let cpu = number(bytes, b' ')?;
    let word = number(bytes, b' ')?;
    let value = number(bytes, b'\n')?.try_into().ok()?;
    Some(Event::Store { cpu, word, value })
}

fn fault(bytes: &mut Iter<u8>) -> Option<Event> {
    space(bytes)?;
    Some(Event::Fault { cpu: number(bytes, b'\n')? })
}

fn space(bytes: &mut Iter<u8>) -> Option<()> {
    (*bytes.next()? == b' ').then_some(())
}

/// An unsigned decimal below 2^64 without leading zeros, and the byte `end` behind it.
fn number(bytes: &mut Iter<u8>, end: u8) -> Option<u64> {
    let mut value = digit(*bytes.next()?)?;
    let mut byte = *bytes.next()?;
    while byte != end {
        if value == 0 {
            return None;
        }
        value = value.checked_mul(10)?.checked_add(digit(byte)?)?;
        byte = *bytes.next()?;
    }
    Some(value)
}

fn digit(byte: u8) -> Option<u64> {
    let digit = byte.wrapping_sub(b'0');
    (digit < 10).then_some(digit as u64)
}

fn create<'a>(log: &'a [u8], record: &mut Record) -> Option<(Event, &'a [u8])> {
    let mut bytes = log.strip_prefix(b"create ")?.iter();
    let cpu = number(&mut bytes, b' ')?;
    let rest = bytes.as_slice();
    let end = line_feed(rest);
    let line = log.len() - rest.len() + end;
    if line > LINE {
        return None;
    }
    let len = decode(&rest[..end], record)?;
    Some((Event::Create { cpu, len }, &rest[end + 1..]))
}

/// One or more lower-case pairs. The loop has no early end, so that the compiler can take many pairs at once.
fn decode(hex: &[u8], record: &mut Record) -> Option<usize> {
    let (pairs, odd) = hex.as_chunks::<2>();
    if pairs.is_empty() || !odd.is_empty() {
        return None;
    }
    let mut seen = 0;
    for (byte, &[high, low]) in record[..pairs.len()].iter_mut().zip(pairs) {
        let (high, low) = (nibble(high), nibble(low));
        seen |= high | low;
        *byte = high << 4 | low;
    }
    (seen < 16).then_some(pairs.len())
}

/// What a digit of HEX stands for; 255 for another byte.
fn nibble(byte: u8) -> u8 {
    let digit = byte.wrapping_sub(b'0');
    let letter = byte.wrapping_sub(b'a');
    let value = if letter < 6 { letter + 10 } else { 255 };
    if digit < 10 { digit } else { value }
}

/// The place of the first line feed, eight bytes at a time; the end where there is none.
fn line_feed(bytes: &[u8]) -> usize {
    const ONES: u64 = u64::from_ne_bytes([1; 8]);
    const HIGHS: u64 = ONES << 7;
    let (words, _) = bytes.as_chunks::<8>();
    let mut at = 0;
    for &word in words {
        let x = u64::from_le_bytes(word) ^ (ONES * b'\n' as u64);
        let found = x.wrapping_sub(ONES) & !x & HIGHS;
        if found != 0 {
            return at + found.trailing_zeros() as usize / 8;
        }
        at += 8;
    }
    at + bytes[at..].iter().position(|&b| b == b'\n').unwrap_or(bytes.len() - at)
}
