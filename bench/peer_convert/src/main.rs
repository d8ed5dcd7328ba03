//! The better peer of `pgpipe convert` in bench/convert, with nothing proved: `peer_convert text 4` reads COPY text of four columns and
//! writes COPY binary, `peer_convert binary 4` the other way, `peer_convert rows 4` reads text into owned rows and counts them. It looks
//! for what ends a field by memchr3, and copies each value once, from what was read to what is written.

use memchr::{memchr, memchr3, memchr_iter};
use std::io::{Read, Result, Write};

const PIECE: usize = 65_536;
const HEAD: &[u8] = b"PGCOPY\n\xFF\r\n\0\0\0\0\0\0\0\0\0";

fn refuse<T>(why: &str) -> T {
    eprintln!("peer: {why}");
    std::process::exit(2)
}

/// The byte of an escape, and how many bytes follow its backslash.
fn escape(bytes: &[u8]) -> (u8, usize) {
    let digits = |bytes: &[u8], base: u32, most: usize| {
        let found = bytes.iter().take(most).map_while(|byte| char::from(*byte).to_digit(base));
        found.fold((0, 0), |(value, count), digit| ((value * base + digit) & 0xFF, count + 1))
    };
    match (digits(bytes, 8, 3), bytes[0]) {
        ((value, count), _) if count > 0 => (value as u8, count),
        (_, b'b') => (8, 1),
        (_, b't') => (9, 1),
        (_, b'n') => (10, 1),
        (_, b'v') => (11, 1),
        (_, b'f') => (12, 1),
        (_, b'r') => (13, 1),
        (_, b'x') => match digits(&bytes[1..], 16, 2) {
            (_, 0) => (b'x', 1),
            (value, count) => (value as u8, count + 1),
        },
        (_, other) => (other, 1),
    }
}

/// Appends the text of the field that the bytes begin with, and says how many they are, with what ends it, and what that is; None
/// where it isn't whole. Of a null nothing is appended, and the last is true.
fn field(bytes: &[u8], out: &mut Vec<u8>) -> Option<(usize, u8, bool)> {
    let (begun, mut at) = (out.len(), 0);
    loop {
        let next = at + memchr3(b'\t', b'\n', b'\\', &bytes[at..])?;
        out.extend_from_slice(&bytes[at..next]);
        if bytes[next] != b'\\' {
            return Some((next + 1, bytes[next], false));
        }
        if next == 0 && bytes.starts_with(b"\\N") && matches!(bytes.get(2)?, b'\t' | b'\n') {
            return Some((3, bytes[2], true));
        }
        // an escape has at most three bytes, and one that ends what was read may go on
        if bytes.len() < next + 5 && bytes.get(next + 2..).map_or(true, |rest| memchr(b'\n', rest).is_none()) {
            out.truncate(begun);
            return None;
        }
        let (byte, count) = escape(&bytes[next + 1..]);
        out.push(byte);
        at = next + 1 + count;
    }
}

/// Writes the row of the line that the bytes begin with, and says how many they are.
fn text_row(bytes: &[u8], columns: usize, out: &mut Vec<u8>) -> Option<usize> {
    let (begun, mut at) = (out.len(), 0);
    out.extend_from_slice(&(columns as u16).to_be_bytes());
    for column in 1..=columns {
        let start = out.len();
        out.extend_from_slice(&[0xFF; 4]);
        let Some((count, end, null)) = field(&bytes[at..], out) else {
            out.truncate(begun);
            return None;
        };
        if (end == b'\n') != (column == columns) {
            refuse("another number of columns")
        }
        if !null {
            let len = (out.len() - start - 4) as u32;
            out[start..start + 4].copy_from_slice(&len.to_be_bytes());
        }
        at += count;
    }
    Some(at)
}

/// Whether and how a byte is escaped.
const LETTERS: [u8; 256] = {
    let mut letters = [0; 256];
    letters[8] = b'b';
    letters[9] = b't';
    letters[10] = b'n';
    letters[11] = b'v';
    letters[12] = b'f';
    letters[13] = b'r';
    letters[92] = b'\\';
    letters
};

/// Writes the line of the row that the bytes begin with, and says how many they are.
fn binary_row(bytes: &[u8], columns: usize, out: &mut Vec<u8>) -> Option<usize> {
    let (begun, mut at) = (out.len(), 2);
    match u16::from_be_bytes(bytes.get(..2)?.try_into().ok()?) {
        0xFFFF => return None,
        count if usize::from(count) != columns => refuse("another number of columns"),
        _ => {}
    }
    for column in 1..=columns {
        let Some(value) = binary_value(bytes, at) else {
            out.truncate(begun);
            return None;
        };
        match value {
            None => out.extend_from_slice(b"\\N"),
            Some(mut text) => {
                at += text.len();
                while let Some(place) = text.iter().position(|byte| LETTERS[usize::from(*byte)] != 0) {
                    out.extend_from_slice(&text[..place]);
                    out.extend_from_slice(&[b'\\', LETTERS[usize::from(text[place])]]);
                    text = &text[place + 1..];
                }
                out.extend_from_slice(text);
            }
        }
        at += 4;
        out.push(if column == columns { b'\n' } else { b'\t' });
    }
    Some(at)
}

fn binary_value(bytes: &[u8], at: usize) -> Option<Option<&[u8]>> {
    match u32::from_be_bytes(bytes.get(at..at + 4)?.try_into().ok()?) {
        0xFFFF_FFFF => Some(None),
        len if len > 1_073_741_823 => refuse("a length"),
        len => Some(Some(bytes.get(at + 4..at + 4 + len as usize)?)),
    }
}

/// The owned row of a line: a Vec a value, as a loader that keeps rows has it.
fn owned_row(bytes: &[u8], columns: usize) -> Option<(Vec<Option<Vec<u8>>>, usize)> {
    let (mut row, mut at) = (Vec::with_capacity(columns), 0);
    for column in 1..=columns {
        let next = memchr3(b'\t', b'\n', b'\\', &bytes[at..])?;
        let (count, end, value) = if bytes[at + next] == b'\\' {
            let mut text = Vec::with_capacity(next + 16);
            let (count, end, null) = field(&bytes[at..], &mut text)?;
            (count, end, (!null).then_some(text))
        } else {
            (next + 1, bytes[at + next], Some(bytes[at..at + next].to_vec()))
        };
        if (end == b'\n') != (column == columns) {
            refuse("another number of columns")
        }
        row.push(value);
        at += count;
    }
    Some((row, at))
}

fn main() -> Result<()> {
    let words: Vec<String> = std::env::args().collect();
    let columns: usize = words[2].parse().unwrap();
    let (mut source, mut sink) = (std::io::stdin().lock(), std::io::stdout().lock());
    let (mut bytes, mut start, mut filled, mut rows) = (vec![0; 2 * PIECE], 0, 0, 0);
    let mut out = Vec::with_capacity(2 * PIECE);
    match words[1].as_str() {
        "text" => out.extend_from_slice(HEAD),
        "binary" => {
            source.read_exact(&mut bytes[..HEAD.len()])?;
            if bytes[..HEAD.len()] != *HEAD {
                refuse("another head")
            }
        }
        _ => {}
    }
    loop {
        bytes.copy_within(start..filled, 0);
        (start, filled) = (0, filled - start);
        if bytes.len() < filled + PIECE {
            bytes.resize(2 * bytes.len(), 0);
        }
        let count = source.read(&mut bytes[filled..])?;
        if words[1] != "binary" && memchr_iter(b'\r', &bytes[filled..filled + count]).next().is_some() {
            refuse("a return")
        }
        filled += count;
        loop {
            let left = &bytes[start..filled];
            let taken = match words[1].as_str() {
                "text" => text_row(left, columns, &mut out),
                "binary" => binary_row(left, columns, &mut out),
                _ => owned_row(left, columns).map(|(row, count)| (rows += row.len() / columns, count).1),
            };
            match taken {
                Some(count) => start += count,
                None => break,
            }
            if out.len() >= PIECE {
                sink.write_all(&out)?;
                out.clear();
            }
        }
        if count == 0 {
            break;
        }
    }
    match words[1].as_str() {
        "text" => out.extend_from_slice(&[0xFF; 2]),
        "binary" if bytes[start..filled] != [0xFF; 2] => refuse("no trailer"),
        "rows" => out.extend_from_slice(format!("{rows}\n").as_bytes()),
        _ => {}
    }
    sink.write_all(&out)
}
