//! The peer of `pgpipe convert` in bench/convert: the same work in plain Rust, with nothing proved. `peer text 4` reads COPY text of
//! four columns and writes COPY binary, `peer binary 4` the other way. It reads and writes pieces of 64 KiB, makes a row of
//! one allocation for each value, and refuses what pgpipe refuses.

use std::io::{Read, Write};

type Row = Vec<Option<Vec<u8>>>;

const PIECE: usize = 65_536;
const HEAD: &[u8] = b"PGCOPY\n\xFF\r\n\0\0\0\0\0\0\0\0\0";
const MOST: u32 = 1_073_741_823;

fn refuse<T>(why: &str) -> T {
    eprintln!("peer: {why}");
    std::process::exit(2)
}

/// The byte of an escape, and how many bytes follow its backslash.
fn escape(bytes: &[u8]) -> (u8, usize) {
    let digits = |bytes: &[u8], base: u32, most: usize| {
        let mut value = 0;
        let mut count = 0;
        for byte in bytes.iter().take(most) {
            match char::from(*byte).to_digit(base) {
                Some(digit) => value = value * base + digit,
                None => break,
            }
            count += 1;
        }
        (value as u8, count)
    };
    let octal = digits(bytes, 8, 3);
    if octal.1 > 0 {
        return octal;
    }
    match bytes[0] {
        b'b' => (8, 1),
        b't' => (9, 1),
        b'n' => (10, 1),
        b'v' => (11, 1),
        b'f' => (12, 1),
        b'r' => (13, 1),
        b'x' => match digits(&bytes[1..], 16, 2) {
            (_, 0) => (b'x', 1),
            (value, count) => (value, count + 1),
        },
        other => (other, 1),
    }
}

fn field(bytes: &[u8], escaped: bool) -> Option<Vec<u8>> {
    if !escaped {
        return Some(bytes.to_vec());
    }
    if bytes == b"\\N" {
        return None;
    }
    let mut text = Vec::with_capacity(bytes.len());
    let (mut start, mut at) = (0, 0);
    while at < bytes.len() {
        if bytes[at] == b'\\' {
            text.extend_from_slice(&bytes[start..at]);
            let (byte, count) = escape(&bytes[at + 1..]);
            text.push(byte);
            at += 1 + count;
            start = at;
        } else {
            at += 1;
        }
    }
    text.extend_from_slice(&bytes[start..]);
    Some(text)
}

/// The row at the front of the bytes, and how many bytes it has with its newline. Each byte is walked over once, if the line is
/// whole.
fn text_row(bytes: &[u8], columns: usize, at_end: bool) -> Option<(Row, usize)> {
    let mut row = Vec::with_capacity(columns);
    let (mut start, mut at, mut escaped) = (0, 0, false);
    while at < bytes.len() {
        match bytes[at] {
            b'\\' => {
                escaped = true;
                at += 1;
                if at == bytes.len() && at_end {
                    refuse("a backslash stands last")
                }
            }
            b'\t' => {
                row.push(field(&bytes[start..at], escaped));
                start = at + 1;
                escaped = false;
            }
            b'\r' => refuse("a return"),
            b'\n' => break,
            _ => {}
        }
        at += 1;
    }
    if at >= bytes.len() && (!at_end || bytes.is_empty()) {
        return None;
    }
    let end = at.min(bytes.len());
    row.push(field(&bytes[start..end], escaped));
    if row.len() != columns {
        refuse("another number of columns")
    }
    Some((row, at + 1))
}

fn write_text(row: &Row, out: &mut Vec<u8>) {
    for (i, value) in row.iter().enumerate() {
        if i > 0 {
            out.push(b'\t');
        }
        let Some(text) = value else {
            out.extend_from_slice(b"\\N");
            continue;
        };
        let mut start = 0;
        for (at, byte) in text.iter().enumerate() {
            let letter = match byte {
                8 => b'b',
                9 => b't',
                10 => b'n',
                11 => b'v',
                12 => b'f',
                13 => b'r',
                b'\\' => b'\\',
                _ => continue,
            };
            out.extend_from_slice(&text[start..at]);
            out.extend_from_slice(&[b'\\', letter]);
            start = at + 1;
        }
        out.extend_from_slice(&text[start..]);
    }
    out.push(b'\n');
}

fn number(bytes: &[u8], at: usize) -> Option<u32> {
    Some(u32::from_be_bytes(bytes.get(at..at + 4)?.try_into().ok()?))
}

/// Where the row at the front of the bytes ends, if it is whole.
fn binary_end(bytes: &[u8], columns: usize) -> Option<usize> {
    let count = u16::from_be_bytes(bytes.get(..2)?.try_into().ok()?);
    if count == 0xFFFF {
        return None;
    }
    if usize::from(count) != columns {
        refuse("another number of columns")
    }
    let mut at = 2;
    for _ in 0..columns {
        let len = number(bytes, at)?;
        at += 4;
        if len != 0xFFFF_FFFF {
            if len > MOST {
                refuse("a length")
            }
            at += len as usize;
        }
        if at > bytes.len() {
            return None;
        }
    }
    Some(at)
}

fn binary_row(bytes: &[u8], columns: usize) -> Option<(Row, usize)> {
    let end = binary_end(bytes, columns)?;
    let mut row = Vec::with_capacity(columns);
    let mut at = 2;
    for _ in 0..columns {
        let len = number(bytes, at)?;
        at += 4;
        if len == 0xFFFF_FFFF {
            row.push(None);
        } else {
            row.push(Some(bytes[at..at + len as usize].to_vec()));
            at += len as usize;
        }
    }
    Some((row, end))
}

fn write_binary(row: &Row, out: &mut Vec<u8>) {
    out.extend_from_slice(&(row.len() as u16).to_be_bytes());
    for value in row {
        match value {
            None => out.extend_from_slice(&[0xFF; 4]),
            Some(bytes) => {
                out.extend_from_slice(&(bytes.len() as u32).to_be_bytes());
                out.extend_from_slice(bytes);
            }
        }
    }
}

fn main() -> std::io::Result<()> {
    let words: Vec<String> = std::env::args().collect();
    let columns: usize = words[2].parse().unwrap();
    let of_text = words[1] == "text";
    let (mut source, mut sink) = (std::io::stdin().lock(), std::io::stdout().lock());
    let mut piece = vec![0; PIECE];
    let (mut bytes, mut start) = (Vec::new(), 0);
    let mut out = Vec::with_capacity(2 * PIECE);
    if of_text {
        out.extend_from_slice(HEAD);
    }
    let mut head = !of_text;
    loop {
        let count = source.read(&mut piece)?;
        if start > bytes.len() - start {
            bytes.drain(..start);
            start = 0;
        }
        bytes.extend_from_slice(&piece[..count]);
        if head && bytes.len() >= HEAD.len() {
            if bytes[..HEAD.len()] != *HEAD {
                refuse("another head")
            }
            start = HEAD.len();
            head = false;
        }
        while let (false, Some((row, len))) = (head, if of_text { text_row(&bytes[start..], columns, count == 0) } else { binary_row(&bytes[start..], columns) }) {
            start = (start + len).min(bytes.len());
            if of_text {
                write_binary(&row, &mut out)
            } else {
                write_text(&row, &mut out)
            }
            if out.len() >= PIECE {
                sink.write_all(&out)?;
                out.clear();
            }
        }
        if count == 0 {
            break;
        }
    }
    if of_text {
        out.extend_from_slice(&[0xFF; 2]);
    } else if bytes[start..] != [0xFF; 2] {
        refuse("no trailer")
    }
    sink.write_all(&out)
}
