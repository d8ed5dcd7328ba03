//! The peer of the works that `bench_jobs` has in its module `wire`: the same work by postgres-protocol.
use bytes::BytesMut;
use fallible_iterator::FallibleIterator;
use postgres_protocol::message::{backend::Message, frontend};
use postgres_protocol::IsNull;
use std::io::{Error, Read};

/// Walks the ranges of each row: how many bytes its values have.
fn rows(stream: &[u8], size: usize) -> Result<u64, Error> {
    let (mut buffer, mut total) = (BytesMut::new(), 0u64);
    for piece in stream.chunks(size) {
        buffer.extend_from_slice(piece);
        while let Some(message) = Message::parse(&mut buffer)? {
            if let Message::DataRow(body) = message {
                let mut ranges = body.ranges();
                while let Some(range) = ranges.next()? {
                    if let Some(range) = range {
                        total += body.buffer()[range].len() as u64;
                    }
                }
            }
        }
    }
    Ok(total)
}

/// Walks the ranges of each row of the stream so many times, once at least: how many bytes the values have in all.
fn rows_again(stream: &[u8], size: usize, times: usize) -> Result<u64, Error> {
    (0..times.max(1)).map(|_| rows(stream, size)).sum()
}

/// Keeps each row, as whoever collects a result does: how many rows there are.
fn kept(stream: &[u8], size: usize) -> Result<u64, Error> {
    let (mut buffer, mut rows) = (BytesMut::new(), Vec::new());
    for piece in stream.chunks(size) {
        buffer.extend_from_slice(piece);
        while let Some(message) = Message::parse(&mut buffer)? {
            if let Message::DataRow(body) = message {
                rows.push(body);
            }
        }
    }
    Ok(rows.len() as u64)
}

/// Writes a Bind of so many values, many times over.
fn bind(count: usize, times: usize) -> Result<u64, Error> {
    let values: Vec<&[u8]> = (0..count).map(|_| b"a value of a text" as &[u8]).collect();
    let (mut buffer, mut total) = (BytesMut::new(), 0u64);
    for _ in 0..times {
        buffer.clear();
        let written = frontend::bind(
            "",
            "statement",
            Some(0),
            values.iter(),
            |value, buffer| {
                buffer.extend_from_slice(value);
                Ok(IsNull::No)
            },
            Some(0),
            &mut buffer,
        );
        if written.is_err() {
            return Err(Error::other("a value is refused"));
        }
        total += buffer.len() as u64;
    }
    Ok(total)
}

fn main() -> Result<(), Error> {
    let words: Vec<String> = std::env::args().collect();
    let number = |place: usize| words.get(place).and_then(|it| it.parse().ok()).unwrap_or(0);
    let mut stream = Vec::new();
    std::io::stdin().read_to_end(&mut stream)?;
    let total = match words[1].as_str() {
        "read" => stream.len() as u64,
        "rows" => rows_again(&stream, number(2), number(3))?,
        "kept" => kept(&stream, number(2))?,
        "bind" => bind(number(2), number(3))?,
        word => return Err(Error::other(format!("no work: {word}"))),
    };
    println!("{total}");
    Ok(())
}
