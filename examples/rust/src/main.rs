//! Reads a trace from standard input, and prints the report on it, as `precopy report` does; or, given `memory TICK`,
//! the memory before a tick; or, given `receive SHIFT PAGES WRITES`, the memory that a stream of frames leaves.

use precopy::{report, FlatMemory, OpenTrace, Settings, Sizes};
use std::error::Error;
use std::io::{Read, Write};
use std::str::FromStr;

fn number<T: FromStr>(words: &[String], at: usize) -> Result<T, Box<dyn Error>>
where
    T::Err: Error + 'static,
{
    Ok(words.get(at).ok_or("a number is missing")?.parse()?)
}

/// Takes a stream piece by piece.
fn received(words: &[String], stream: &[u8]) -> Result<Vec<u8>, Box<dyn Error>> {
    let sizes = Sizes::new(number(words, 1)?, number(words, 2)?, number(words, 3)?)?;
    let mut memory = FlatMemory::new(sizes)?;
    let mut rest: Vec<u8> = Vec::new();
    for piece in stream.chunks(1021) {
        rest.extend_from_slice(piece);
        let taken = memory.accept_front(&rest)?;
        rest.drain(..taken.bytes);
    }
    if !rest.is_empty() {
        return Err("the stream ends within a frame".into());
    }
    match memory.missing() {
        Some(page) => Err(format!("page {page} did not come").into()),
        None => Ok(memory.into_parts().0),
    }
}

fn output(words: &[String], input: &[u8]) -> Result<Vec<u8>, Box<dyn Error>> {
    match words.first().map(String::as_str) {
        Some("memory") => Ok(OpenTrace::open(input)?.memory_before(number(words, 1)?)?),
        Some("receive") => received(words, input),
        _ => Ok(report(input, &Settings::default())?.into_bytes()),
    }
}

fn main() -> Result<(), Box<dyn Error>> {
    let words: Vec<String> = std::env::args().skip(1).collect();
    let mut input = Vec::new();
    std::io::stdin().read_to_end(&mut input)?;
    std::io::stdout().write_all(&output(&words, &input)?)?;
    Ok(())
}
