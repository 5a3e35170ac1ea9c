//! Traces from standard input (`docs/FORMATS.md`): header and records, each looked at once. A file is mapped, so its
//! bytes are never copied; of anything else all bytes are read.

use crate::memory::{mapped, prefetch, zeros};
use std::fs::File;
use std::io::Read;
use std::mem::ManuallyDrop;
use std::os::fd::FromRawFd;

pub const LONGEST: usize = 1 << 28;
const HEADER: usize = 16;
const RECORD: usize = 16;
/// How far ahead of a record the processor is told what comes: bytes, and records as long as this one.
const AHEAD: (usize, usize) = (1024, 8);
/// Bytes after a buffer that may be read, and are never used.
pub const SLACK: usize = 64;

pub type Refused = String;

/// Standard input or standard output, without a buffer and never closed.
pub fn file(number: i32) -> ManuallyDrop<File> {
    ManuallyDrop::new(unsafe { File::from_raw_fd(number) })
}

#[derive(Clone, Copy)]
pub struct Sizes {
    /// Whether it is version 2, in which a write of no bytes at offset 0 releases its page.
    releases: bool,
    pub shift: u32,
    pub pages: usize,
    pub writes: usize,
}

impl Sizes {
    pub fn read(text: &[u8]) -> Result<Sizes, Refused> {
        let is_header = text.len() >= HEADER && text[..4] == *b"PCWT" && text[6..8] == [0, 0];
        if !is_header || !(1..=2).contains(&text[4]) {
            return Err("the header of the trace is refused".into());
        }
        let word = |at| unsafe { number::<u32>(text, at) } as usize;
        let (releases, shift) = (text[4] == 2, text[5] as u32);
        let sizes = Sizes { releases, shift, pages: word(8), writes: word(12) };
        let fits = (4..=12).contains(&sizes.shift) && (1..=65_536).contains(&sizes.pages) && sizes.writes <= 1 << 20;
        fits.then_some(sizes).ok_or("the sizes of the trace are refused".into())
    }

    pub fn page_size(&self) -> usize {
        1 << self.shift
    }

    pub fn has_releases(&self) -> bool {
        self.releases
    }
}

/// One write. Its bytes stand in the buffer from `at` on. One of no bytes releases its page.
#[derive(Clone, Copy)]
pub struct Write {
    pub tick: u64,
    pub page: u32,
    pub offset: usize,
    pub length: usize,
    pub at: usize,
}

#[inline(always)]
pub unsafe fn number<T: Copy>(bytes: &[u8], at: usize) -> T {
    (bytes.as_ptr().add(at) as *const T).read_unaligned()
}

/// Looks at all records of a trace. What `open` makes of the sizes is given to `each` with each write's number and the
/// write; its bytes stand in the text.
#[inline(always)]
pub fn read<T>(
    text: &[u8],
    open: impl FnOnce(Sizes) -> T,
    mut each: impl FnMut(&mut T, usize, Write),
) -> Result<(Sizes, T), Refused> {
    let sizes = Sizes::read(text)?;
    let mut made = open(sizes);
    let (size, pages, releases) = (sizes.page_size(), sizes.pages, sizes.releases);
    let (mut at, mut tick) = (HEADER, 0);
    for done in 0..sizes.writes {
        if at + RECORD > text.len() {
            return Err(refused(done));
        }
        let (next, page) = unsafe { (number::<u64>(text, at), number::<u32>(text, at + 8)) };
        let place = unsafe { number::<u32>(text, at + 12) } as usize;
        let (offset, length) = (place & 0xffff, place >> 16);
        let end = at + RECORD + length;
        prefetch(text.as_ptr().wrapping_add(end + AHEAD.0 + AHEAD.1 * (end - at)));
        let out_of_range = (next < tick) | (next >= 1 << 40) | (page as usize >= pages) | (offset + length > size);
        let empty = (length == 0) & !(releases & (offset == 0));
        if out_of_range | empty | (end > text.len()) {
            return Err(refused(done));
        }
        each(&mut made, done, Write { tick: next, page, offset, length, at: at + RECORD });
        (at, tick) = (end, next);
    }
    let ended = at == text.len();
    ended.then_some((sizes, made)).ok_or("the trace ends too late".into())
}

#[cold]
fn refused(record: usize) -> Refused {
    format!("record {record} of the trace is refused")
}

/// Fills a buffer after the bytes that it has, and returns how many it has then.
fn fill(buffer: &mut [u8], mut held: usize) -> Result<usize, Refused> {
    let end = buffer.len() - SLACK;
    while held < end {
        match file(0).read(&mut buffer[held..end]) {
            Ok(0) => break,
            Ok(count) => held += count,
            Err(fault) if fault.kind() == std::io::ErrorKind::Interrupted => {}
            Err(fault) => return Err(fault.to_string()),
        }
    }
    Ok(held)
}

/// All bytes of standard input; some more may be read after them.
pub fn text() -> Result<&'static [u8], Refused> {
    let known = file(0).metadata().map_err(|fault| fault.to_string())?;
    let size = if known.is_file() { known.len() as usize } else { 0 };
    if size > LONGEST {
        return Err("the trace is too long".into());
    }
    if let Some(text) = mapped(0, size) {
        return Ok(text);
    }
    let mut room = if size > 0 { size + 1 } else { 1 << 20 };
    let mut buffer = zeros::<u8>(room + SLACK);
    let mut held = fill(buffer, 0)?;
    while held == room && room <= LONGEST {
        room = (2 * room).min(LONGEST + 1);
        let larger = zeros::<u8>(room + SLACK);
        larger[..held].copy_from_slice(&buffer[..held]);
        buffer = larger;
        held = fill(buffer, held)?;
    }
    let fits = held <= LONGEST;
    fits.then_some(&buffer[..held]).ok_or("the trace is too long".into())
}
