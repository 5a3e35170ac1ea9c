//! The end of a live run: the guest resumes where it arrived, and its memory is written page by page.

use crate::live::Guest;
use crate::pages::{behind_release, fetch, put_all, Body, Rooms};
use crate::trace::{file, Refused};
use std::io::{IoSlice, Write};
use std::sync::atomic::Ordering::Relaxed;
use std::thread::scope;

const AT_ONCE: usize = 256;
/// Pages below this size are copied into one buffer before they are written.
const SMALL: usize = 512;
static ZEROS: [u8; 4096] = [0; 4096];

/// The writes to a page after the version that arrived.
fn rest(guest: &Guest, page: usize) -> &[(u32, u32)] {
    let (writes, stamp) = (guest.index.of(page), guest.versions[page].load(Relaxed));
    &writes[writes.partition_point(|(place, _)| *place <= stamp)..]
}

/// Gives the pages from a first one on the writes that come after their versions.
fn resume(guest: &Guest, first: usize, pages: &mut [Body], rooms: &mut Rooms) {
    for number in 0..pages.len() {
        if number + 1 < pages.len() {
            fetch(guest.text, rest(guest, first + number + 1));
        }
        let (released, writes) = behind_release(rest(guest, first + number));
        if released && !pages[number].is_zeros() {
            unsafe { pages[number].0.write_bytes(0, rooms.size) }
        }
        if writes.is_empty() {
            continue;
        }
        if pages[number].is_zeros() {
            pages[number] = rooms.room().0; // nothing is given back here, so it is zeros
        }
        unsafe { put_all(guest.text, writes, pages[number], rooms.size) }
    }
}

fn bytes<'a>(body: Body, size: usize) -> &'a [u8] {
    if body.is_zeros() {
        return &ZEROS[..size];
    }
    unsafe { std::slice::from_raw_parts(body.0, size) }
}

fn put(pages: &[Body], size: usize) -> std::io::Result<()> {
    if size < SMALL {
        let together: Vec<u8> = pages.iter().flat_map(|body| bytes(*body, size)).copied().collect();
        return file(1).write_all(&together);
    }
    let mut slices: Vec<IoSlice> = pages.iter().map(|body| IoSlice::new(bytes(*body, size))).collect();
    let mut left = &mut slices[..];
    while !left.is_empty() {
        match file(1).write_vectored(left) {
            Ok(0) => return Err(std::io::ErrorKind::WriteZero.into()),
            Ok(count) => IoSlice::advance_slices(&mut left, count),
            Err(fault) if fault.kind() == std::io::ErrorKind::Interrupted => {}
            Err(fault) => return Err(fault),
        }
    }
    Ok(())
}

/// Writes the memory: as it arrived without workers, else after all writes, which workers put on the pages.
pub fn write(guest: &Guest, pages: &mut [Body], workers: usize) -> Result<(), Refused> {
    let (size, count) = (guest.sizes.page_size(), pages.len());
    if workers > 1 {
        let share = count.div_ceil(workers);
        scope(|scope| {
            for (number, own) in pages.chunks_mut(share).enumerate() {
                scope.spawn(move || resume(guest, number * share, own, &mut Rooms::new(size, count)));
            }
        });
    }
    let mut rooms = Rooms::new(size, count);
    let at_once = AT_ONCE * 4096 / size;
    for (number, some) in pages.chunks_mut(at_once).enumerate() {
        if workers == 1 {
            resume(guest, number * at_once, some, &mut rooms);
        }
        put(some, size).map_err(|fault| fault.to_string())?;
    }
    Ok(())
}
