//! Pages at their versions: where each page is written, memory for the bytes of pages, and how they are made.

use crate::memory::{prefetch, zeroed, zeros};
use crate::plan::Touches;
use crate::trace::number;
use std::ptr::{copy_nonoverlapping, null_mut};

const MASKS: [u128; 17] = {
    let mut masks = [u128::MAX; 17];
    let mut length = 0;
    while length < 16 {
        masks[length] = (1 << (8 * length)) - 1;
        length += 1;
    }
    masks
};

/// The bytes of a page, or nothing if all are zeros. One thread at a time writes them: the copier of the page, and
/// at the end whoever resumes the guest.
#[derive(Clone, Copy)]
pub struct Body(pub *mut u8);

unsafe impl Send for Body {}
unsafe impl Sync for Body {}

pub const ZEROS: Body = Body(null_mut());

impl Body {
    pub fn is_zeros(self) -> bool {
        self.0.is_null()
    }
}

/// The place of the bytes of a release, which has none.
pub const RELEASE: u32 = 0;

/// For each page its writes in order: the place of each, from 1, and where its bytes are in the text.
pub struct Index {
    starts: Vec<u32>,
    writes: &'static [(u32, u32)],
}

impl Index {
    pub fn new(touches: &Touches, positions: &[u32]) -> Index {
        let writes = zeros::<(u32, u32)>(positions.len());
        let mut starts = vec![0u32; touches.pages + 2];
        for page in touches.page.iter() {
            starts[*page as usize + 2] += 1;
        }
        for page in 2..starts.len() {
            starts[page] += starts[page - 1];
        }
        for (number, page) in touches.page.iter().enumerate() {
            let next = &mut starts[*page as usize + 1];
            writes[*next as usize] = (number as u32 + 1, positions[number]);
            *next += 1;
        }
        Index { starts, writes }
    }

    #[inline(always)]
    pub fn of(&self, page: usize) -> &[(u32, u32)] {
        &self.writes[self.starts[page] as usize..self.starts[page + 1] as usize]
    }
}

/// Memory for the bodies of pages.
pub struct Rooms {
    pub size: usize,
    piece: usize,
    next: *mut u8,
    left: usize,
    free: Vec<Body>,
}

unsafe impl Send for Rooms {}

const PIECE: usize = 8 << 20;

impl Rooms {
    pub fn new(size: usize, pages: usize) -> Rooms {
        Rooms { size, piece: PIECE.min(size * pages), next: null_mut(), left: 0, free: Vec::new() }
    }

    pub fn give_back(&mut self, body: Body) {
        self.free.push(body);
    }

    pub fn has_free(&self) -> bool {
        !self.free.is_empty()
    }

    /// Room for a page, and whether it is known to be zeros.
    pub fn room(&mut self) -> (Body, bool) {
        if let Some(body) = self.free.pop() {
            return (body, false);
        }
        if self.left == 0 {
            self.next = zeroed(self.piece);
            self.left = self.piece / self.size;
        }
        let body = Body(self.next);
        self.next = unsafe { self.next.add(self.size) };
        self.left -= 1;
        (body, true)
    }

    /// The body with more writes on top, in a room of its own. Some bytes after the end of the text may be read.
    pub fn with_writes(&mut self, text: &[u8], old: Body, writes: &[(u32, u32)]) -> Body {
        let (released, writes) = behind_release(writes);
        let old = if released { ZEROS } else { old };
        if old.is_zeros() && writes.is_empty() {
            return ZEROS;
        }
        let ((body, is_zeroed), size) = (self.room(), self.size);
        let is_whole = writes.last().is_some_and(|last| unsafe { place(text, last.1) }.1 == size);
        unsafe {
            if is_whole {
                put(text, writes[writes.len() - 1].1, body, size);
            } else {
                if !old.is_zeros() {
                    copy_nonoverlapping(old.0, body.0, size);
                } else if !is_zeroed {
                    body.0.write_bytes(0, size);
                }
                put_all(text, writes, body, size);
            }
        }
        self.unless_zeros(body)
    }

    /// The body with more writes on top, in its own room.
    pub fn with_writes_in_place(&mut self, text: &[u8], old: Body, writes: &[(u32, u32)]) -> Body {
        let (released, writes) = behind_release(writes);
        if writes.is_empty() && !released {
            return old;
        }
        let size = self.size;
        let (body, is_zeroed) = if old.is_zeros() { self.room() } else { (old, false) };
        unsafe {
            if released || (old.is_zeros() && !is_zeroed) {
                body.0.write_bytes(0, size);
            }
            put_all(text, writes, body, size);
        }
        self.unless_zeros(body)
    }

    fn unless_zeros(&mut self, body: Body) -> Body {
        if has_only_zeros(body, self.size) {
            self.give_back(body);
            return ZEROS;
        }
        body
    }
}

/// Whether one of these writes is a release, and those after the last one.
pub fn behind_release(writes: &[(u32, u32)]) -> (bool, &[(u32, u32)]) {
    match writes.iter().rposition(|(_, at)| *at == RELEASE) {
        Some(number) => (true, &writes[number + 1..]),
        None => (false, writes),
    }
}

const AHEAD: usize = 16;

/// Fetches what the first of these writes need.
pub fn fetch(text: &[u8], writes: &[(u32, u32)]) {
    for (_, at) in writes.iter().take(AHEAD) {
        prefetch(text.as_ptr().wrapping_add(*at as usize).wrapping_sub(4));
    }
}

/// Puts writes on a body, in order. None of them is a release.
pub unsafe fn put_all(text: &[u8], writes: &[(u32, u32)], body: Body, size: usize) {
    for (number, (_, at)) in writes.iter().enumerate() {
        if let Some((_, later)) = writes.get(number + AHEAD) {
            prefetch(text.as_ptr().wrapping_add(*later as usize - 4));
        }
        put(text, *at, body, size);
    }
}

/// Offset and length of the write whose bytes stand there.
#[inline(always)]
unsafe fn place(text: &[u8], at: u32) -> (usize, usize) {
    let both = number::<u32>(text, at as usize - 4) as usize;
    (both & 0xffff, both >> 16)
}

/// Puts one write on a body. Up to 16 bytes are mixed into 16 bytes of the page, at its end if there are no more.
#[inline(always)]
unsafe fn put(text: &[u8], at: u32, body: Body, size: usize) {
    let (offset, length) = place(text, at);
    if length > 16 {
        copy_nonoverlapping(text.as_ptr().add(at as usize), body.0.add(offset), length);
        return;
    }
    let first = offset.min(size - 16);
    let shift = 8 * (offset - first) as u32;
    let (mask, new) = (MASKS[length] << shift, number::<u128>(text, at as usize) << shift);
    let old = body.0.add(first) as *mut u128;
    old.write_unaligned((old.read_unaligned() & !mask) | (new & mask));
}

fn has_only_zeros(body: Body, size: usize) -> bool {
    let words = unsafe { std::slice::from_raw_parts(body.0 as *const u128, size / 16) };
    words.chunks(16).all(|some| some.iter().fold(0, |all, word| all | word) == 0)
}
