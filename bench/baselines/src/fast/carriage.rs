//! How the bytes of a page go from a copier to a stream: by pointer, or encoded in a frame of bytes.

use crate::pages::{Body, Rooms, ZEROS};
use std::ptr::copy_nonoverlapping;

/// A page at a version: the place of the last write that it has, from 1, or 0.
#[derive(Clone, Copy)]
pub struct Frame {
    pub page: u32,
    pub stamp: u32,
    pub body: Body,
}

/// What a stream has of each page: one more than the stamp, or 0, and the bytes.
pub type Part = Vec<(u32, Body)>;

/// What goes over a lane. What comes back is memory that the copier may use again.
pub trait Carriage: Copy + Send {
    /// The memory from which frames are made.
    fn spare(size: usize, pages: usize) -> Rooms;

    /// Which of the copier's memory comes back over its lanes.
    fn returned<'a>(rooms: &'a mut Rooms, spare: &'a mut Rooms) -> &'a mut Rooms;

    /// The copier's own newest bytes of a page, with more writes on top.
    fn brought_on(rooms: &mut Rooms, text: &[u8], old: Body, writes: &[(u32, u32)]) -> Body;

    fn packed(frame: Frame, spare: &mut Rooms) -> Self;

    /// Puts what came into a part, and tells which memory is needed no more. Of equal versions the later one stays: it
    /// is the one that its copier goes on from.
    fn accepted(self, part: &mut Part, rooms: &mut Rooms) -> Body;

    /// The first part, in memory that no copier writes.
    fn own(first: Part, size: usize) -> Part;
}

/// By pointer: only its copier writes a body, and it comes back when a newer version has taken its place.
impl Carriage for Frame {
    fn spare(size: usize, _: usize) -> Rooms {
        Rooms::new(size, 0)
    }

    fn returned<'a>(rooms: &'a mut Rooms, _: &'a mut Rooms) -> &'a mut Rooms {
        rooms
    }

    fn brought_on(rooms: &mut Rooms, text: &[u8], old: Body, writes: &[(u32, u32)]) -> Body {
        rooms.with_writes(text, old, writes)
    }

    fn packed(frame: Frame, _: &mut Rooms) -> Frame {
        frame
    }

    fn accepted(self, part: &mut Part, _: &mut Rooms) -> Body {
        let kept = &mut part[self.page as usize];
        if self.stamp + 1 < kept.0 {
            return self.body;
        }
        std::mem::replace(kept, (self.stamp + 1, self.body)).1
    }

    fn own(first: Part, _: usize) -> Part {
        first
    }
}

/// A frame of bytes: page, stamp and kind in 9 bytes, and the page behind them if it is not all zeros. The copier keeps
/// its own bytes of each page and the stream has others, so each page is copied twice.
#[derive(Clone, Copy)]
pub struct Encoded(Body);

const HEAD: usize = 9;
/// What a frame takes of memory beside its page, so that pages stand at multiples of 16.
const ROOM: usize = 16;

impl Carriage for Encoded {
    fn spare(size: usize, pages: usize) -> Rooms {
        Rooms::new(size + ROOM, pages)
    }

    fn returned<'a>(_: &'a mut Rooms, spare: &'a mut Rooms) -> &'a mut Rooms {
        spare
    }

    fn brought_on(rooms: &mut Rooms, text: &[u8], old: Body, writes: &[(u32, u32)]) -> Body {
        rooms.with_writes_in_place(text, old, writes)
    }

    fn packed(frame: Frame, spare: &mut Rooms) -> Encoded {
        let (buffer, _) = spare.room();
        let size = spare.size - ROOM;
        unsafe {
            (buffer.0 as *mut [u8; 4]).write(frame.page.to_le_bytes());
            (buffer.0.add(4) as *mut [u8; 4]).write(frame.stamp.to_le_bytes());
            *buffer.0.add(8) = u8::from(!frame.body.is_zeros());
            if !frame.body.is_zeros() {
                copy_nonoverlapping(frame.body.0, buffer.0.add(HEAD), size);
            }
        }
        Encoded(buffer)
    }

    fn accepted(self, part: &mut Part, rooms: &mut Rooms) -> Body {
        let number = |at: usize| u32::from_le_bytes(unsafe { *(self.0 .0.add(at) as *const [u8; 4]) });
        let (page, stamp) = (number(0) as usize, number(4));
        let kept = &mut part[page];
        if stamp + 1 < kept.0 {
            return self.0;
        }
        kept.0 = stamp + 1;
        if unsafe { *self.0 .0.add(8) } == 0 {
            if !kept.1.is_zeros() {
                rooms.give_back(kept.1);
            }
            kept.1 = ZEROS;
            return self.0;
        }
        if kept.1.is_zeros() {
            kept.1 = rooms.room().0;
        }
        unsafe { copy_nonoverlapping(self.0 .0.add(HEAD), kept.1 .0, rooms.size) };
        self.0
    }

    fn own(first: Part, size: usize) -> Part {
        let mut rooms = Rooms::new(size, first.len());
        let copied = |(stamp, body): (u32, Body)| {
            if body.is_zeros() {
                return (stamp, ZEROS);
            }
            let own = rooms.room().0;
            unsafe { copy_nonoverlapping(body.0, own.0, size) };
            (stamp, own)
        };
        first.into_iter().map(copied).collect()
    }
}
