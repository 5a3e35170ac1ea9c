//! Frames of pages, and memory into which they are taken.

use crate::refusals::{checked, checked_buffer, Refused};
use crate::{calls, room, Sizes, Status};

/// A page at a stamp, without its bytes.
#[derive(Clone, Copy, Debug, PartialEq, Eq)]
pub struct Frame {
    /// The number of the page.
    pub page: u32,
    /// The place of the last write in its bytes, or 0 before any.
    pub stamp: u32,
    /// How many bytes the frame has.
    pub size: usize,
}

/// What is known about a page of flat memory. The default is a page that did not come.
#[repr(C)]
#[derive(Clone, Copy, Debug, Default, PartialEq, Eq)]
pub struct Page {
    came: u32,
    stamp: u32,
}

impl Page {
    /// Returns the stamp of the page's bytes, or `None` if the page did not come.
    pub fn stamp(&self) -> Option<u32> {
        (self.came != 0).then_some(self.stamp)
    }
}

/// How much of a stream was taken.
#[repr(C)]
#[derive(Clone, Copy, Debug, Default, PartialEq, Eq)]
pub struct Taken {
    /// How many frames.
    pub frames: usize,
    /// How many bytes they have in total.
    pub bytes: usize,
}

/// Writes the frame of a page at a stamp, with these bytes of the page, to the front of a slice, and returns how many
/// bytes the frame has: at most `9 + sizes.page_length()`.
pub fn encode_frame_into(
    sizes: &Sizes,
    page: u32,
    stamp: u32,
    bytes: &[u8],
    frame: &mut [u8],
) -> Result<usize, Refused> {
    let mut needed = 0;
    // SAFETY: each slice is there for its length, and no other reference reaches the one that is written.
    let status = unsafe {
        calls::precopy_encode_frame(
            &sizes.as_c(),
            page,
            stamp,
            bytes.as_ptr(),
            bytes.len(),
            frame.as_mut_ptr(),
            frame.len(),
            &mut needed,
        )
    };
    checked_buffer(status, needed)
}

/// Returns the frame of a page at a stamp, with these bytes of the page.
pub fn encode_frame(sizes: &Sizes, page: u32, stamp: u32, bytes: &[u8]) -> Result<Vec<u8>, Refused> {
    let mut frame = room::zeros(9 + sizes.page_length())?;
    let length = encode_frame_into(sizes, page, stamp, bytes, &mut frame)?;
    frame.truncate(length);
    Ok(frame)
}

/// Decodes the frame at the front of some bytes, and writes the bytes of its page to the front of `content`.
pub fn decode_frame_into(sizes: &Sizes, bytes: &[u8], content: &mut [u8]) -> Result<Frame, Refused> {
    let mut frame = calls::Frame::default();
    // SAFETY: as in `encode_frame_into`.
    let status = unsafe {
        calls::precopy_decode_frame(
            &sizes.as_c(),
            bytes.as_ptr(),
            bytes.len(),
            &mut frame,
            content.as_mut_ptr(),
            content.len(),
        )
    };
    checked_buffer(status, sizes.page_length())?;
    Ok(Frame {
        page: frame.page,
        stamp: frame.stamp,
        size: frame.size,
    })
}

/// Returns the frame at the front of some bytes, and the bytes of its page.
pub fn decode_frame(sizes: &Sizes, bytes: &[u8]) -> Result<(Frame, Vec<u8>), Refused> {
    let mut content = room::zeros(sizes.page_length())?;
    let frame = decode_frame_into(sizes, bytes, &mut content)?;
    Ok((frame, content))
}

/// Takes a stream of frames into memory, which has the bytes of all pages, one page after the other, and an element of
/// `pages` for each. Both begin as zeros. Of each page the frame with the greatest stamp stays. The bytes of a page
/// that did not come mean nothing.
///
/// If bytes are no frame, [`Refused::Frame`] says what was taken before them, and the next call may go on from there.
pub fn accept(sizes: &Sizes, stream: &[u8], memory: &mut [u8], pages: &mut [Page]) -> Result<Taken, Refused> {
    let mut taken = Taken::default();
    // SAFETY: as in `encode_frame_into`.
    let answer = checked(unsafe {
        calls::precopy_accept(
            &sizes.as_c(),
            stream.as_ptr(),
            stream.len(),
            memory.as_mut_ptr(),
            memory.len(),
            pages.as_mut_ptr(),
            pages.len(),
            &mut taken,
        )
    });
    match answer {
        Ok(()) => Ok(taken),
        Err(Refused::Frame { status, .. }) => Err(Refused::Frame { status, taken }),
        Err(refused) => Err(refused),
    }
}

/// Returns the first page that did not come.
pub fn missing(pages: &[Page]) -> Option<usize> {
    let mut page = 0;
    // SAFETY: the slice is there for its length.
    let status = unsafe { calls::precopy_missing(pages.as_ptr(), pages.len(), &mut page) };
    (Status::of(status) == Status::PageMissing).then_some(page)
}

/// The memory of a guest, as frames come to it in any order, in memory of its own. [`accept`] does the same in slices
/// of the caller.
#[derive(Clone, Debug, PartialEq, Eq)]
pub struct FlatMemory {
    sizes: Sizes,
    memory: Vec<u8>,
    pages: Vec<Page>,
}

impl FlatMemory {
    /// Returns memory to which no page came.
    pub fn new(sizes: Sizes) -> Result<FlatMemory, Refused> {
        Ok(FlatMemory {
            sizes,
            memory: room::zeros(sizes.memory_length())?,
            pages: room::filled(sizes.pages() as usize, Page::default())?,
        })
    }

    /// Takes a stream of frames, as [`accept`] does.
    pub fn accept(&mut self, stream: &[u8]) -> Result<Taken, Refused> {
        accept(&self.sizes, stream, &mut self.memory, &mut self.pages)
    }

    /// Takes the whole frames at the front of a piece of a stream. After them comes the beginning of a frame that goes
    /// on in the next piece.
    pub fn accept_front(&mut self, piece: &[u8]) -> Result<Taken, Refused> {
        match self.accept(piece) {
            Err(Refused::Frame {
                status: Status::FrameShort,
                taken,
            }) => Ok(taken),
            answer => answer,
        }
    }

    /// Returns the first page that did not come.
    pub fn missing(&self) -> Option<usize> {
        missing(&self.pages)
    }

    /// Returns what is known about each page.
    pub fn pages(&self) -> &[Page] {
        &self.pages
    }

    /// Returns the bytes of all pages, one page after the other. Those of a page that did not come mean nothing.
    pub fn bytes(&self) -> &[u8] {
        &self.memory
    }

    /// Returns the bytes of all pages, and what is known about each.
    pub fn into_parts(self) -> (Vec<u8>, Vec<Page>) {
        (self.memory, self.pages)
    }
}
