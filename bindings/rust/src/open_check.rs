//! Streams of a migration, checked over a trace that stays open, in any order.

use crate::refusals::{checked, Refused, NO_RECORD};
use crate::streams::told;
use crate::{calls, room, Finding, OpenTrace, Status};
use std::mem;

/// What is known of one stream.
struct Stream {
    progress: calls::Progress,
    last: Vec<u32>,
    /// The beginning of a frame, whose end did not come. It has room for a whole frame.
    left: Vec<u8>,
    /// Room for that and the bytes that end the frame.
    cut: Vec<u8>,
    first: Option<Finding>,
}

/// A check of the streams of a migration as they come, whose pieces may come in any order. At the end it has found what
/// [`check_streams`](crate::check_streams) finds in all of them at once. What is wrong first in a stream is what each
/// later call for it returns, and no more of it is taken then. So it is with pages that come without stamps.
/// [`OpenTrace::check`] makes it, and [`OpenTrace::check_with_base`].
pub struct OpenCheck<'t> {
    trace: &'t OpenTrace<'t>,
    stop: u32,
    greatest: Vec<u32>,
    memory: Vec<u8>,
    streams: Vec<Stream>,
    first_page: Option<Finding>,
    /// Whether pages came without stamps, so that versions do not tell if memory is right.
    has_pages: bool,
}

impl Stream {
    /// Returns what was found first, or a frame that is cut off at the end, or `None`.
    fn end(&mut self) -> Result<Option<Finding>, Refused> {
        if self.first.is_none() {
            let mut found = calls::Finding::default();
            // SAFETY: both structs are there, and no other reference reaches the one that is written.
            let status = unsafe { calls::precopy_end_stream(&self.progress, self.left.len(), &mut found) };
            self.first = told(status, &found, NO_RECORD)?;
            self.left.clear();
        }
        Ok(self.first)
    }
}

impl<'t> OpenCheck<'t> {
    pub(crate) fn new(trace: &'t OpenTrace<'t>, stop: u32) -> Result<OpenCheck<'t>, Refused> {
        let sizes = trace.sizes();
        Ok(OpenCheck {
            trace,
            stop,
            greatest: room::filled(sizes.pages() as usize, 0)?,
            memory: room::zeros(sizes.memory_length())?,
            streams: Vec::new(),
            first_page: None,
            has_pages: false,
        })
    }

    /// Begins with the memory before a tick.
    pub(crate) fn begin_at(&mut self, base: u64) -> Result<(), Refused> {
        // SAFETY: the trace is as it was opened, each slice is there for its length, and no other reference reaches
        // what is written.
        checked(unsafe {
            calls::precopy_trace_check_base(
                self.trace.shown(),
                base,
                self.greatest.as_mut_ptr(),
                self.greatest.len(),
                self.memory.as_mut_ptr(),
                self.memory.len(),
            )
        })
    }

    /// Returns where the stream with this number is, of which nothing may have come yet.
    fn place(&mut self, number: usize) -> Result<usize, Refused> {
        if let Some(place) = self.streams.iter().position(|it| it.progress.stream == number) {
            return Ok(place);
        }
        let sizes = self.trace.sizes();
        let stream = Stream {
            progress: calls::Progress {
                stream: number,
                stop: self.stop,
                ..Default::default()
            },
            last: room::filled(sizes.pages() as usize, 0)?,
            left: room::empty(9 + sizes.page_length())?,
            cut: room::empty(9 + sizes.page_length())?,
            first: None,
        };
        self.streams.try_reserve(1).map_err(|_| Refused::NoMemory)?;
        self.streams.push(stream);
        Ok(self.streams.len() - 1)
    }

    /// Takes the next bytes of the stream with this number, and returns the first frame in it that is wrong, or `None`.
    /// It keeps the beginning of a frame at their end, and copies only what the frame at their front needs. If it is
    /// refused, nothing is taken.
    pub fn take(&mut self, stream: usize, piece: &[u8]) -> Result<Option<Finding>, Refused> {
        let place = self.place(stream)?;
        let behind = if self.streams[place].left.is_empty() {
            piece
        } else {
            piece.get(self.take_cut(place, piece)?..).unwrap_or_default()
        };
        if self.streams[place].first.is_some() || behind.is_empty() {
            return Ok(self.streams[place].first);
        }
        self.take_behind(place, behind)
    }

    /// Takes the frame whose beginning was kept, and returns how many of the next bytes that took.
    fn take_cut(&mut self, place: usize, piece: &[u8]) -> Result<usize, Refused> {
        let stream = &mut self.streams[place];
        let began = stream.left.len();
        let longest = 9 + self.trace.sizes().page_length();
        let count = piece.len().min(longest.saturating_sub(began));
        let mut whole = mem::take(&mut stream.cut);
        whole.clear();
        whole.extend_from_slice(&stream.left);
        whole.extend_from_slice(&piece[..count]);
        let told = self.take_behind(place, &whole);
        let stream = &mut self.streams[place];
        stream.cut = whole;
        told?;
        if stream.left.len() == began + count {
            return Ok(count);
        }
        let taken = (began + count).saturating_sub(stream.left.len());
        stream.left.clear();
        Ok(taken.saturating_sub(began))
    }

    /// Takes bytes of a stream that begin where the whole frames that were taken end.
    fn take_behind(&mut self, place: usize, bytes: &[u8]) -> Result<Option<Finding>, Refused> {
        let stream = &mut self.streams[place];
        let mut found = calls::Finding::default();
        let before = stream.progress.bytes;
        // SAFETY: as in `begin_at`. The words and the memory began as zeros or there, and only this call and that of
        // `take_page` change them.
        let status = unsafe {
            calls::precopy_trace_check_piece(
                self.trace.shown(),
                bytes.as_ptr(),
                bytes.len(),
                &mut stream.progress,
                stream.last.as_mut_ptr(),
                stream.last.len(),
                self.greatest.as_mut_ptr(),
                self.greatest.len(),
                self.memory.as_mut_ptr(),
                self.memory.len(),
                &mut found,
            )
        };
        stream.first = told(status, &found, NO_RECORD)?;
        stream.left.clear();
        if stream.first.is_none() {
            let taken = stream.progress.bytes.wrapping_sub(before);
            stream.left.extend_from_slice(bytes.get(taken..).unwrap_or_default());
        }
        Ok(stream.first)
    }

    /// Ends the stream with this number. It returns what was found in it before, or the frame that is cut off at its
    /// end, or `None`.
    pub fn end_stream(&mut self, stream: usize) -> Result<Option<Finding>, Refused> {
        let place = self.place(stream)?;
        self.streams[place].end()
    }

    /// Takes a page that comes without a stamp, as from an engine that knows its dirty pages alone. It is right if it
    /// has its bytes at a version of the page: none below the one that was taken last, and none after the stop. Then
    /// the least of these is taken. It returns a [`Finding::Unstamped`] of the first page that is not, or `None`.
    pub fn take_page(&mut self, page: u32, content: &[u8]) -> Result<Option<Finding>, Refused> {
        if self.first_page.is_some() {
            return Ok(self.first_page);
        }
        // SAFETY: as in `take_behind`.
        let status = unsafe {
            calls::precopy_trace_check_bytes(
                self.trace.shown(),
                self.stop,
                page,
                content.as_ptr(),
                content.len(),
                self.greatest.as_mut_ptr(),
                self.greatest.len(),
                self.memory.as_mut_ptr(),
                self.memory.len(),
            )
        };
        if Status::of(status) == Status::OtherBytes {
            self.first_page = Some(Finding::Unstamped {
                page,
                stamp: self.greatest.get(page as usize).map_or(0, |it| it.saturating_sub(1)),
                wanted: self.trace.version_after(page, self.stop)?,
            });
        } else {
            checked(status)?;
        }
        self.has_pages = true;
        Ok(self.first_page)
    }

    /// Ends all streams. It returns what was found in the first of them in which something is wrong, or else in the
    /// pages without stamps, or else the first page that is not at its version at the stop, or `None`. If pages came
    /// without stamps, it returns a [`Finding::Difference`] of memory and that at the stop in place of such a page.
    pub fn finish(&mut self) -> Result<Option<Finding>, Refused> {
        self.streams.sort_unstable_by_key(|it| it.progress.stream);
        for stream in &mut self.streams {
            if let Some(found) = stream.end()? {
                return Ok(Some(found));
            }
        }
        if self.first_page.is_some() {
            return Ok(self.first_page);
        }
        if self.has_pages {
            return self.trace.difference(self.stop, &self.memory);
        }
        let progress = calls::Progress {
            stop: self.stop,
            ..Default::default()
        };
        let mut found = calls::Finding::default();
        // SAFETY: as in `take_behind`.
        let status = unsafe {
            calls::precopy_trace_check_pages(
                self.trace.shown(),
                &progress,
                self.greatest.as_ptr(),
                self.greatest.len(),
                &mut found,
            )
        };
        told(status, &found, NO_RECORD)
    }
}
