//! The windows and the hot pages of a report, over the columns of ticks and pages.
//!
//! Workers count parts of the touches, which may be cut anywhere. First each notes in which row of its part a page
//! stands last. From the notes of the parts before, a worker knows how each page stands where its own part begins.

use crate::memory::zeros;
use crate::plan::Touches;
use crate::text::Text;
use crate::trace::Sizes;
use crate::words::Settings;
use std::ops::Range;
use std::thread::scope;

/// Of each page the last row that has it (rows count from 1), and in how many rows it is.
type Seen = (u32, u32);

/// How many different pages a row has, how many of them the row before has if that follows, and how many no row has.
type Counts = [u64; 3];

/// A window that has writes.
struct Row {
    window: u64,
    touches: Range<usize>,
    /// Whether the row before is of the window before.
    follows: bool,
}

/// What of a row lies in a part of the touches.
struct Piece {
    row: u32,
    /// The row before, if that is of the window before.
    before: u32,
    touches: Range<usize>,
}

fn rows(ticks: &[u64], window: u64) -> Vec<Row> {
    let (mut rows, mut first, mut next) = (Vec::<Row>::new(), 0, None);
    while first < ticks.len() {
        let number = ticks[first] / window;
        let limit = (number + 1) * window;
        let end = first + ticks[first..].iter().position(|tick| *tick >= limit).unwrap_or(ticks.len() - first);
        rows.push(Row { window: number, touches: first..end, follows: next == Some(number) });
        (first, next) = (end, Some(number + 1));
    }
    rows
}

/// The pieces of all rows, for each worker those of as many touches.
fn parts(rows: &[Row], touches: usize, workers: usize) -> Vec<Vec<Piece>> {
    let share = touches.div_ceil(workers);
    let mut parts: Vec<Vec<Piece>> = (0..workers).map(|_| Vec::new()).collect();
    for (row, it) in (1..).zip(rows) {
        let before = if it.follows { row - 1 } else { u32::MAX };
        let mut first = it.touches.start;
        while first < it.touches.end {
            let end = it.touches.end.min((first / share + 1) * share);
            parts[first / share].push(Piece { row, before, touches: first..end });
            first = end;
        }
    }
    parts
}

/// The last row of each page in a part, or 0.
fn last_rows(pages: usize, touches: &Touches, part: &[Piece]) -> &'static [u32] {
    let last = zeros::<u32>(pages);
    for piece in part {
        for page in &touches.page[piece.touches.clone()] {
            unsafe { *last.get_unchecked_mut(*page as usize) = piece.row }
        }
    }
    last
}

/// Counts the pages of a piece, without a branch.
#[inline(always)]
fn count(seen: &mut [Seen], pages: &[u32], row: u32, before: u32) -> Counts {
    let (mut different, mut again, mut fresh) = (0, 0, 0);
    for page in pages {
        let (last, rows) = unsafe { seen.get_unchecked_mut(*page as usize) };
        let is_new = (*last != row) as u32;
        different += is_new;
        again += (*last == before) as u32;
        fresh += (*last == 0) as u32;
        (*last, *rows) = (row, *rows + is_new);
    }
    [different, again, fresh].map(u64::from)
}

/// Counts the pieces of a part, behind parts with these last rows.
fn count_part(pages: usize, touches: &Touches, part: &[Piece], before: &[&[u32]]) -> (Vec<Counts>, &'static [Seen]) {
    let seen = zeros::<Seen>(pages);
    for last in before {
        for (page, row) in seen.iter_mut().zip(*last) {
            page.0 = page.0.max(*row);
        }
    }
    let of_piece = |it: &Piece| count(seen, &touches.page[it.touches.clone()], it.row, it.before);
    (part.iter().map(of_piece).collect(), seen)
}

/// Does some work for each number below a limit: the last on this thread, and the others beside it.
fn beside<T: Send>(limit: usize, work: impl Fn(usize) -> T + Sync) -> Vec<T> {
    scope(|scope| {
        let work = &work;
        let others: Vec<_> = (1..limit).map(|number| scope.spawn(move || work(number - 1))).collect();
        let last = limit.checked_sub(1).map(work);
        others.into_iter().map(|other| other.join().expect("a worker ends")).chain(last).collect()
    })
}

/// The text of the tables, from the first line of a report on, counted by so many workers.
pub fn tables(sizes: Sizes, touches: &Touches, settings: &Settings, workers: usize) -> Text {
    let rows = rows(touches.tick, settings.window);
    let parts = parts(&rows, touches.page.len(), workers);
    let last = beside(workers - 1, |part| last_rows(sizes.pages, touches, &parts[part]));
    let counted = beside(workers, |part| count_part(sizes.pages, touches, &parts[part], &last[..part]));
    let mut counts: Vec<Counts> = vec![[0; 3]; rows.len()];
    for (piece, counted) in parts.iter().flatten().zip(counted.iter().flat_map(|it| &it.0)) {
        for (sum, more) in counts[piece.row as usize - 1].iter_mut().zip(counted) {
            *sum += more;
        }
    }
    let size = sizes.page_size() as u64;
    let mut text = Text::new();
    text.line(&[("trace pages ", sizes.pages as u64), (" size ", size), (" writes ", sizes.writes as u64)]);
    for (row, [different, again, fresh]) in rows.iter().zip(counts) {
        text.word("window ").number(row.window).word(" writes ").number(row.touches.len() as u64);
        text.line(&[(" pages ", different), (" again ", again), (" fresh ", fresh)]);
    }
    let rows_of = |page: usize| counted.iter().map(|(_, seen)| seen[page].1 as u64).sum::<u64>();
    let hot: Vec<usize> = (0..sizes.pages).filter(|page| rows_of(*page) >= settings.hot).collect();
    text.line(&[("hot ", settings.hot), (" pages ", hot.len() as u64)]);
    for page in hot {
        text.line(&[("page ", page as u64)]);
    }
    text
}
