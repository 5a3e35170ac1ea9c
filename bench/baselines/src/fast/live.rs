//! `live`: a pre-copy migration by threads, all of which run from the first round to the last and meet between rounds.
//!
//! Replayers store the version of a page and then set its dirty bit. Copiers take the dirty bits of 64 pages at once,
//! read the version of each page, make its bytes and hand them to the streams in turn. Each stream has a thread that
//! keeps the newest version of each page. `carriage.rs` has the two ways in which bytes change hands.

use crate::carriage::{Carriage, Frame, Part};
use crate::lanes::{lane, Giver, Taker};
use crate::pages::{fetch, Body, Index, Rooms, RELEASE, ZEROS};
use crate::plan::{Plan, Planner, Touches};
use crate::trace::{read, text, Refused, Sizes};
use crate::words::Settings;
use std::ops::Range;
use std::sync::atomic::{AtomicBool, AtomicU32, AtomicU64, Ordering::*};
use std::sync::Barrier;
use std::thread::{scope, sleep};
use std::time::Duration;

/// The guest, and what all threads share.
pub struct Guest {
    pub sizes: Sizes,
    pub text: &'static [u8],
    pub index: Index,
    touches: Touches,
    pub versions: Vec<AtomicU32>,
    dirty: Vec<AtomicU64>,
    /// The writes of each round.
    rounds: Vec<Range<usize>>,
    /// In a warm start, how many writes the destination's memory has.
    base: Option<usize>,
}

impl Guest {
    /// Reads the trace and plans its rounds. Before the first one all pages are dirty that the destination lacks.
    fn read(settings: &Settings) -> Result<Guest, Refused> {
        let open = |sizes: Sizes| (Touches::new(sizes), crate::memory::zeros::<u32>(sizes.writes));
        let text = text()?;
        let (sizes, (touches, positions)) = read(text, open, |made, number, write| {
            made.0.come(number, write);
            made.1[number] = if write.length == 0 { RELEASE } else { write.at as u32 };
        })?;
        let (plan, index) = scope(|scope| {
            let index = scope.spawn(|| Index::new(&touches, positions));
            let plan = Planner::new(&touches, None).plan(settings);
            (plan, index.join().expect("the index is made"))
        });
        let versions: Vec<AtomicU32> = (0..sizes.pages).map(|_| AtomicU32::new(0)).collect();
        for number in 0..touches.at(settings.start) {
            versions[touches.page[number] as usize].store(number as u32 + 1, Relaxed);
        }
        let pages_in = |word: usize| (sizes.pages - 64 * word).min(64);
        let base = settings.base.map(|base| touches.at(base));
        let bits = |word| if base.is_some() { 0 } else { u64::MAX >> (64 - pages_in(word)) };
        let mut dirty: Vec<u64> = (0..sizes.pages.div_ceil(64)).map(bits).collect();
        for page in &touches.page[base.unwrap_or(0)..touches.at(settings.start)] {
            dirty[*page as usize / 64] |= 1 << (page % 64);
        }
        let dirty = dirty.into_iter().map(AtomicU64::new).collect();
        let rounds = ranges(&plan, &touches);
        Ok(Guest { sizes, text, index, touches, versions, dirty, rounds, base })
    }

    /// What the destination begins with: in a warm start each page as the base has it.
    fn first_part(&self) -> Part {
        let mut part = vec![(0, ZEROS); self.sizes.pages];
        let Some(base) = self.base else { return part };
        let mut rooms = Rooms::new(self.sizes.page_size(), self.sizes.pages);
        for page in 0..part.len() {
            if page + 1 < part.len() {
                fetch(self.text, self.index.of(page + 1));
            }
            let writes = self.index.of(page);
            let writes = &writes[..writes.partition_point(|(place, _)| *place as usize <= base)];
            let stamp = writes.last().map_or(0, |(place, _)| *place);
            part[page] = (stamp + 1, rooms.with_writes(self.text, ZEROS, writes));
        }
        part
    }

    fn replay(&self, number: usize, replayers: usize, meeting: &Barrier) {
        for round in &self.rounds {
            for write in round.clone() {
                let page = self.touches.page[write] as usize;
                if replayers > 1 && page % replayers != number {
                    continue;
                }
                self.versions[page].store(write as u32 + 1, Release);
                self.dirty[page / 64].fetch_or(1 << (page % 64), Release);
            }
            meeting.wait();
        }
    }
}

fn ranges(plan: &Plan, touches: &Touches) -> Vec<Range<usize>> {
    plan.rounds.iter().map(|round| touches.at(round.from)..touches.at(round.to)).collect()
}

/// The lane to a stream, and the one on which memory comes back.
type Lanes<C> = (Giver<C>, Taker<Body>);

/// What a copier made last of one of its pages, and how many of the page's writes are in it.
#[derive(Clone, Copy)]
struct Newest {
    body: Body,
    writes: usize,
}

/// A copier has the dirty words whose number leaves its own by the number of copiers.
struct Copier<'a, C> {
    guest: &'a Guest,
    number: usize,
    copiers: usize,
    newest: Vec<Newest>,
    rooms: Rooms,
    /// Memory that comes back over the lanes, if frames have memory of their own.
    spare: Rooms,
    turn: usize,
    lanes: Vec<Lanes<C>>,
    sent: usize,
}

impl<C: Carriage> Copier<'_, C> {
    /// It goes on from the pages that the destination has.
    fn new<'a>(guest: &'a Guest, number: usize, copiers: usize, lanes: Vec<Lanes<C>>, first: &Part) -> Copier<'a, C> {
        let own = guest.dirty.len().div_ceil(copiers) * 64;
        let newest = vec![Newest { body: ZEROS, writes: 0 }; own];
        let size = guest.sizes.page_size();
        let (rooms, spare) = (Rooms::new(size, guest.sizes.pages), C::spare(size, guest.sizes.pages));
        let mut copier = Copier { guest, number, copiers, newest, rooms, spare, turn: 0, lanes, sent: 0 };
        let words: Vec<usize> = if guest.base.is_some() { copier.words().collect() } else { Vec::new() };
        for page in words.into_iter().flat_map(|word| 64 * word..first.len().min(64 * word + 64)) {
            let (next, body) = first[page];
            let writes = guest.index.of(page).partition_point(|(place, _)| *place < next);
            *copier.newest(page) = Newest { body, writes };
        }
        copier
    }

    fn words(&self) -> impl Iterator<Item = usize> {
        (self.number..self.guest.dirty.len()).step_by(self.copiers)
    }

    fn newest(&mut self, page: usize) -> &mut Newest {
        &mut self.newest[page / 64 / self.copiers * 64 + page % 64]
    }

    /// Takes all rounds, and then makes the frames of the pages that are dirty still. Answers also how many it sent.
    fn work(mut self, skip: bool, meeting: &Barrier) -> (Vec<C>, usize) {
        for round in 0..self.guest.rounds.len() {
            self.round(skip && round > 0);
            meeting.wait();
        }
        let mut last = Vec::new();
        for word in self.words() {
            let mut left = self.guest.dirty[word].swap(0, AcqRel);
            while left != 0 {
                let page = 64 * word + left.trailing_zeros() as usize;
                left &= left - 1;
                self.ahead(word, left);
                last.push(self.frame(page));
            }
        }
        let sent = self.sent + last.len();
        (last, sent)
    }

    fn round(&mut self, skip: bool) {
        for word in self.words() {
            let dirty = &self.guest.dirty[word];
            let mut left = if dirty.load(Relaxed) == 0 { 0 } else { dirty.swap(0, AcqRel) };
            let mut returned = 0;
            while left != 0 {
                let bit = left & left.wrapping_neg();
                left -= bit;
                if skip && dirty.load(Relaxed) & bit != 0 {
                    continue; // it is written again, so its bit is set again
                }
                let stream = self.turn;
                self.turn = (self.turn + 1) % self.lanes.len();
                if !self.lanes[stream].0.has_room() {
                    returned |= bit;
                    continue;
                }
                self.ahead(word, left);
                let frame = self.frame(64 * word + bit.trailing_zeros() as usize);
                self.lanes[stream].0.give(frame);
                self.sent += 1;
            }
            if returned != 0 {
                dirty.fetch_or(returned, Release);
            }
            self.lanes.iter().for_each(|(lane, _)| lane.publish());
        }
    }

    /// Fetches what the next page of a word needs.
    fn ahead(&mut self, word: usize, left: u64) {
        if left != 0 {
            let page = 64 * word + left.trailing_zeros() as usize;
            let Newest { body, writes } = *self.newest(page);
            crate::memory::prefetch(body.0);
            fetch(self.guest.text, &self.guest.index.of(page)[writes..]);
        }
    }

    /// The frame of a page as it is now.
    fn frame(&mut self, page: usize) -> C {
        let guest = self.guest;
        let stamp = guest.versions[page].load(Acquire);
        let (old, writes) = (*self.newest(page), guest.index.of(page));
        let new = writes[old.writes..].iter().take_while(|(place, _)| *place <= stamp).count();
        if !C::returned(&mut self.rooms, &mut self.spare).has_free() {
            self.fetch_back();
        }
        let body = C::brought_on(&mut self.rooms, guest.text, old.body, &writes[old.writes..old.writes + new]);
        *self.newest(page) = Newest { body, writes: old.writes + new };
        C::packed(Frame { page: page as u32, stamp, body }, &mut self.spare)
    }

    /// Takes back the memory that streams have let go of.
    fn fetch_back(&mut self) {
        for (_, back) in &mut self.lanes {
            while let Some(body) = back.take() {
                C::returned(&mut self.rooms, &mut self.spare).give_back(body);
            }
            back.publish();
        }
    }
}

/// For each copier the lane from it, the one back to it, and memory for which that had no room yet.
type Stream<C> = Vec<(Taker<C>, Giver<Body>, Vec<Body>)>;

fn receive<C: Carriage>(mut stream: Stream<C>, mut part: Part, size: usize, over: &AtomicBool) -> (Part, Rooms) {
    let mut rooms = Rooms::new(size, part.len());
    let mut idle = 0;
    loop {
        let is_last = over.load(Acquire);
        let mut came = false;
        for (lane, back, old) in &mut stream {
            while let Some(frame) = lane.take() {
                came = true;
                let body = frame.accepted(&mut part, &mut rooms);
                if !body.is_zeros() {
                    old.push(body);
                }
            }
            lane.publish();
            while !old.is_empty() && back.has_room() {
                back.give(old.pop().expect("there is one"));
            }
            back.publish();
        }
        idle = if came { 0 } else { idle + 1 };
        if is_last && !came {
            return (part, rooms);
        }
        match idle {
            0 => {}
            1..=100 => std::hint::spin_loop(),
            _ => sleep(Duration::from_micros(20)),
        }
    }
}

/// Performs the migration. Answers the parts of all streams, and how many pages were sent.
fn migrate<C: Carriage>(guest: &Guest, settings: &Settings) -> (Vec<Part>, usize) {
    let mut streams: Vec<Stream<C>> = (0..settings.streams).map(|_| Vec::new()).collect();
    let (first, mut copiers) = (guest.first_part(), Vec::new());
    for number in 0..settings.workers {
        let mut lanes = Vec::new();
        for stream in &mut streams {
            let ((giver, taker), (back, free)) = (lane(settings.lane), lane(settings.lane));
            stream.push((taker, back, Vec::new()));
            lanes.push((giver, free));
        }
        copiers.push(Copier::new(guest, number, settings.workers, lanes, &first));
    }
    let (over, meeting) = (AtomicBool::new(false), Barrier::new(settings.replayers + settings.workers));
    let (over, meeting, size) = (&over, &meeting, guest.sizes.page_size());
    let mut parts = vec![vec![(0, ZEROS); guest.sizes.pages]; settings.streams];
    parts[0] = C::own(first, size);
    scope(|scope| {
        let receive = |(stream, part)| scope.spawn(move || receive(stream, part, size, over));
        let receivers: Vec<_> = streams.into_iter().zip(parts).map(receive).collect();
        for number in 0..settings.replayers {
            scope.spawn(move || guest.replay(number, settings.replayers, meeting));
        }
        let copying = copiers.into_iter().map(|it| scope.spawn(move || it.work(settings.skip, meeting)));
        let copiers: Vec<_> = copying.collect();
        let last: Vec<_> = copiers.into_iter().map(|it| it.join().expect("a copier ends")).collect();
        over.store(true, Release);
        let ended = receivers.into_iter().map(|it| it.join().expect("a receiver ends"));
        let (mut parts, mut rooms): (Vec<_>, Vec<_>) = ended.unzip();
        let mut sent = 0;
        for (frames, count) in last {
            sent += count;
            for frame in frames {
                frame.accepted(&mut parts[0], &mut rooms[0]);
            }
        }
        (parts, sent)
    })
}

/// The newest body of each page.
fn join(parts: &[Part], pages: usize) -> Vec<Body> {
    let newest = |page: usize| parts.iter().map(|part| part[page]).max_by_key(|(stamp, _)| *stamp);
    (0..pages).map(|page| newest(page).expect("there is a stream").1).collect()
}

/// Performs the migration and writes the memory. If the environment has `FAST_COUNTS`, standard error gets how many
/// pages were sent.
pub fn live<C: Carriage>(settings: &Settings) -> Result<(), Refused> {
    let guest = Guest::read(settings)?;
    let (parts, sent) = migrate::<C>(&guest, settings);
    if std::env::var_os("FAST_COUNTS").is_some() {
        eprintln!("sent {sent}");
    }
    let mut pages = join(&parts, guest.sizes.pages);
    let workers = if settings.at_stop { 0 } else { settings.workers };
    crate::output::write(&guest, &mut pages, workers)
}
