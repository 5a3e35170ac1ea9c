//! The rounds of a plan, over the columns of ticks and pages.
//!
//! A round that skips nothing only counts the pages that are written in it. With an index that is the number of writes
//! whose page was not written before them in the round: one comparison a write. Else bits are set and counted. A round
//! that skips sets the bits of pages as its scan comes to their ticks, so one test of a bit decides for each page. What
//! a round does hangs on how it begins alone, so plans that begin alike share their first rounds.

use crate::memory::zeros;
use crate::text::Text;
use crate::trace::{read, text, Refused, Sizes, Write};
use crate::words::Settings;

/// Ticks and pages of all writes.
pub struct Touches {
    pub pages: usize,
    pub tick: &'static mut [u64],
    pub page: &'static mut [u32],
}

impl Touches {
    pub fn new(sizes: Sizes) -> Touches {
        Touches { pages: sizes.pages, tick: zeros(sizes.writes), page: zeros(sizes.writes) }
    }

    #[inline(always)]
    pub fn come(&mut self, number: usize, write: Write) {
        unsafe {
            *self.tick.get_unchecked_mut(number) = write.tick;
            *self.page.get_unchecked_mut(number) = write.page;
        }
    }

    /// Those of the trace on standard input.
    pub fn read() -> Result<(Sizes, Touches), Refused> {
        read(text()?, Touches::new, |touches, number, write| touches.come(number, write))
    }

    /// The number of the first write at this tick or later.
    pub fn at(&self, tick: u64) -> usize {
        self.tick.partition_point(|it| *it < tick)
    }

    /// For each write the number, from 1, of the write to its page before it, or 0. Signed numbers are compared many at
    /// a time.
    pub fn index(&self) -> &'static [i32] {
        let (last, index) = (zeros::<i32>(self.pages), zeros::<i32>(self.page.len()));
        for ((page, before), number) in self.page.iter().zip(index.iter_mut()).zip(1..) {
            *before = std::mem::replace(&mut last[*page as usize], number);
        }
        index
    }
}

#[derive(Clone, Copy)]
pub struct Round {
    pub from: u64,
    pub to: u64,
    pub rate: u64,
    pub pages: u64,
    pub sent: u64,
    pub dirtied: u64,
}

pub struct Plan {
    pub rounds: Vec<Round>,
    pub why: &'static str,
    pub stop: u64,
    pub left: u64,
    pub down: u64,
    pub total: u64,
}

fn mark(bits: &mut [u64], pages: &[u32]) {
    for page in pages {
        unsafe { *bits.get_unchecked_mut(*page as usize / 64) |= 1 << (page % 64) }
    }
}

fn count(bits: &[u64]) -> u64 {
    bits.iter().map(|word| word.count_ones() as u64).sum()
}

/// How a round begins: since when its pages were written (None: it has all), its first tick, its rate, and whether it
/// skips pages.
type Begin = (Option<u64>, u64, u64, bool);

/// How a plan goes through the touches.
pub struct Planner<'a> {
    touches: &'a Touches,
    index: Option<&'a [i32]>,
    /// The pages that are due, if that matters, and those written in the round.
    due: Vec<u64>,
    written: Vec<u64>,
    /// The last rounds of each number, by how they began.
    known: Vec<(Begin, Round)>,
}

impl Planner<'_> {
    pub fn new<'a>(touches: &'a Touches, index: Option<&'a [i32]>) -> Planner<'a> {
        let words = touches.pages.div_ceil(64);
        Planner { touches, index, due: vec![0; words], written: vec![0; words], known: Vec::new() }
    }

    /// How many different pages these writes go to.
    fn dirtied(&mut self, from: usize, to: usize) -> u64 {
        match self.index {
            Some(index) => {
                let from_here = |before: &i32| (*before <= from as i32) as u32;
                index[from..to].iter().map(from_here).sum::<u32>() as u64
            }
            None => {
                self.written.fill(0);
                mark(&mut self.written, &self.touches.page[from..to]);
                count(&self.written)
            }
        }
    }

    /// How many pages the destination lacks when the first round begins.
    fn lacking(&mut self, settings: &Settings) -> u64 {
        match settings.base {
            Some(base) => self.dirtied(self.touches.at(base), self.touches.at(settings.start)),
            None => self.touches.pages as u64,
        }
    }

    /// Goes over the due pages from a tick on, leaves out those that are written before their turn, and sets the bits
    /// of the pages written until then. Tells how many are sent, and the first write that is not looked at.
    fn scan(&mut self, from: u64, rate: u64) -> (u64, usize) {
        let (tick, page) = (&self.touches.tick[..], &self.touches.page[..]);
        self.written.fill(0);
        let (mut sent, mut turn, mut part, mut next) = (0, from, 0, self.touches.at(from));
        let (step, rest) = (1000 / rate, 1000 % rate);
        for (number, word) in self.due.iter().enumerate() {
            let mut left = *word;
            while left != 0 {
                while next < tick.len() && tick[next] < turn {
                    mark(&mut self.written, &page[next..next + 1]);
                    next += 1;
                }
                let is_sent = !self.written[number] >> left.trailing_zeros() & 1;
                left &= left - 1;
                sent += is_sent;
                part += rest * is_sent;
                let full = (part >= rate) as u64;
                part -= rate * full;
                turn += step * is_sent + full;
            }
        }
        (sent, next)
    }

    /// A round in which pages may be skipped, or the first one of such a plan. If it skips, its pages are due.
    fn skipping(&mut self, from: u64, rate: u64, pages: u64, skips: bool) -> Round {
        let (sent, next) = if skips {
            self.scan(from, rate)
        } else {
            self.written.fill(0);
            (pages, self.touches.at(from))
        };
        let to = from + (1000 * sent).div_ceil(rate);
        mark(&mut self.written, &self.touches.page[next..self.touches.at(to)]);
        let dirtied = count(&self.written);
        std::mem::swap(&mut self.due, &mut self.written);
        Round { from, to, rate, pages, sent, dirtied }
    }

    fn plain(&mut self, from: u64, rate: u64, pages: u64) -> Round {
        let to = from + (1000 * pages).div_ceil(rate);
        let dirtied = self.dirtied(self.touches.at(from), self.touches.at(to));
        Round { from, to, rate, pages, sent: pages, dirtied }
    }

    /// Makes the pages due that are written from a tick on and before another.
    fn make_due(&mut self, since: u64, from: u64) {
        self.due.fill(0);
        mark(&mut self.due, &self.touches.page[self.touches.at(since)..self.touches.at(from)]);
    }

    pub fn plan(&mut self, settings: &Settings) -> Plan {
        let (mut from, mut rate, mut pages) = (settings.start, settings.min, self.lacking(settings));
        let (mut since, mut is_due, mut rounds) = (settings.base, false, Vec::new());
        loop {
            let skips = settings.skip && !rounds.is_empty();
            let begin = (since, from, rate, skips);
            let known = self.known.get(rounds.len()).filter(|it| it.0 == begin).map(|it| it.1);
            let round = known.unwrap_or_else(|| {
                if skips && !is_due {
                    self.make_due(since.unwrap_or(0), from);
                }
                if settings.skip {
                    self.skipping(from, rate, pages, skips)
                } else {
                    self.plain(from, rate, pages)
                }
            });
            is_due = known.is_none();
            if is_due {
                self.known.truncate(rounds.len());
                self.known.push((begin, round));
            }
            let Round { to, dirtied, .. } = round;
            rounds.push(round);
            // In a round without ticks nothing is dirtied, so few pages remain.
            let next = (1000 * dirtied).div_ceil((to - from).max(1)) + settings.inc;
            let why = if dirtied < settings.threshold {
                "few"
            } else if next > settings.max {
                "fast"
            } else if rounds.len() as u64 == settings.rounds {
                "rounds"
            } else {
                (since, from, rate, pages) = (Some(from), to, next.max(settings.min), dirtied);
                continue;
            };
            let total = rounds.iter().map(|round| round.sent).sum::<u64>() + dirtied;
            return Plan { rounds, why, stop: to, left: dirtied, down: (1000 * dirtied).div_ceil(settings.max), total };
        }
    }
}

impl Plan {
    pub fn lines(&self, text: &mut Text) {
        for (number, round) in self.rounds.iter().enumerate() {
            text.word("round ").number(number as u64).word(" from ").number(round.from).word(" to ").number(round.to);
            let pages = [(" pages ", round.pages), (" sent ", round.sent), (" dirtied ", round.dirtied)];
            text.word(" rate ").number(round.rate).line(&pages);
        }
        let pages = [(" pages ", self.left), (" down ", self.down), (" total ", self.total)];
        text.word("stop ").word(self.why).word(" at ").number(self.stop).line(&pages);
    }

    /// The line of a sweep's case.
    pub fn case(&self, number: usize, case: &Settings, text: &mut Text) {
        let rates = [("case ", number as u64), (" min ", case.min), (" max ", case.max), (" inc ", case.inc)];
        let ends = [(" threshold ", case.threshold), (" limit ", case.rounds), (" skip ", case.skip as u64)];
        for (word, number) in rates.iter().chain(&ends) {
            text.word(word).number(*number);
        }
        text.word(" rounds ").number(self.rounds.len() as u64).word(" stop ").word(self.why);
        text.line(&[(" at ", self.stop), (" down ", self.down), (" total ", self.total)]);
    }
}
