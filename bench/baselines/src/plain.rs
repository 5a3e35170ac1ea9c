//! The baseline "plain": what a good engineer writes in an afternoon. Each write owns its bytes, and sets and maps of
//! the standard library do the rest. It has `image`, `report` and `sweep`.

use std::collections::{BTreeMap, BTreeSet, HashMap, HashSet};
use std::io::{Read, Write};

#[allow(dead_code)]
mod words;

use words::{Job, Settings};

/// A write of no bytes releases its page: the whole page becomes zeros.
struct GuestWrite {
    tick: u64,
    page: u32,
    offset: usize,
    bytes: Vec<u8>,
}

struct Trace {
    page_size: usize,
    pages: u32,
    writes: Vec<GuestWrite>,
}

/// Bytes that are taken from the front, as numbers or as they are.
struct Bytes<'a>(&'a [u8]);

impl<'a> Bytes<'a> {
    fn take(&mut self, count: usize) -> Result<&'a [u8], String> {
        if self.0.len() < count {
            return Err("the trace is too short".into());
        }
        let (front, rest) = self.0.split_at(count);
        self.0 = rest;
        Ok(front)
    }

    fn number(&mut self, width: usize) -> Result<u64, String> {
        let mut bytes = [0; 8];
        bytes[..width].copy_from_slice(self.take(width)?);
        Ok(u64::from_le_bytes(bytes))
    }
}

fn demand(holds: bool, what: &str) -> Result<(), String> {
    if holds {
        Ok(())
    } else {
        Err(format!("the trace is refused: {what}"))
    }
}

impl Trace {
    fn read(text: &[u8]) -> Result<Trace, String> {
        demand(text.len() <= 1 << 28, "it is too long")?;
        let mut text = Bytes(text);
        demand(text.take(4)? == b"PCWT", "magic")?;
        let version = text.number(1)?;
        demand((1..=2).contains(&version), "version")?;
        let shift = text.number(1)?;
        demand((4..=12).contains(&shift) && text.number(2)? == 0, "page shift or reserved bytes")?;
        let (pages, count) = (text.number(4)? as u32, text.number(4)?);
        demand((1..=65_536).contains(&pages) && count <= 1 << 20, "number of pages or writes")?;
        let mut trace = Trace { page_size: 1 << shift, pages, writes: Vec::new() };
        for _ in 0..count {
            let write = GuestWrite::read(&mut text)?;
            let before = trace.writes.last().map_or(0, |it| it.tick);
            demand(before <= write.tick && write.tick < 1 << 40, "a tick")?;
            demand(write.page < pages, "a page")?;
            let length = write.bytes.len();
            let is_release = version == 2 && length == 0 && write.offset == 0;
            demand(is_release || length > 0 && write.offset + length <= trace.page_size, "a length")?;
            trace.writes.push(write);
        }
        demand(text.0.is_empty(), "bytes after the last record")?;
        Ok(trace)
    }

    /// The writes of the ticks `from` on and before `to`.
    fn between(&self, from: u64, to: u64) -> &[GuestWrite] {
        let place = |tick| self.writes.partition_point(|it| it.tick < tick);
        &self.writes[place(from)..place(to)]
    }

    fn image(&self) -> Vec<u8> {
        let mut memory = vec![0; self.pages as usize * self.page_size];
        for write in &self.writes {
            let at = write.page as usize * self.page_size + write.offset;
            if write.bytes.is_empty() {
                memory[at..at + self.page_size].fill(0);
            } else {
                memory[at..at + write.bytes.len()].copy_from_slice(&write.bytes);
            }
        }
        memory
    }
}

impl GuestWrite {
    fn read(text: &mut Bytes) -> Result<GuestWrite, String> {
        let (tick, page) = (text.number(8)?, text.number(4)? as u32);
        let (offset, length) = (text.number(2)? as usize, text.number(2)? as usize);
        Ok(GuestWrite { tick, page, offset, bytes: text.take(length)?.to_vec() })
    }
}

/// The lines of the windows and of the hot pages.
fn tables(trace: &Trace, settings: &Settings) -> Vec<String> {
    let mut windows: BTreeMap<u64, (u64, HashSet<u32>)> = BTreeMap::new();
    for write in &trace.writes {
        let (writes, pages) = windows.entry(write.tick / settings.window).or_default();
        *writes += 1;
        pages.insert(write.page);
    }
    let mut lines = Vec::new();
    let mut windows_with: BTreeMap<u32, u64> = BTreeMap::new();
    for (number, (writes, pages)) in &windows {
        let before = number.checked_sub(1).and_then(|it| windows.get(&it));
        let again = before.map_or(0, |(_, others)| pages.intersection(others).count());
        let fresh = pages.iter().filter(|it| !windows_with.contains_key(it)).count();
        let count = pages.len();
        lines.push(format!("window {number} writes {writes} pages {count} again {again} fresh {fresh}"));
        for page in pages {
            *windows_with.entry(*page).or_default() += 1;
        }
    }
    let hot = windows_with.iter().filter(|(_, count)| **count >= settings.hot).map(|(page, _)| page);
    let hot: Vec<&u32> = hot.collect();
    lines.push(format!("hot {} pages {}", settings.hot, hot.len()));
    lines.extend(hot.iter().map(|page| format!("page {page}")));
    lines
}

struct Round {
    from: u64,
    to: u64,
    rate: u64,
    pages: u64,
    sent: u64,
    dirtied: u64,
}

struct Plan {
    rounds: Vec<Round>,
    why: &'static str,
    stop: u64,
    left: u64,
    down: u64,
    total: u64,
}

/// How many of the due pages a round sends that leaves out what is written again before their turn.
fn sent_of(trace: &Trace, due: &BTreeSet<u32>, from: u64, rate: u64) -> u64 {
    let longest = from + 1000 * due.len() as u64 / rate;
    let mut first: HashMap<u32, u64> = HashMap::new();
    for write in trace.between(from, longest) {
        first.entry(write.page).or_insert(write.tick);
    }
    let mut sent = 0;
    for page in due {
        let turn = from + 1000 * sent / rate;
        if first.get(page).map_or(true, |tick| *tick >= turn) {
            sent += 1;
        }
    }
    sent
}

fn plan(trace: &Trace, settings: &Settings) -> Plan {
    let mut due: BTreeSet<u32> = match settings.base {
        Some(base) => trace.between(base, settings.start).iter().map(|it| it.page).collect(),
        None => (0..trace.pages).collect(),
    };
    let (mut from, mut rate) = (settings.start, settings.min);
    let mut rounds: Vec<Round> = Vec::new();
    loop {
        let pages = due.len() as u64;
        let skips = settings.skip && !rounds.is_empty();
        let sent = if skips { sent_of(trace, &due, from, rate) } else { pages };
        let to = from + (1000 * sent).div_ceil(rate);
        due = trace.between(from, to).iter().map(|it| it.page).collect();
        let dirtied = due.len() as u64;
        rounds.push(Round { from, to, rate, pages, sent, dirtied });
        // In a round without ticks nothing is dirtied, so few pages remain.
        let next = (1000 * dirtied).div_ceil((to - from).max(1)) + settings.inc;
        let why = if dirtied < settings.threshold {
            "few"
        } else if next > settings.max {
            "fast"
        } else if rounds.len() as u64 == settings.rounds {
            "rounds"
        } else {
            (from, rate) = (to, next.max(settings.min));
            continue;
        };
        let total = rounds.iter().map(|it| it.sent).sum::<u64>() + dirtied;
        let down = (1000 * dirtied).div_ceil(settings.max);
        return Plan { rounds, why, stop: to, left: dirtied, down, total };
    }
}

fn report(trace: &Trace, settings: &Settings) -> String {
    let (pages, size, writes) = (trace.pages, trace.page_size, trace.writes.len());
    let mut lines = vec![format!("trace pages {pages} size {size} writes {writes}")];
    lines.extend(tables(trace, settings));
    let plan = plan(trace, settings);
    for (number, round) in plan.rounds.iter().enumerate() {
        let Round { from, to, rate, pages, sent, dirtied } = round;
        let ticks = format!("round {number} from {from} to {to} rate {rate}");
        lines.push(format!("{ticks} pages {pages} sent {sent} dirtied {dirtied}"));
    }
    let Plan { why, stop, left, down, total, .. } = plan;
    lines.push(format!("stop {why} at {stop} pages {left} down {down} total {total}"));
    lines.join("\n") + "\n"
}

fn sweep(trace: &Trace, cases: &[Settings]) -> String {
    let mut text = String::new();
    let mut best: Option<(u64, u64, usize)> = None;
    for (number, case) in cases.iter().enumerate() {
        let Plan { rounds, why, stop, down, total, .. } = plan(trace, case);
        let Settings { min, max, inc, threshold, rounds: limit, .. } = case;
        let (skip, count) = (case.skip as u8, rounds.len());
        text += &format!("case {number} min {min} max {max} inc {inc} threshold {threshold} limit {limit} ");
        text += &format!("skip {skip} rounds {count} stop {why} at {stop} down {down} total {total}\n");
        let this = (down, total, number);
        best = Some(best.map_or(this, |it| it.min(this)));
    }
    text + &format!("best {}\n", best.map_or(0, |it| it.2))
}

fn run() -> Result<(), String> {
    let job = words::job(std::env::args().skip(1))?;
    let mut text = Vec::new();
    std::io::stdin().read_to_end(&mut text).map_err(|fault| fault.to_string())?;
    let trace = Trace::read(&text)?;
    drop(text);
    let output = match job {
        Job::Image => trace.image(),
        Job::Report(settings) => report(&trace, &settings).into_bytes(),
        Job::Sweep(cases, _) => sweep(&trace, &cases).into_bytes(),
        Job::Live(_) => return Err("there is no live run in this program".into()),
    };
    let mut out = std::io::stdout();
    out.write_all(&output).and_then(|()| out.flush()).map_err(|fault| fault.to_string())
}

fn main() {
    if let Err(what) = run() {
        eprintln!("plain: {what}");
        std::process::exit(1);
    }
}
