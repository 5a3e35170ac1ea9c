//! Prints what the library says of the trace on standard input:
//!
//!     cargo run --example answers -- MIN MAX INCREMENT THRESHOLD ROUNDS START WINDOW HOT BASE SKIP < trace
//!
//! The numbers are those of the settings. A base of `-` is none, and SKIP is 0 or 1.

use precopy::{OpenTrace, Question, Refused, Settings, Starts};
use std::error::Error;
use std::fmt::Debug;
use std::io::Read;

fn settings(words: &[String]) -> Result<Settings, Box<dyn Error>> {
    let number =
        |at: usize| -> Result<u64, Box<dyn Error>> { Ok(words.get(at).ok_or("a number is missing")?.parse()?) };
    Ok(Settings {
        min: number(0)?,
        max: number(1)?,
        increment: number(2)?,
        threshold: number(3)?,
        rounds: number(4)?,
        start: number(5)?,
        window: number(6)?,
        hot: number(7)?,
        base: if words.get(8).map(String::as_str) == Some("-") {
            None
        } else {
            Some(number(8)?)
        },
        skip: number(9)? != 0,
    })
}

fn hex(bytes: &[u8]) -> String {
    bytes.iter().map(|byte| format!("{byte:02x}")).collect()
}

/// A question about a guest of which every third page was recorded, whose limits make rates like those of some
/// settings.
fn question(sizes: &precopy::Sizes, settings: &Settings) -> Question {
    let (page, pages) = (sizes.page_length() as u64, u64::from(sizes.pages()));
    Question {
        link: settings.max.saturating_mul(3 * page),
        first: Some(settings.min.saturating_mul(3 * page)),
        downtime: settings.threshold.saturating_mul(1000),
        reserve: 500,
        page,
        sampled: pages,
        guest: 3 * pages,
        rounds: settings.rounds,
        start: settings.start,
        base: settings.base,
        skip: settings.skip,
        ..Question::default()
    }
}

fn print_prediction(trace: &OpenTrace, question: &Question) -> Result<(), Refused> {
    let it = trace.predict(question)?;
    println!(
        "plan {} {:?} {} {} {} {}",
        it.rounds, it.reason, it.stop, it.down, it.total, it.left
    );
    println!(
        "migration {} {} {} {} {:?} {:?}",
        it.time, it.bytes, it.downtime, it.recorded, it.converges, it.kept
    );
    if let Some(errors) = it.errors {
        println!("errors {} {} {}", errors.bytes, errors.time, errors.downtime);
    }
    print_agreement(trace, question)?;
    print_forecast(trace, question)?;
    print_best_start(trace, question)?;
    print_amounts(trace, question)
}

fn print_agreement(trace: &OpenTrace, question: &Question) -> Result<(), Refused> {
    let it = trace.agreement(question)?;
    println!(
        "agreement {} {} {} {} {} {} {} {:?} {:?}",
        it.draws,
        it.draws_known,
        it.draws_converging,
        it.draws_kept,
        it.starts,
        it.starts_converging,
        it.starts_kept,
        it.converges,
        it.kept
    );
    Ok(())
}

/// What comes of it like QEMU, and the shares of the link.
fn print_forecast(trace: &OpenTrace, question: &Question) -> Result<(), Refused> {
    let it = trace.forecast(question)?;
    println!(
        "like QEMU {:?} {} {} {} {} {} {:?}",
        it.end, it.looks, it.time, it.bytes, it.left, it.downtime, it.kept
    );
    let found = trace.link_shares(question)?;
    let below = found.below.map_or("-".to_string(), |verdict| format!("{verdict:?}"));
    println!("shares {:?} {} {below}", found.converges, found.percent);
    Ok(())
}

/// The best of at most eleven starts.
fn print_best_start(trace: &OpenTrace, question: &Question) -> Result<(), Refused> {
    let recorded = trace.predict(question)?.recorded / question.tick;
    let starts = Starts {
        to: None,
        every: Some(recorded / 10),
    };
    match trace.best_start(question, &starts)? {
        Some(it) => println!(
            "best {} {} {} {} {} {:?} {} {:?}",
            it.start,
            it.rounds,
            it.time,
            it.bytes,
            it.downtime,
            it.kept,
            it.is_likely,
            it.errors.map(|it| it.downtime)
        ),
        None => println!("best -"),
    }
    Ok(())
}

fn print_amounts(trace: &OpenTrace, question: &Question) -> Result<(), Refused> {
    let it = trace.enough(question)?;
    let word = |amount: Option<u64>| amount.map_or("-".to_string(), |amount| amount.to_string());
    println!(
        "enough {} {} {} {} {} {} {}",
        it.is_kept,
        word(it.link),
        word(it.downtime),
        word(it.speed),
        it.ends,
        word(it.ending_link),
        word(it.ending_start)
    );
    Ok(())
}

/// What is wrong in streams of the frames of the memory at the stop: all of them, without the first, with another stamp
/// in the first, and without the last byte, in pieces.
fn print_findings(trace: &[u8], opened: &OpenTrace, stop: u32, memory: &[u8]) -> Result<(), Refused> {
    let sizes = opened.sizes();
    let (mut stream, mut first) = (Vec::new(), 0);
    for (page, content) in (0..sizes.pages()).zip(memory.chunks(sizes.page_length())) {
        let stamp = opened.version_after(page, stop)?;
        stream.extend(precopy::encode_frame(&sizes, page, stamp, content)?);
        first = if page == 0 { stream.len() } else { first };
    }
    for wrong in [&stream[..], &stream[first..]] {
        print_finding(precopy::check_streams(trace, stop, wrong, &[wrong.len()])?);
    }
    stream[4] ^= 1;
    print_finding(precopy::check_streams(trace, stop, &stream, &[stream.len()])?);
    stream[4] ^= 1;
    let mut check = opened.check(stop)?;
    for piece in stream[..stream.len() - 1].chunks(50) {
        check.take(0, piece)?;
    }
    check.end_stream(0)?;
    print_finding(check.finish()?);
    Ok(())
}

fn print_finding(found: Option<precopy::Finding>) {
    match found {
        Some(finding) => println!("finding {} {finding}", finding.status().number()),
        None => println!("finding 0"),
    }
}

/// Returns an answer that comes in two ways, as over a trace's bytes and over the open trace.
fn same<T: Debug + PartialEq>(one: T, other: T) -> T {
    assert_eq!(one, other);
    one
}

fn print_plan(trace: &[u8], opened: &OpenTrace, settings: &Settings) -> Result<(), Refused> {
    let sums = same(precopy::plan(trace, settings), opened.plan(settings))?;
    println!(
        "sums {} {:?} {} {} {}",
        sums.rounds, sums.reason, sums.stop, sums.down, sums.total
    );
    for it in opened.rounds(settings)? {
        println!(
            "round {} {} {} {} {} {}",
            it.from, it.to, it.rate, it.pages, it.sent, it.dirtied
        );
    }
    print!("{}", same(precopy::report(trace, settings), opened.report(settings))?);
    let skipping = Settings {
        skip: !settings.skip,
        ..*settings
    };
    let sweep = opened.sweep(&[*settings, skipping])?;
    for it in &sweep.sums {
        println!(
            "case {} {:?} {} {} {}",
            it.rounds, it.reason, it.stop, it.down, it.total
        );
    }
    println!("best {}", sweep.best);
    println!("memory {}", hex(&precopy::memory(trace)?));
    let memory = opened.memory_before(sums.stop)?;
    println!("before {}", hex(&memory));
    print_findings(trace, opened, opened.writes_before(sums.stop)?, &memory)?;
    let asked = question(&opened.sizes(), settings);
    print_prediction(opened, &asked)?;
    print_prediction(opened, &Question { clark: true, ..asked })
}

fn print_answers(trace: &[u8], settings: &Settings) -> Result<(), Refused> {
    let opened = OpenTrace::open(trace);
    let told = opened.as_ref().map(OpenTrace::sizes).map_err(|refused| *refused);
    let sizes = same(precopy::check_trace(trace), told)?;
    println!("sizes {} {} {}", sizes.shift(), sizes.pages(), sizes.writes());
    print_plan(trace, &opened?, settings)
}

fn main() -> Result<(), Box<dyn Error>> {
    let words: Vec<String> = std::env::args().skip(1).collect();
    let (settings, mut trace) = (settings(&words)?, Vec::new());
    std::io::stdin().read_to_end(&mut trace)?;
    if let Err(refused) = print_answers(&trace, &settings) {
        println!("refused {} {refused}", refused.status().number());
    }
    Ok(())
}
