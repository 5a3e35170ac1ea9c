//! The baseline "fast": the four commands of precopy, written only for speed. What it writes for a valid trace has to
//! be what precopy writes, byte for byte. Nothing of it is proved, and memory is handled by hand.

mod carriage;
mod image;
mod lanes;
mod live;
mod memory;
mod output;
mod pages;
mod plan;
mod sweep;
mod tables;
mod text;
mod trace;
#[path = "../words.rs"]
mod words;

use plan::{Planner, Touches};
use std::io::Write;
use trace::{file, Refused};
use words::{Job, Settings};

fn put(bytes: &[u8]) -> Result<(), Refused> {
    file(1).write_all(bytes).map_err(|fault| fault.to_string())
}

/// With two workers and more, one makes the plan while the others count.
fn report(settings: &Settings) -> Result<(), Refused> {
    let (sizes, touches) = Touches::read()?;
    let plan = || Planner::new(&touches, None).plan(settings);
    let (mut text, plan) = if settings.workers == 1 {
        (tables::tables(sizes, &touches, settings, 1), plan())
    } else {
        std::thread::scope(|scope| {
            let plan = scope.spawn(plan);
            let text = tables::tables(sizes, &touches, settings, settings.workers - 1);
            (text, plan.join().expect("a plan ends"))
        })
    };
    plan.lines(&mut text);
    put(&text.0)
}

fn sweep(cases: &[Settings], workers: usize) -> Result<(), Refused> {
    let (_, touches) = Touches::read()?;
    put(&sweep::sweep(&touches, cases, workers).0)
}

fn run() -> Result<(), Refused> {
    match words::job(std::env::args().skip(1))? {
        Job::Image => image::image(),
        Job::Report(settings) => report(&settings),
        Job::Sweep(cases, workers) => sweep(&cases, workers),
        Job::Live(settings) if settings.encoded => live::live::<carriage::Encoded>(&settings),
        Job::Live(settings) => live::live::<carriage::Frame>(&settings),
    }
}

fn main() {
    let status = match run() {
        Ok(()) => 0,
        Err(what) => {
            eprintln!("fast: {what}");
            1
        }
    };
    std::process::exit(status);
}
