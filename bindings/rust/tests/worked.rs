//! Worked examples of each call but those of a question, whose values were worked out by hand; those of
//! checks/library/rows.c.

mod guest;

use guest::TRACE;
use precopy::{OpenTrace, Reason, Refused, Round, Settings, Sizes, Status, Sums, Taken, Write};

const REPORT: &str = "trace pages 4 size 16 writes 5
window 0 writes 2 pages 2 again 0 fresh 2
window 1 writes 1 pages 1 again 1 fresh 0
window 2 writes 2 pages 2 again 1 fresh 1
hot 2 pages 1
page 1
round 0 from 0 to 2000 rate 2 pages 4 sent 4 dirtied 2
round 1 from 2000 to 3000 rate 2 pages 2 sent 2 dirtied 2
round 2 from 3000 to 3667 rate 3 pages 2 sent 2 dirtied 0
stop few at 3667 pages 0 down 0 total 8
";

fn slow() -> Settings {
    Settings {
        min: 2,
        max: 4,
        increment: 1,
        threshold: 1,
        rounds: 8,
        ..Settings::default()
    }
}

fn sums(rounds: u64, reason: Reason, stop: u64, down: u64, total: u64) -> Sums {
    Sums {
        rounds,
        reason,
        stop,
        down,
        total,
    }
}

#[test]
fn plans() {
    let trace = OpenTrace::open(&TRACE).unwrap();
    assert_eq!(precopy::plan(&TRACE, &slow()), Ok(sums(3, Reason::Few, 3667, 0, 8)));
    let rounds = trace.rounds(&slow()).unwrap();
    let first: Vec<_> = rounds.iter().map(|it| (it.from, it.to, it.rate)).collect();
    assert_eq!(first, [(0, 2000, 2), (2000, 3000, 2), (3000, 3667, 3)]);
    let rest: Vec<_> = rounds.iter().map(|it| (it.pages, it.sent, it.dirtied)).collect();
    assert_eq!(rest, [(4, 4, 2), (2, 2, 2), (2, 2, 0)]);
    let mut two = [Round::default(); 2];
    let refused = trace.rounds_into(&slow(), &mut two);
    assert_eq!(refused, Err(Refused::ShortBuffer { needed: 3 }));
    assert_eq!(two, [Round::default(); 2]);
    let mut four = [Round::default(); 4];
    assert_eq!(trace.rounds_into(&slow(), &mut four), Ok(3));
    assert_eq!((&four[..3], four[3]), (&rounds[..], Round::default()));
    let warm = Settings {
        start: 1201,
        base: Some(6),
        ..slow()
    };
    let rounds = trace.rounds(&warm).unwrap();
    assert_eq!((rounds.len(), rounds[0].pages, rounds[0].to), (1, 1, 1701));
    let bad = Settings { rounds: 65, ..warm };
    let status = Status::BadRounds;
    assert_eq!(trace.rounds(&bad), Err(Refused::Settings { status }));
    for settings in [slow(), warm, bad] {
        assert_eq!(trace.plan(&settings), precopy::plan(&TRACE, &settings));
        assert_eq!(trace.report(&settings), precopy::report(&TRACE, &settings));
    }
}

/// A call that writes the report into a slice.
fn writes_report(report_into: impl Fn(&mut [u8]) -> Result<usize, Refused>) {
    let mut text = [7; 400];
    let short = report_into(&mut text[..REPORT.len() - 1]);
    assert_eq!(short, Err(Refused::ShortBuffer { needed: REPORT.len() }));
    assert_eq!(text, [7; 400]);
    assert_eq!(report_into(&mut text), Ok(REPORT.len()));
    assert_eq!(&text[..REPORT.len()], REPORT.as_bytes());
}

#[test]
fn reports() {
    let trace = OpenTrace::open(&TRACE).unwrap();
    assert_eq!(precopy::report(&TRACE, &slow()).as_deref(), Ok(REPORT));
    assert_eq!(trace.report(&slow()).as_deref(), Ok(REPORT));
    writes_report(|text| precopy::report_into(&TRACE, &slow(), text));
    writes_report(|text| trace.report_into(&slow(), text));
    assert!(REPORT.len() <= precopy::longest_report(TRACE.len()));
}

#[test]
fn sweeps() {
    let trace = OpenTrace::open(&TRACE).unwrap();
    let few = Settings { threshold: 3, ..slow() };
    let fast = Settings { max: 2, ..slow() };
    let found = trace.sweep(&[few, fast, slow()]).unwrap();
    assert_eq!(found.best, 2);
    assert_eq!(found.sums[0], sums(1, Reason::Few, 2000, 500, 6));
    assert_eq!(found.sums[1], sums(2, Reason::Fast, 3000, 1000, 8));
    let bad = Settings { max: 1, ..slow() };
    let refused = Err(Refused::Settings { status: Status::BadMax });
    assert_eq!(trace.sweep(&[few, bad]).map(|_| ()), refused);
    assert_eq!((bad.check(), slow().check()), (refused, Ok(())));
    assert_eq!(trace.sweep(&[]).unwrap().sums, []);
}

#[test]
fn memories() {
    let trace = OpenTrace::open(&TRACE).unwrap();
    let mut wanted = [0; 64];
    (wanted[0], wanted[16], wanted[31]) = (1, 3, 2);
    assert_eq!(trace.memory_before(2500).as_deref(), Ok(&wanted[..]));
    (wanted[16], wanted[50], wanted[51]) = (0, 4, 5);
    assert_eq!(trace.memory_before(2501).as_deref(), Ok(&wanted[..]));
    assert_eq!(precopy::memory(&TRACE).as_deref(), Ok(&wanted[..]));
    assert_eq!(trace.memory_before(u64::MAX).as_deref(), Ok(&wanted[..]));
    let mut memory = [9; 66];
    let short = precopy::memory_into(&TRACE, &mut memory[..63]);
    assert_eq!((short, memory), (Err(Refused::ShortBuffer { needed: 64 }), [9; 66]));
    assert_eq!(trace.memory_before_into(2501, &mut memory), Ok(64));
    assert_eq!((&memory[..64], &memory[64..]), (&wanted[..], &[9, 9][..]));
}

#[test]
fn pages() {
    let held = OpenTrace::open(&TRACE).unwrap();
    assert_eq!(
        (held.version_after(1, 4), held.version_after(1, u32::MAX)),
        (Ok(3), Ok(5))
    );
    assert_eq!(held.versions_after(4).as_deref(), Ok(&[1, 3, 0, 4][..]));
    assert_eq!(held.versions_before(2500).as_deref(), Ok(&[1, 3, 0, 0][..]));
    let mut versions = [9; 5];
    let short = held.versions_after_into(4, &mut versions[..3]);
    assert_eq!((short, versions), (Err(Refused::ShortBuffer { needed: 4 }), [9; 5]));
    let short = held.versions_before_into(2500, &mut versions[..3]);
    assert_eq!((short, versions), (Err(Refused::ShortBuffer { needed: 4 }), [9; 5]));
    assert_eq!(held.versions_after_into(u32::MAX, &mut versions), Ok(4));
    assert_eq!(versions, [1, 5, 0, 4, 9]);
    let mut wanted = [0; 16];
    (wanted[0], wanted[15]) = (3, 2);
    assert_eq!(held.page_at(1, 3).as_deref(), Ok(&wanted[..]));
    let mut content = [9; 17];
    let short = held.page_at_into(1, 3, &mut content[..15]);
    assert_eq!((short, content), (Err(Refused::ShortBuffer { needed: 16 }), [9; 17]));
    assert_eq!(held.page_at_into(1, 3, &mut content), Ok(16));
    assert_eq!((&content[..16], content[16]), (&wanted[..], 9));
    let place = |status| Refused::Place { status };
    assert_eq!(held.page_at(1, 4), Err(place(Status::NoVersion)));
    assert_eq!(held.version_after(4, 0), Err(place(Status::NoPage)));
}

#[test]
fn writes_and_steps() {
    let trace = OpenTrace::open(&TRACE).unwrap();
    let writes = trace.page_writes(1).unwrap();
    let found: Vec<_> = writes
        .iter()
        .map(|it| (it.place, it.tick, it.offset, it.size))
        .collect();
    assert_eq!(found, [(2, 5, 15, 1), (3, 1200, 0, 1), (5, 2500, 0, 1)]);
    assert_eq!(trace.page_writes(2), Ok(vec![]));
    let short = trace.page_writes_into(1, &mut [Write::default(); 2]);
    assert_eq!(short, Err(Refused::ShortBuffer { needed: 3 }));
    let place = |status| Refused::Place { status };
    assert_eq!(trace.page_writes(4), Err(place(Status::NoPage)));
    let mut memory = [0; 64];
    assert_eq!(trace.memory_step(0, 3, &mut memory), Ok(()));
    assert_eq!(trace.memory_before(2500).as_deref(), Ok(&memory[..]));
    assert_eq!(trace.memory_step(3, u32::MAX, &mut memory), Ok(()));
    assert_eq!(precopy::memory(&TRACE).as_deref(), Ok(&memory[..]));
    let back = trace.memory_step(3, 2, &mut memory);
    assert_eq!(back, Err(place(Status::Backwards)));
    let length = Refused::Length {
        status: Status::MemoryLength,
    };
    assert_eq!(trace.memory_step(3, 4, &mut memory[..63]), Err(length));
}

#[test]
fn open_traces() {
    let opened = OpenTrace::open(&TRACE).unwrap();
    let held = &opened;
    assert_eq!(held.sizes(), precopy::check_trace(&TRACE).unwrap());
    assert_eq!((held.writes_before(2500), held.writes_before(2501)), (Ok(3), Ok(5)));
    // Several threads may ask at once.
    std::thread::scope(|scope| {
        let asked = [4, u32::MAX].map(|count| scope.spawn(move || held.versions_after(count)));
        let [four, all] = asked.map(|it| it.join().unwrap());
        assert_eq!(four.as_deref(), Ok(&[1, 3, 0, 4][..]));
        assert_eq!(all.as_deref(), Ok(&[1, 5, 0, 4][..]));
    });
    assert_eq!(held.memory_before(2501), precopy::memory(&TRACE));
    let short = held.memory_before_into(0, &mut [0; 63]);
    assert_eq!(short, Err(Refused::ShortBuffer { needed: 64 }));
    let cut = Refused::Trace {
        status: Status::ShortRecord,
        record: Some(4),
    };
    assert_eq!(OpenTrace::open(&TRACE[..101]).err(), Some(cut));
}

#[test]
fn traces() {
    let sizes = precopy::check_trace(&TRACE).unwrap();
    assert_eq!((sizes.shift(), sizes.pages(), sizes.writes()), (4, 4, 5));
    assert_eq!((sizes.page_length(), sizes.memory_length()), (16, 64));
    let cut = Refused::Trace {
        status: Status::ShortRecord,
        record: Some(4),
    };
    for refused in [
        precopy::check_trace(&TRACE[..101]).map(|_| ()),
        OpenTrace::open(&TRACE[..101]).map(|_| ()),
        precopy::plan(&TRACE[..101], &slow()).map(|_| ()),
        precopy::report(&TRACE[..101], &slow()).map(|_| ()),
        precopy::report_into(&TRACE[..101], &slow(), &mut [0; 400]).map(|_| ()),
        precopy::memory(&TRACE[..101]).map(|_| ()),
        precopy::memory_into(&TRACE[..101], &mut [0; 64]).map(|_| ()),
        precopy::check_streams(&TRACE[..101], 3, &[], &[]).map(|_| ()),
    ] {
        assert_eq!(refused, Err(cut));
    }
    assert_eq!(cut.to_string(), "trace E8: it ends within this record (record 4)");
    let short = Refused::Trace {
        status: Status::ShortHeader,
        record: None,
    };
    assert_eq!(precopy::plan(&[], &slow()), Err(short));
    assert_eq!(OpenTrace::open(&[]).err(), Some(short));
}

#[test]
fn frames() {
    let sizes = Sizes::new(4, 2, 5).unwrap();
    let (mut page, zeros) = ([0; 16], [0; 16]);
    page[15] = 2;
    let text = precopy::encode_frame(&sizes, 1, 5, &page).unwrap();
    assert_eq!(text, [&[1, 0, 0, 0, 5, 0, 0, 0, 1][..], &page[..]].concat());
    let last = precopy::encode_frame(&sizes, 1, 3, &zeros).unwrap();
    assert_eq!(last, [1, 0, 0, 0, 3, 0, 0, 0, 0]);
    let taken = Taken::default();
    for (page_number, stamp, status) in [(2, 5, Status::FramePage), (1, 6, Status::FrameStamp)] {
        let refused = precopy::encode_frame(&sizes, page_number, stamp, &page);
        assert_eq!(refused, Err(Refused::Frame { status, taken }));
    }
    let length = Refused::Length {
        status: Status::PageLength,
    };
    assert_eq!(precopy::encode_frame(&sizes, 1, 5, &page[..15]), Err(length));
    let short = precopy::encode_frame_into(&sizes, 1, 5, &page, &mut [0; 24]);
    assert_eq!(short, Err(Refused::ShortBuffer { needed: 25 }));
    let (frame, content) = precopy::decode_frame(&sizes, &text).unwrap();
    assert_eq!(
        (frame.page, frame.stamp, frame.size, &content[..]),
        (1, 5, 25, &page[..])
    );
    let short = precopy::decode_frame_into(&sizes, &text, &mut [0; 15]);
    assert_eq!(short, Err(Refused::ShortBuffer { needed: 16 }));
    assert!(precopy::is_zero(&zeros) && precopy::is_zero(&[]) && !precopy::is_zero(&page));
}

#[test]
fn flat_memory() {
    let sizes = Sizes::new(4, 2, 5).unwrap();
    let page = [3; 16];
    let newer = precopy::encode_frame(&sizes, 1, 5, &page).unwrap();
    let stream = [&newer[..], &precopy::encode_frame(&sizes, 1, 3, &[0; 16]).unwrap()].concat();
    let mut flat = precopy::FlatMemory::new(sizes).unwrap();
    assert_eq!(flat.accept(&stream), Ok(Taken { frames: 2, bytes: 34 }));
    assert_eq!((&flat.bytes()[16..], flat.missing()), (&page[..], Some(0)));
    assert_eq!((flat.pages()[0].stamp(), flat.pages()[1].stamp()), (None, Some(5)));
    let taken = Taken { frames: 1, bytes: 25 };
    let cut = Refused::Frame {
        status: Status::FrameShort,
        taken,
    };
    assert_eq!(
        (flat.accept(&stream[..33]), flat.accept_front(&stream[..33])),
        (Err(cut), Ok(taken))
    );
    flat.accept(&precopy::encode_frame(&sizes, 0, 0, &[0; 16]).unwrap())
        .unwrap();
    assert_eq!(flat.missing(), None);
    let (mut memory, mut pages) = flat.into_parts();
    let length = Refused::Length {
        status: Status::MemoryLength,
    };
    assert_eq!(
        precopy::accept(&sizes, &stream, &mut memory[..31], &mut pages),
        Err(length)
    );
    let count = Refused::Length {
        status: Status::PageCount,
    };
    assert_eq!(
        precopy::accept(&sizes, &stream, &mut memory, &mut pages[..1]),
        Err(count)
    );
    assert_eq!((precopy::missing(&pages), precopy::missing(&[])), (None, None));
}

#[test]
fn interface() {
    assert_eq!(precopy::abi(), precopy::ABI);
}
