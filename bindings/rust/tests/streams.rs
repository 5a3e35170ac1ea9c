//! Worked examples of streams that are checked, at once and as they come.

mod guest;

use guest::TRACE;
use precopy::{Finding, FramePlace, OpenTrace, Refused, Status};

/// Frames of pages 0 to 3 and of page 1 again, which begin at bytes 0, 25, 50, 59 and 68. After them comes the older
/// frame of page 1 once more.
#[rustfmt::skip]
const SENT: [u8; 118] = [
    0, 0, 0, 0, 1, 0, 0, 0, 1, 1, 0, 0, 0, 0, 0, 0, 0, 0, 0, 0, 0, 0, 0, 0, 0,
    1, 0, 0, 0, 2, 0, 0, 0, 1, 0, 0, 0, 0, 0, 0, 0, 0, 0, 0, 0, 0, 0, 0, 0, 2,
    2, 0, 0, 0, 0, 0, 0, 0, 0, 3, 0, 0, 0, 0, 0, 0, 0, 0,
    1, 0, 0, 0, 3, 0, 0, 0, 1, 3, 0, 0, 0, 0, 0, 0, 0, 0, 0, 0, 0, 0, 0, 0, 2,
    1, 0, 0, 0, 2, 0, 0, 0, 1, 0, 0, 0, 0, 0, 0, 0, 0, 0, 0, 0, 0, 0, 0, 0, 2,
];

#[test]
fn streams() {
    let check = |bytes: &[u8], sizes: &[usize]| precopy::check_streams(&TRACE, 3, bytes, sizes);
    assert_eq!(OpenTrace::open(&TRACE).unwrap().writes_before(2500), Ok(3));
    assert_eq!(check(&SENT[..93], &[93]), Ok(None));
    assert_eq!(check(&SENT, &[93, 25]), Ok(None));
    let older = Finding::Frame {
        status: Status::Older,
        place: FramePlace {
            stream: 0,
            frame: 5,
            offset: 93,
        },
        page: 1,
        stamp: 2,
        wanted: 3,
    };
    assert_eq!(check(&SENT, &[118]), Ok(Some(older)));
    let behind = Finding::Page {
        page: 1,
        stamp: Some(2),
        wanted: 3,
        missing: Some((3, 1200)),
    };
    assert_eq!(check(&SENT[..68], &[68]), Ok(Some(behind)));
    let never = Finding::Page {
        page: 0,
        stamp: None,
        wanted: 1,
        missing: Some((1, 0)),
    };
    assert_eq!(check(&SENT[25..93], &[0, 68]), Ok(Some(never)));
    let sizes = check(&SENT, &[93]).map_err(|refused| refused.status());
    assert_eq!(sizes, Err(Status::StreamSizes));
    let refused = precopy::check_streams(&TRACE[..101], 3, &[], &[]);
    assert_eq!(
        refused,
        Err(Refused::Trace {
            status: Status::ShortRecord,
            record: Some(4)
        })
    );
}

/// A frame whose bytes are not as they must be.
fn of_frame(status: Status, stream: usize, frame: usize, offset: usize) -> Finding {
    let place = FramePlace { stream, frame, offset };
    Finding::Frame {
        status,
        place,
        page: 0,
        stamp: 0,
        wanted: 0,
    }
}

/// What a check says of streams, each of which comes in pieces of so many bytes, one stream after the other.
fn in_pieces(length: usize, streams: &[&[u8]]) -> Option<Finding> {
    let trace = OpenTrace::open(&TRACE).unwrap();
    let mut check = trace.check(3).unwrap();
    for (number, stream) in streams.iter().enumerate() {
        for piece in stream.chunks(length) {
            check.take(number, piece).unwrap();
        }
        check.end_stream(number).unwrap();
    }
    check.finish().unwrap()
}

/// The same, to which a piece of each stream comes in turn.
fn in_turn(length: usize, streams: &[&[u8]]) -> Option<Finding> {
    let trace = OpenTrace::open(&TRACE).unwrap();
    let mut check = trace.check(3).unwrap();
    let longest = streams.iter().map(|it| it.len()).max().unwrap_or(0);
    for from in (0..longest).step_by(length) {
        for (number, stream) in streams.iter().enumerate() {
            let end = stream.len().min(from + length);
            check.take(number, stream.get(from..end).unwrap_or_default()).unwrap();
        }
    }
    check.finish().unwrap()
}

#[test]
fn pieces() {
    let wrong: [&[&[u8]]; 9] = [
        &[&SENT[..93]],
        &[&SENT[..93], &SENT[93..]],
        &[&SENT],
        &[&SENT[..68]],
        &[&SENT[..92]],
        &[&SENT[..98], &SENT[..93]],
        &[&SENT[25..93]],
        &[&[], &[4; 9], &SENT[1..]],
        &[],
    ];
    for streams in wrong {
        let sizes: Vec<usize> = streams.iter().map(|it| it.len()).collect();
        let at_once = precopy::check_streams(&TRACE, 3, &streams.concat(), &sizes).unwrap();
        for length in 1..=SENT.len() {
            assert_eq!(in_pieces(length, streams), at_once, "{streams:?} in pieces of {length}");
            assert_eq!(
                in_turn(length, streams),
                at_once,
                "{streams:?} in turn, in pieces of {length}"
            );
        }
    }
}

/// The memory before tick 2500, after three writes: pages 0 and 1, and two of zeros.
fn memory_at_stop() -> [u8; 64] {
    let mut memory = [0; 64];
    (memory[0], memory[16], memory[31]) = (1, 3, 2);
    memory
}

#[test]
fn pages_without_stamps() {
    let (trace, memory) = (OpenTrace::open(&TRACE).unwrap(), memory_at_stop());
    let mut check = trace.check(3).unwrap();
    let old = [0, 0, 0, 0, 0, 0, 0, 0, 0, 0, 0, 0, 0, 0, 0, 2];
    for (page, content) in [(1, &old[..]), (2, &[0; 16]), (1, &memory[16..32])] {
        assert_eq!(check.take_page(page, content), Ok(None));
    }
    let first = Finding::Difference {
        offset: 0,
        page: 0,
        wanted: 1,
        missing: Some((1, 0)),
    };
    assert_eq!(check.finish(), Ok(Some(first)));
    let says = "byte 0 of memory: it is not that of page 0 at 1, which write 1 wrote at tick 0";
    assert_eq!(first.to_string(), says);
    assert_eq!(
        (check.take_page(0, &memory[..16]), check.finish()),
        (Ok(None), Ok(None))
    );
    let refused = |page, content: &[u8]| {
        trace
            .check(3)
            .unwrap()
            .take_page(page, content)
            .map_err(|it| it.status())
    };
    assert_eq!(refused(4, &[0; 16]), Err(Status::NoPage));
    assert_eq!(refused(3, &[0; 15]), Err(Status::PageLength));
    // The page before its last write once more.
    let older = Finding::Unstamped {
        page: 1,
        stamp: 3,
        wanted: 3,
    };
    assert_eq!(check.take_page(1, &old), Ok(Some(older)));
    assert_eq!(
        (check.take_page(0, &memory[..16]), check.finish()),
        (Ok(Some(older)), Ok(Some(older)))
    );
    let says = "page 1 without a stamp: its bytes are those of no version from 3 to 3";
    assert_eq!(
        (older.status(), older.to_string()),
        (Status::OtherBytes, says.to_string())
    );
    // What pages 3 and 1 are only after the stop.
    let late = [0, 0, 4, 5, 0, 0, 0, 0, 0, 0, 0, 0, 0, 0, 0, 0];
    let found = Finding::Unstamped {
        page: 3,
        stamp: 0,
        wanted: 0,
    };
    assert_eq!(trace.check(3).unwrap().take_page(3, &late), Ok(Some(found)));
    assert_eq!(trace.check(4).unwrap().take_page(3, &late), Ok(None));
}

#[test]
fn a_destination_with_a_base() {
    let (trace, memory) = (OpenTrace::open(&TRACE).unwrap(), memory_at_stop());
    // From tick 6 to the stop page 1 alone is written.
    let mut check = trace.check_with_base(3, 6).unwrap();
    let behind = Finding::Page {
        page: 1,
        stamp: Some(2),
        wanted: 3,
        missing: Some((3, 1200)),
    };
    assert_eq!(check.finish(), Ok(Some(behind)));
    assert_eq!((check.take(0, &SENT[68..93]), check.finish()), (Ok(None), Ok(None)));
    let mut check = trace.check_with_base(3, 6).unwrap();
    assert_eq!(
        (check.take_page(1, &memory[16..32]), check.finish()),
        (Ok(None), Ok(None))
    );
    // Before the base page 1 was as it began.
    let found = Finding::Unstamped {
        page: 1,
        stamp: 2,
        wanted: 3,
    };
    assert_eq!(
        trace.check_with_base(3, 6).unwrap().take_page(1, &[0; 16]),
        Ok(Some(found))
    );
}

#[test]
fn memory_that_differs() {
    let (trace, mut memory) = (OpenTrace::open(&TRACE).unwrap(), memory_at_stop());
    assert_eq!(trace.difference(3, &memory), Ok(None));
    let found = |offset, page, wanted, missing| {
        Ok(Some(Finding::Difference {
            offset,
            page,
            wanted,
            missing,
        }))
    };
    assert_eq!(trace.difference(5, &memory), found(16, 1, 5, Some((5, 2500))));
    memory[40] = 9;
    assert_eq!(trace.difference(3, &memory), found(40, 2, 0, None));
    let text = trace.difference(3, &memory).unwrap().unwrap().to_string();
    assert_eq!(
        text,
        "byte 40 of memory: it is not that of page 2 at 0, which no write wrote"
    );
    let short = trace.difference(3, &memory[1..]).map_err(|it| it.status());
    assert_eq!(short, Err(Status::MemoryLength));
}

#[test]
fn a_stream_that_is_cut_off() {
    let trace = OpenTrace::open(&TRACE).unwrap();
    let cut = Ok(Some(of_frame(Status::FrameShort, 0, 5, 93)));
    let mut check = trace.check(3).unwrap();
    // All pages, and 8 bytes of one more frame.
    assert_eq!((check.take(0, &SENT[..101]), check.finish()), (Ok(None), cut));
    assert_eq!((check.end_stream(0), check.end_stream(0)), (cut, cut));
    assert_eq!((check.take(0, &SENT[..93]), check.finish()), (cut, cut));
    // The end of the frame comes after all, and its stream is the second one.
    let mut check = trace.check(3).unwrap();
    assert_eq!((check.take(0, &SENT[..93]), check.end_stream(0)), (Ok(None), Ok(None)));
    assert_eq!(
        (check.take(1, &SENT[93..109]), check.take(1, &SENT[109..])),
        (Ok(None), Ok(None))
    );
    assert_eq!(
        (check.finish(), check.end_stream(1), check.finish()),
        (Ok(None), Ok(None), Ok(None))
    );
    assert_eq!(check.take(2, &[0]), Ok(None));
    let cut = Ok(Some(of_frame(Status::FrameShort, 2, 0, 0)));
    assert_eq!((check.finish(), check.end_stream(2)), (cut, cut));
}

#[test]
fn what_was_found_stays() {
    let trace = OpenTrace::open(&TRACE).unwrap();
    let mut check = trace.check(3).unwrap();
    let found = check.take(0, &[&SENT[..93], &[4; 9]].concat());
    assert_eq!(found, Ok(Some(of_frame(Status::FramePage, 0, 5, 93))));
    assert_eq!((check.take(0, &SENT), check.end_stream(0)), (found, found));
    assert_eq!((check.take(0, &SENT), check.finish()), (found, found));
}

#[test]
fn nothing_comes() {
    let none = OpenTrace::open(&TRACE).unwrap().check(3).unwrap().finish().unwrap();
    assert!(matches!(
        none,
        Some(Finding::Page {
            page: 0,
            stamp: None,
            ..
        })
    ));
}

#[test]
fn sentences() {
    let says = |bytes: &[u8]| {
        precopy::check_streams(&TRACE, 3, bytes, &[bytes.len()])
            .unwrap()
            .unwrap()
            .to_string()
    };
    let cause = Status::Older.to_string();
    assert_eq!(
        cause,
        "a frame of the page with a greater stamp came before in the stream"
    );
    assert_eq!(
        says(&SENT),
        format!("stream 0, frame 5, byte 93: page 1 at 2 for 3, {cause}")
    );
    assert_eq!(
        says(&SENT[..92]),
        "stream 0, frame 4, byte 68: frame F1: a frame is cut off"
    );
    let cause = Status::PageBehind;
    let lacks = "it lacks write 3, at tick 1200";
    assert_eq!(
        says(&SENT[..68]),
        format!("at the stop: page 1 at 2 for 3, {cause}; {lacks}")
    );
    assert_eq!(
        says(&SENT[68..93]),
        "at the stop: page 0 at 0 for 1, a page did not come; it lacks write 1, at tick 0"
    );
    assert_eq!(
        (Status::Older.number(), format!("{:?}", Status::Older)),
        (73, "Older".to_string())
    );
}
