//! Numbers and bytes that nobody means: each is an answer or a refusal, and no call panics.

mod guest;

use guest::TRACE;
use precopy::{FlatMemory, OpenTrace, Question, Refused, Settings, Sizes};

/// Numbers without a pattern, always the same (xorshift).
struct Numbers(u64);

impl Numbers {
    fn next(&mut self) -> u64 {
        self.0 ^= self.0 << 13;
        self.0 ^= self.0 >> 7;
        self.0 ^= self.0 << 17;
        self.0
    }

    fn below(&mut self, end: u64) -> u64 {
        self.next() % end
    }

    fn bytes(&mut self, length: u64) -> Vec<u8> {
        (0..length).map(|_| self.next() as u8).collect()
    }
}

const EDGES: [u32; 14] = [0, 1, 3, 4, 12, 13, 31, 32, 63, 64, 65_536, 65_537, 1 << 31, u32::MAX];

#[test]
fn sizes() {
    for shift in EDGES {
        for pages in EDGES {
            for writes in [0, 1 << 20, (1 << 20) + 1, u32::MAX] {
                let good = (4..=12).contains(&shift) && (1..=65_536).contains(&pages) && writes <= 1 << 20;
                let made = Sizes::new(shift, pages, writes);
                assert_eq!(made.is_ok(), good, "{shift} {pages} {writes}");
                if let Ok(sizes) = made {
                    assert_eq!(sizes.memory_length(), pages as usize * sizes.page_length());
                    assert_eq!(FlatMemory::new(sizes).unwrap().missing(), Some(0));
                } else {
                    assert!(matches!(made, Err(Refused::Trace { record: None, .. })));
                }
            }
        }
    }
}

#[test]
fn settings() {
    let trace = [0x50, 0x43, 0x57, 0x54, 1, 4, 0, 0, 1, 0, 0, 0, 0, 0, 0, 0];
    let values = [
        0,
        1,
        64,
        65,
        1 << 20,
        1 << 32,
        1 << 40,
        (1 << 40) + 1,
        1 << 63,
        u64::MAX,
    ];
    let opened = OpenTrace::open(&trace).unwrap();
    let mut numbers = Numbers(62);
    for _ in 0..5000 {
        let mut drawn = || values[numbers.below(10) as usize];
        let settings = Settings {
            min: drawn(),
            max: drawn(),
            increment: drawn(),
            threshold: drawn(),
            rounds: drawn(),
            start: drawn(),
            window: drawn(),
            hot: drawn(),
            base: (drawn() > 64).then(&mut drawn),
            skip: drawn() > 64,
        };
        let checked = settings.check();
        assert!(matches!(checked, Ok(()) | Err(Refused::Settings { .. })));
        assert_eq!(precopy::plan(&trace, &settings).map(|_| ()), checked);
        assert_eq!(precopy::report(&trace, &settings).map(|_| ()), checked);
        assert_eq!(opened.plan(&settings), precopy::plan(&trace, &settings));
        assert_eq!(opened.report(&settings), precopy::report(&trace, &settings));
        assert_eq!(opened.rounds(&settings).map(|_| ()), checked);
        assert_eq!(opened.sweep(&[settings]).map(|_| ()), checked);
    }
}

#[test]
fn questions() {
    let trace = [0x50, 0x43, 0x57, 0x54, 1, 4, 0, 0, 1, 0, 0, 0, 0, 0, 0, 0];
    let opened = OpenTrace::open(&trace).unwrap();
    let values = [0, 1, 16, 64, 1000, 1 << 20, 1 << 32, u64::MAX];
    let mut numbers = Numbers(64);
    let mut told = [0; 2];
    for _ in 0..20_000 {
        let mut drawn = || values[numbers.below(8) as usize];
        let question = Question {
            link: drawn(),
            first: (drawn() > 1000).then(&mut drawn),
            downtime: drawn(),
            reserve: drawn(),
            tick: drawn(),
            page: 16,
            sampled: drawn(),
            guest: drawn(),
            increment: (drawn() > 1000).then(&mut drawn),
            rounds: drawn(),
            start: drawn(),
            base: (drawn() > 1000).then(&mut drawn),
            skip: drawn() > 1000,
            clark: drawn() > 1000,
        };
        let predicted = opened.predict(&question);
        let enough = opened.enough(&question);
        assert_eq!(enough.map(|_| ()), predicted.map(|_| ()));
        match predicted {
            Ok(_) => told[0] += 1,
            Err(Refused::Question { .. } | Refused::Settings { .. }) => told[1] += 1,
            other => panic!("{other:?}"),
        }
    }
    assert!(told[0] > 20 && told[1] > 0, "{told:?}");
}

#[test]
fn bytes() {
    let (mut numbers, sizes) = (Numbers(63), Sizes::new(4, 3, 20).unwrap());
    let mut flat = FlatMemory::new(sizes).unwrap();
    for _ in 0..20_000 {
        let length = numbers.below(80);
        let mut data = numbers.bytes(length);
        if let Some(front) = data.get_mut(..9).filter(|_| length % 2 == 0) {
            // Often a frame, at least at its front.
            let head = [
                numbers.below(4) as u8,
                0,
                0,
                0,
                numbers.below(22) as u8,
                0,
                0,
                0,
                numbers.below(3) as u8,
            ];
            front.copy_from_slice(&head);
        }
        let taken = match flat.accept(&data) {
            Ok(taken) | Err(Refused::Frame { taken, .. }) => taken,
            other => panic!("{other:?}"),
        };
        assert!(taken.bytes <= data.len() && taken.frames * 9 <= taken.bytes);
        match precopy::decode_frame(&sizes, &data) {
            Ok((frame, content)) => {
                let again = precopy::encode_frame(&sizes, frame.page, frame.stamp, &content);
                assert_eq!(again.as_deref(), Ok(&data[..frame.size]));
            }
            Err(refused) => assert!(matches!(refused, Refused::Frame { .. })),
        }
        let mut trace = [&[0x50, 0x43, 0x57, 0x54, 1, 4, 0, 0, 3, 0, 0, 0, 2, 0, 0, 0], &data[..]].concat();
        assert!(precopy::check_trace(&data).is_err());
        let wanted = precopy::check_trace(&trace).map(|_| ());
        assert_eq!(precopy::memory(&trace).map(|_| ()), wanted);
        trace.truncate(length as usize);
        assert_eq!(precopy::memory(&trace).is_ok(), precopy::check_trace(&trace).is_ok());
    }
}

/// Returns what each call that tests the bytes of a trace says of these: all of them the same.
fn tested(trace: &[u8]) -> Result<(), Refused> {
    let (told, settings) = (precopy::check_trace(trace).map(|_| ()), Settings::default());
    assert_eq!(precopy::plan(trace, &settings).map(|_| ()), told);
    assert_eq!(precopy::report(trace, &settings).map(|_| ()), told);
    assert_eq!(precopy::memory(trace).map(|_| ()), told);
    assert_eq!(precopy::check_streams(trace, 3, &[], &[]).map(|_| ()), told);
    assert_eq!(OpenTrace::open(trace).map(|_| ()), told);
    told
}

#[test]
fn traces() {
    let (mut numbers, mut told) = (Numbers(65), [0; 2]);
    for _ in 0..3000 {
        let mut trace = TRACE;
        for _ in 0..numbers.below(3) {
            trace[numbers.below(102) as usize] = numbers.next() as u8;
        }
        let length = if numbers.below(4) == 0 { numbers.below(103) } else { 102 };
        let trace = &trace[..length as usize];
        told[usize::from(tested(trace).is_ok())] += 1;
        if let Ok(opened) = OpenTrace::open(trace) {
            let settings = Settings::default();
            assert_eq!(opened.plan(&settings), precopy::plan(trace, &settings));
            assert_eq!(opened.report(&settings), precopy::report(trace, &settings));
            assert_eq!(opened.memory_before(u64::MAX), precopy::memory(trace));
        }
    }
    assert!(told.iter().all(|&count| 300 < count), "{told:?}");
}

#[test]
fn threads() {
    let sizes = Sizes::new(4, 3, 20).unwrap();
    let wanted = precopy::encode_frame(&sizes, 1, 2, &[7; 16]);
    std::thread::scope(|scope| {
        for _ in 0..8 {
            scope.spawn(|| (0..2000).for_each(|_| assert_eq!(precopy::encode_frame(&sizes, 1, 2, &[7; 16]), wanted)));
        }
    });
}
