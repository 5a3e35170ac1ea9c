//! Worked examples of predictions, whose values were worked out by hand; those of checks/library/rows.c.

mod guest;

use guest::TRACE;
use precopy::{
    Amounts, BestStart, Errors, Forecast, ForecastEnd, LinkShares, OpenTrace, Question, Reason, Refused, Starts,
    Status, Verdict,
};

/// Clark's rounds of 2 and 4 pages per 1,000 ticks, over a guest of 8 pages, half of which were recorded.
fn half() -> Question {
    Question {
        link: 128,
        first: Some(64),
        downtime: 600_000,
        reserve: 100_000,
        page: 16,
        sampled: 4,
        guest: 8,
        increment: Some(1),
        rounds: 8,
        clark: true,
        ..Question::default()
    }
}

#[test]
fn looks() {
    let trace = OpenTrace::open(&TRACE).unwrap();
    let asked = Question { clark: false, ..half() };
    let told = trace.predict(&asked).unwrap();
    let plan = (told.rounds, told.reason, told.stop, told.down, told.total);
    assert_eq!((plan, told.left), ((2, Reason::Few, 1000, 500, 6), 2));
    assert_eq!((told.time, told.bytes, told.downtime), (1_600_000, 192, 600_000));
    assert_eq!((told.converges, told.kept), (Verdict::Yes, Verdict::Yes));
    let best = trace.best_start(&asked, &Starts::default()).unwrap().unwrap();
    assert_eq!(
        (best.start, best.rounds, best.bytes, best.is_likely),
        (13, 1, 128, true)
    );
    let late = trace.predict(&Question { start: 2400, ..asked }).unwrap();
    assert_eq!(
        (late.rounds, late.reason, late.kept),
        (0, Reason::Cut, Verdict::Unknown)
    );
}

#[test]
fn predictions() {
    let trace = OpenTrace::open(&TRACE).unwrap();
    let told = trace.predict(&half()).unwrap();
    let plan = (told.rounds, told.reason, told.stop, told.down, told.total);
    assert_eq!((plan, told.left), ((1, Reason::Few, 2000, 500, 6), 2));
    assert_eq!(
        (told.time, told.bytes, told.downtime, told.recorded),
        (2_600_000, 192, 600_000, 2_500_000)
    );
    assert_eq!((told.converges, told.kept), (Verdict::Yes, Verdict::Yes));
    let errors = Errors {
        bytes: 48,
        time: 430_565,
        downtime: 129_524,
    };
    assert_eq!(told.errors, Some(errors));
    let all = Question {
        link: 64,
        first: Some(32),
        guest: 4,
        ..half()
    };
    let one = Question {
        rounds: 1,
        downtime: 0,
        reserve: 0,
        ..all
    };
    let late = Question {
        downtime: 100_000,
        reserve: 50_000,
        ..all
    };
    for (question, verdict) in [(all, Verdict::Yes), (one, Verdict::No), (late, Verdict::Unknown)] {
        let told = trace.predict(&question).unwrap();
        assert_eq!((told.converges, told.kept, told.errors), (verdict, verdict, None));
    }
}

#[test]
fn agreements() {
    let trace = OpenTrace::open(&TRACE).unwrap();
    let sampled = trace.agreement(&half()).unwrap();
    let draws = (
        sampled.draws,
        sampled.draws_known,
        sampled.draws_converging,
        sampled.draws_kept,
    );
    assert_eq!(draws, (20, 9, 9, 9));
    let starts = (sampled.starts, sampled.starts_converging, sampled.starts_kept);
    assert_eq!(starts, (5, 5, 5));
    assert_eq!(
        (sampled.converges, sampled.kept),
        (Verdict::Uncertain, Verdict::Uncertain)
    );
    let all = Question {
        link: 64,
        first: Some(32),
        guest: 4,
        ..half()
    };
    let sure = trace.agreement(&all).unwrap();
    assert_eq!((sure.draws, sure.starts), (0, 5));
    assert_eq!((sure.converges, sure.kept), (Verdict::Yes, Verdict::Yes));
}

#[test]
fn forecasts() {
    let trace = OpenTrace::open(&TRACE).unwrap();
    let stopped = Forecast {
        end: ForecastEnd::FewLeft,
        looks: 2,
        time: 1_600_000,
        bytes: 192,
        left: 64,
        downtime: 600_000,
        kept: Verdict::Yes,
    };
    assert_eq!(trace.forecast(&half()), Ok(stopped));
    for (start, end, left) in [(2400, ForecastEnd::TraceEnds, 128), (2501, ForecastEnd::NotBegun, 0)] {
        let told = trace.forecast(&Question { start, ..half() }).unwrap();
        assert_eq!((told.end, told.left, told.kept), (end, left, Verdict::Unknown));
    }
}

#[test]
fn link_shares() {
    let trace = OpenTrace::open(&TRACE).unwrap();
    let shares = |converges, percent, below| {
        Ok(LinkShares {
            converges,
            percent,
            below,
        })
    };
    let all = shares(Verdict::Yes, 100, Some(Verdict::Unknown));
    assert_eq!(trace.link_shares(&half()), all);
    let warm = Question {
        start: 1201,
        base: Some(6),
        ..half()
    };
    assert_eq!(trace.link_shares(&warm), shares(Verdict::Yes, 50, None));
}

#[test]
fn best_starts() {
    let trace = OpenTrace::open(&TRACE).unwrap();
    let found = trace.best_start(&half(), &Starts::default());
    let best = BestStart {
        start: 13,
        rounds: 1,
        time: 2_350_000,
        bytes: 160,
        downtime: 350_000,
        kept: Verdict::Yes,
        is_likely: false,
        errors: Some(Errors {
            bytes: 48,
            time: 360_008,
            downtime: 129_524,
        }),
    };
    assert_eq!(found, Ok(Some(best)));
    let late = Question { start: 2400, ..half() };
    assert_eq!(trace.best_start(&late, &Starts::default()), Ok(None));
    let many = Starts {
        to: Some(4096),
        every: Some(1),
    };
    let status = Status::TooManyStarts;
    assert_eq!(trace.best_start(&half(), &many), Err(Refused::Question { status }));
}

#[test]
fn amounts() {
    let trace = OpenTrace::open(&TRACE).unwrap();
    let amounts = |is_kept, link, downtime, speed, (ends, ending_link, ending_start)| {
        Ok(Amounts {
            is_kept,
            link,
            downtime,
            speed,
            ends,
            ending_link,
            ending_start,
        })
    };
    let soon = (true, None, None);
    let kept = amounts(true, Some(250), Some(600_000), None, soon);
    assert_eq!(trace.enough(&half()), kept);
    let soon_over = Question { start: 2400, ..half() };
    let earlier = amounts(false, None, None, Some(5), (false, None, Some(500)));
    assert_eq!(trace.enough(&soon_over), earlier);
    let late = Question {
        link: 64,
        first: Some(32),
        guest: 4,
        downtime: 100_000,
        reserve: 50_000,
        ..half()
    };
    let missed = amounts(false, Some(750), Some(550_000), Some(65), (false, Some(750), None));
    assert_eq!(trace.enough(&late), missed);
    let one = Question {
        rounds: 1,
        downtime: 0,
        reserve: 0,
        ..late
    };
    assert_eq!(trace.enough(&one), amounts(false, None, None, None, soon));
}

#[test]
fn questions() {
    let trace = OpenTrace::open(&TRACE).unwrap();
    let refused = |status, question: Question| {
        let told = trace.predict(&question).map(|_| ());
        assert_eq!(told, Err(Refused::Question { status }));
        let told = trace.enough(&question).map(|_| ());
        assert_eq!(told, Err(Refused::Question { status }));
    };
    refused(Status::BadTick, Question { tick: 0, ..half() });
    refused(Status::BadLink, Question { link: 31, ..half() });
    refused(Status::MorePages, Question { sampled: 3, ..half() });
    let wide = Question {
        page: 32,
        link: 256,
        ..half()
    };
    refused(Status::OtherPages, wide);
    let long = trace.predict(&Question { rounds: 65, ..half() });
    let status = Status::BadRounds;
    assert_eq!(long, Err(Refused::Settings { status }));
}
