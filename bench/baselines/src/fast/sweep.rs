//! `sweep`: the plans of many cases. Workers take the next cases as they come. Cases that begin alike come one after
//! another, so that they share rounds.

use crate::plan::{Plan, Planner, Touches};
use crate::text::Text;
use crate::words::Settings;
use std::sync::atomic::{AtomicUsize, Ordering::Relaxed};

/// From this many cases without skipping on, the index saves more than it costs.
const WORTH_AN_INDEX: usize = 3;
/// How many cases a worker takes at once.
const AT_ONCE: usize = 8;

pub fn sweep(touches: &Touches, cases: &[Settings], workers: usize) -> Text {
    let is_worth = cases.iter().filter(|case| !case.skip).count() >= WORTH_AN_INDEX;
    let index = is_worth.then(|| touches.index());
    let begins = |number: &usize| {
        let case = &cases[*number];
        (case.skip, case.min, case.max, case.inc, case.threshold, *number)
    };
    let mut order: Vec<usize> = (0..cases.len()).collect();
    order.sort_by_key(begins);
    let next = AtomicUsize::new(0);
    let work = || {
        let (mut planner, mut plans) = (Planner::new(touches, index), Vec::new());
        loop {
            let first = next.fetch_add(AT_ONCE, Relaxed);
            if first >= order.len() {
                return plans;
            }
            for number in order.iter().skip(first).take(AT_ONCE) {
                plans.push((*number, planner.plan(&cases[*number])));
            }
        }
    };
    let mut plans: Vec<(usize, Plan)> = std::thread::scope(|scope| {
        let others: Vec<_> = (1..workers.min(cases.len())).map(|_| scope.spawn(work)).collect();
        let mut plans = work();
        for other in others {
            plans.extend(other.join().expect("a worker ends"));
        }
        plans
    });
    plans.sort_by_key(|(number, _)| *number);
    let mut text = Text::new();
    for (number, plan) in &plans {
        plan.case(*number, &cases[*number], &mut text);
    }
    let best = plans.iter().min_by_key(|(number, plan)| (plan.down, plan.total, *number));
    text.line(&[("best ", best.map_or(0, |it| it.0) as u64)]);
    text
}
