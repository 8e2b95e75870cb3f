//! Times the tool against a twin written by hand, on the same files.

mod plans;
mod tool;
mod twin;

use plans::{plan, Plan};
use std::hint::black_box;
use std::time::{Duration, Instant};
use tool::Told;
use twin::{Outcome, Report};

/// How long one round of either side takes at least.
const ROUND: Duration = Duration::from_millis(20);
const ROUNDS: usize = 31;

fn ask_tool(plan: &Plan) -> Told {
    let mut told = Told::blank();
    tool::tell(&plan.cell, &plan.process, &mut told);
    told
}

fn agree(told: &Told, report: &Report) -> bool {
    let (outcome, steps) = match report.outcome {
        Outcome::Settled { steps } => (0, steps),
        Outcome::Broken { steps, .. } => (1, steps),
        Outcome::Refused(_) => (2, 0),
    };
    told.outcome == outcome
        && told.steps == steps
        && told.count == report.count
        && told.times[..told.count]
            .iter()
            .zip(&report.rows[..report.count])
            .all(|(a, b)| (a.late, a.wait, a.end, a.limit) == (b.late, b.wait, b.end, b.limit))
}

fn check(plan: &Plan) -> u32 {
    let told = ask_tool(plan);
    let report = twin::tell(&plan.cell, &plan.process);
    assert!(agree(&told, &report), "the tool and the twin differ");
    told.outcome
}

/// Of the plans with so many groups that settle, the one with the most steps.
fn longest(groups: u32) -> (Plan, u64) {
    let mut best = (plan(groups, 1), 0);
    for load in 500..1000 {
        let plan = plan(groups, load);
        if let Outcome::Settled { steps } = twin::tell(&plan.cell, &plan.process).outcome {
            if steps > best.1 {
                best = (plan, steps);
            }
        }
    }
    best
}

/// Numbers that look random and are the same in every run.
struct Dice(u64);

impl Dice {
    fn roll(&mut self, sides: usize) -> usize {
        self.0 = self
            .0
            .wrapping_mul(6_364_136_223_846_793_005)
            .wrapping_add(1_442_695_040_888_963_407);
        (self.0 >> 33) as usize % sides
    }

    fn spoil(&mut self, file: &mut [u8]) {
        let at = self.roll(file.len());
        file[at] = file[at].wrapping_add(self.roll(8) as u8);
    }
}

/// Compares both sides on plans with a few bytes changed, and counts how these came out.
fn compare_spoilt(count: usize) -> [usize; 3] {
    let mut dice = Dice(1);
    let mut outcomes = [0; 3];
    for _ in 0..count {
        let load = 500 + dice.roll(500) as u32;
        let mut plan = plan(1 + dice.roll(8) as u32, load);
        dice.spoil(&mut plan.process);
        if dice.roll(4) == 0 {
            dice.spoil(&mut plan.cell);
        }
        outcomes[check(&plan) as usize] += 1;
    }
    outcomes
}

fn time(repetitions: u32, mut work: impl FnMut()) -> Duration {
    let start = Instant::now();
    for _ in 0..repetitions {
        work();
    }
    start.elapsed()
}

/// The shortest time of one call of the tool and of the twin, over rounds that take turns.
fn race(plan: &Plan) -> (Duration, Duration) {
    let mut tool_call = || {
        black_box(ask_tool(black_box(plan)));
    };
    let mut twin_call = || {
        let plan = black_box(plan);
        black_box(twin::tell(&plan.cell, &plan.process));
    };
    let mut repetitions = 1;
    while time(repetitions, &mut twin_call) < ROUND {
        repetitions *= 2;
    }
    let mut best = (Duration::MAX, Duration::MAX);
    for _ in 0..ROUNDS {
        best.0 = best.0.min(time(repetitions, &mut tool_call) / repetitions);
        best.1 = best.1.min(time(repetitions, &mut twin_call) / repetitions);
    }
    best
}

fn main() {
    let [settled, broken, refused] = compare_spoilt(20_000);
    println!("agreed: {settled} settled, {broken} broken, {refused} refused");
    println!("items  steps   tool µs   twin µs  ratio  tool ns/step  growth  twin ns/step  growth");
    let mut before: Option<(f64, f64)> = None;
    for groups in [1, 2, 4, 8] {
        let (plan, steps) = longest(groups);
        check(&plan);
        let (tool, twin) = race(&plan);
        let (tool, twin) = (tool.as_nanos() as f64, twin.as_nanos() as f64);
        let each = (tool / steps as f64, twin / steps as f64);
        let growth = match before {
            Some(half) => (
                format!("{:.2}", each.0 / half.0),
                format!("{:.2}", each.1 / half.1),
            ),
            None => ("-".to_string(), "-".to_string()),
        };
        println!(
            "{:5} {steps:6} {:9.1} {:9.1} {:6.2} {:13.1} {:>7} {:13.1} {:>7}",
            8 * groups,
            tool / 1000.0,
            twin / 1000.0,
            tool / twin,
            each.0,
            growth.0,
            each.1,
            growth.1,
        );
        before = Some(each);
    }
}
