//! `desk compare`: the second engine against the proved one, on random models, tapes and damages.

mod calls;
mod cases;
mod counts;
mod draft;
mod edits;
mod flat;
mod report;
mod shorten;
#[cfg(test)]
pub mod stand_in;
#[cfg(test)]
mod tests;
mod trial;

use crate::args::*;
use crate::files;
use crate::proved::{self, Engine};
use cases::{Comparison, Found};
use counts::Counts;
use std::time::{Duration, Instant};
use trial::Trial;

/// The cases of the fixed comparison.
pub const CASES: u64 = 2_000;

/// Which cases to compare, and for how long at most.
struct Plan {
    seed: u64,
    cases: u64,
    most: Option<Duration>,
}

/// Compares the engines and prints the table, or the first difference made short.
pub fn main(given: &[String]) -> Outcome {
    let args = Args::sort(given, &["--seed", "--cases", "--seconds"], &[])?;
    args.expect(&[])?;
    let plan = Plan {
        seed: args.number("--seed")?.unwrap_or(1),
        cases: args.number("--cases")?.unwrap_or(CASES),
        most: args.number("--seconds")?.map(Duration::from_secs),
    };
    let engine = proved::engine()?;
    compare(engine.as_ref(), &plan)
}

/// Goes through the cases of the plan.
fn compare(engine: &dyn Engine, plan: &Plan) -> Outcome {
    let began = Instant::now();
    let mut comparison = Comparison::of(engine);
    let mut done = 0;
    for case in 0..plan.cases {
        if plan.most.is_some_and(|most| began.elapsed() >= most) {
            break;
        }
        if let Err(found) = comparison.case(plan.seed, case) {
            return differ(engine, plan.seed, case, &found);
        }
        done += 1;
    }
    files::print(&format!(
        "seed {}, {done} of {} cases, {:.1} seconds: no difference\n{}",
        plan.seed,
        plan.cases,
        began.elapsed().as_secs_f64(),
        comparison.counts.table()
    ))
}

/// Where the proved engine writes the model of a file otherwise than the second one, in words.
pub fn writing_differs(engine: &dyn Engine, file: &[u8]) -> Option<String> {
    let trial = Trial::of_write(file, Vec::new(), 0);
    let difference = trial.differs(engine, &mut Counts::default())?;
    Some(report::difference_text(&trial, &difference))
}

/// Prints a difference made as short as it goes.
fn differ(engine: &dyn Engine, seed: u64, case: u64, found: &Found) -> Outcome {
    let short = shorten::shorten(engine, &found.trial);
    let difference = short.differs(engine, &mut Counts::default());
    let difference = difference.as_ref().unwrap_or(&found.difference);
    files::print(&report::difference_text(&short, difference))?;
    refused(format!(
        "seed {seed}, case {case}: the engines differ (shown in its shortest form)"
    ))
}
