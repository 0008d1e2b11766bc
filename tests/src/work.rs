//! The parts of a test run, done by two threads.

use std::sync::atomic::{AtomicBool, AtomicUsize, Ordering};
use std::sync::Mutex;
use std::thread;

use crate::calls::Call;
use crate::cases::{Maker, BIG_KINDS};
use crate::known::known;
use crate::model::edition::NEWEST;
use crate::model::operator::Cells;
use crate::model::record::Node;
use crate::policies::Draft;
use crate::program::{Difference, Program};
use crate::properties;
use crate::random::Random;
use crate::stock::{all, operator, sample_size, Stock};
use crate::tally::Tally;

const THREADS: usize = 2;
/// Small cases in a part, so that a run of the program gets several thousand.
const SMALL: usize = 3_000;
/// Big parts for each seed.
const BIG_PARTS: usize = 14;
/// Compiled tables, and drawn tables, in a part of properties.
const TABLES: usize = 150;
const PROPERTY_PARTS: usize = 8;
const OPERATORS: usize = 32_768;
/// The stream of the sample of operators, which no other part comes to.
const SAMPLE: usize = usize::MAX;

enum Part {
    Known,
    /// Operators from one index up to another, named as inner and sibling.
    Operators(usize, usize),
    /// A sample of operators, named as inner and sibling.
    Sample(u64),
    Small(u64, usize, usize),
    Big(u64, usize),
    Properties(u64, usize),
}

pub struct Plan {
    parts: Vec<Part>,
    stock: Stock,
}

impl Plan {
    /// The known cases and the properties.
    pub fn without_cases(seeds: &[u64]) -> Plan {
        let mut parts = vec![Part::Known];
        for &seed in seeds {
            parts.extend((0..PROPERTY_PARTS).map(|part| Part::Properties(seed, part)));
        }
        Plan {
            parts,
            stock: Stock::new(NEWEST),
        }
    }

    /// Everything, with this many small cases shared out among the seeds.
    pub fn full(seeds: &[u64], cases: usize) -> Plan {
        let mut plan = Plan::without_cases(seeds);
        let each = cases.div_ceil(seeds.len());
        for &seed in seeds {
            let big = (0..BIG_PARTS).map(|part| Part::Big(seed, part));
            let small = (0..each.div_ceil(SMALL))
                .map(|part| Part::Small(seed, part, SMALL.min(each - part * SMALL)));
            plan.parts.extend(big.chain(small));
            plan.parts.push(Part::Sample(seed));
        }
        if let Some(all) = all(NEWEST) {
            let part = |from: usize| Part::Operators(from, all.min(from + OPERATORS));
            plan.parts.extend((0..all).step_by(OPERATORS).map(part));
        }
        plan
    }
}

/// All parts of the plan, up to the first difference.
pub fn run(program: &Program, plan: &Plan) -> (Tally, Option<Difference>) {
    let next = AtomicUsize::new(0);
    let stop = AtomicBool::new(false);
    let total = Mutex::new((Tally::default(), None));
    let work = || {
        let mut tally = Tally::default();
        let mut found = None;
        while !stop.load(Ordering::Relaxed) {
            let Some(part) = plan.parts.get(next.fetch_add(1, Ordering::Relaxed)) else {
                break;
            };
            if let Err(difference) = run_part(program, &plan.stock, part, &mut tally) {
                stop.store(true, Ordering::Relaxed);
                found = Some(difference);
            }
        }
        let mut total = total.lock().expect("no thread panics");
        total.0.merge(tally);
        total.1 = total.1.take().or(found);
    };
    thread::scope(|scope| {
        for _ in 0..THREADS {
            scope.spawn(work);
        }
    });
    total.into_inner().expect("no thread panics")
}

fn run_part(
    program: &Program,
    stock: &Stock,
    part: &Part,
    tally: &mut Tally,
) -> Result<(), Difference> {
    let maker = |seed: u64, stream: usize| Maker {
        random: Random::new(seed, stream as u64),
        stock,
    };
    // Streams of one seed must differ between the kinds of parts.
    let calls: Vec<Call> = match *part {
        Part::Known => return run_known(program, tally),
        Part::Operators(from, to) => {
            let operators = (from..to).map(|index| operator(NEWEST, index));
            operators.map(operator_call).collect()
        }
        Part::Sample(seed) => {
            let mut random = maker(seed, SAMPLE).random;
            let operators = (0..sample_size(NEWEST)).map(|_| stock.sampled(&mut random));
            operators.map(operator_call).collect()
        }
        Part::Small(seed, part, count) => {
            let mut maker = maker(seed, 3 * part);
            (0..count).map(|_| maker.small()).collect()
        }
        Part::Big(seed, part) => {
            let mut maker = maker(seed, 3 * part + 1);
            (0..BIG_KINDS).map(|kind| maker.big(kind)).collect()
        }
        Part::Properties(seed, part) => {
            let mut maker = maker(seed, 3 * part + 2);
            return properties::check(program, &mut maker, TABLES, tally);
        }
    };
    run_calls(program, &calls, tally)
}

fn run_calls(program: &Program, calls: &[Call], tally: &mut Tally) -> Result<(), Difference> {
    let answers = program.check(calls)?;
    for (call, answer) in calls.iter().zip(&answers) {
        tally.add(call, answer);
    }
    Ok(())
}

/// The known cases one by one, so that a difference can be named.
fn run_known(program: &Program, tally: &mut Tally) -> Result<(), Difference> {
    for case in known() {
        let calls = [case.call];
        let answers = program
            .check_against(&calls, &[case.answer])
            .map_err(|difference| Difference {
                report: format!("in the known case {}: {}", case.name, difference.report),
                ..difference
            })?;
        tally.add(&calls[0], &answers[0]);
    }
    Ok(())
}

/// One node without atoms whose three operators are all this one.
fn operator_call(cells: Cells) -> Call {
    let draft = Draft {
        edition: NEWEST,
        operators: vec![cells],
        atoms: vec![],
        nodes: vec![Node::default()],
    };
    Call::Read {
        file: draft.words(),
    }
}
