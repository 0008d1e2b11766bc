//! Times the proved functions against hand-written ones, and those over bytes against those over words, on the same inputs, in the same run.

mod action;
mod bytes;
mod capture;
mod compile;
mod faults;
mod flow;
mod hidden;
mod inputs;
mod names;
mod notation;
mod number;
mod numbers;
mod policy;
mod program;
mod rattle;
mod table;
mod texts;
mod tree;
mod words;

use action::ACTION_WORDS;
use bytes::{ANSWER_WORDS, Bytes, to_bytes};
use capture::{FOUND_WORDS, MOST_PACKETS};
use flow::{PACKET_WORDS, ROW_WORDS};
use program::{Program, READINGS};
use std::hint::black_box;
use std::time::{Duration, Instant};
use table::MOST_ROWS;

/// How long the runs of one line may take, and how many there are at least and at most.
const BUDGET: Duration = Duration::from_millis(1200);
const FEWEST: usize = 7;
const MOST: usize = 301;

/// The word that asks for the comparison of all answers alone.
const EQUAL: &str = "--equal";

fn main() {
    if only_equal() {
        println!("answers and buffers are compared, and nothing is timed");
    } else {
        println!(
            "{:<34} {:>12} {:>12} {:>6}",
            "function and input", "Rattle ns", "Rust ns", "ratio"
        );
    }
    files();
    compiles();
    tables();
    captures();
    texts();
    if only_equal() {
        println!("all answers and buffers are equal");
    }
}

/// Atoms and nodes of the policy files.
const SHAPES: [(usize, usize); 6] = [(16, 1), (64, 16), (256, 64), (1024, 256), (1024, 1), (1024, 16)];

fn files() {
    for (atoms, nodes) in SHAPES {
        let file = inputs::file(&inputs::mixed(atoms), nodes);
        let size = format!("{atoms} atoms, {nodes} nodes");
        read(&size, &file);
        tree(&size, &file);
    }
    read("12 that add up, 1 node", &adding());
    tree("12 that add up, 1 node", &adding());
}

/// A policy file of reservations that add up.
fn adding() -> Vec<u32> {
    inputs::file_under(action::ADDING, &inputs::reservations(12), 1)
}

fn compiles() {
    for (atoms, nodes) in SHAPES {
        let file = inputs::file(&inputs::disjoint(atoms), nodes);
        compile(&format!("{atoms} disjoint, {nodes} nodes"), &file);
    }
    for atoms in 8..=12 {
        compile(
            &format!("{atoms} unconstrained, 1 node"),
            &inputs::file(&inputs::overlapping(atoms), 1),
        );
    }
    compile("12 unconstrained, 2 nodes", &inputs::file(&inputs::overlapping(12), 2));
    compile("12 that add up, 1 node", &adding());
    for (atoms, nodes) in [(16, 1), (64, 16)] {
        compile(
            &format!("{atoms} mixed, {nodes} nodes"),
            &inputs::file(&inputs::mixed(atoms), nodes),
        );
    }
}

fn tables() {
    for rows in [64, 256, 1024, MOST_ROWS] {
        let tables = [
            ("disjoint", inputs::disjoint(rows)),
            ("overlapping", inputs::overlapping(rows)),
            ("mixed", inputs::mixed(rows)),
        ];
        for (kind, table) in tables {
            let table = table.as_flattened();
            let size = format!("{rows} {kind}");
            scan(&size, table);
            number(&size, table);
            hidden(&size, table);
            agent_scan(&size, table, ALIGNED);
            agent_number(&size, table, ALIGNED);
        }
    }
    let table = inputs::disjoint(1024);
    agent_scan("1024 odd", table.as_flattened(), ODD);
    agent_number("1024 odd", table.as_flattened(), ODD);
}

/// How many bytes behind an aligned address the buffers lie that are lent as bytes.
const ALIGNED: usize = 0;
const ODD: usize = 1;

fn captures() {
    for rows in [64, 1024] {
        let tables = [
            ("disjoint", inputs::disjoint(rows)),
            ("overlapping", inputs::overlapping(rows)),
            ("mixed", inputs::constrained(rows)),
        ];
        for (kind, table) in tables {
            for count in [1, 64, MOST_PACKETS] {
                let packets = inputs::packets(&table, count);
                let (table, packets) = (table.as_flattened(), packets.as_flattened());
                let size = format!("{count} in {rows} {kind}");
                capture(&size, table, packets);
                if rows == 1024 && count > 1 {
                    singles(&size, table, packets);
                }
            }
        }
    }
}

/// Nodes of the texts of the largest policy, and the rules of each.
const TEXTS: [(&str, usize, usize); 2] = [("256 nodes", 256, 4), ("1 node", 1, 1024)];

fn texts() {
    let mut program = Program::start();
    for (nodes, count, rules) in TEXTS {
        let text = texts::text(count, rules);
        read_text(&format!("text 1024 rules, {nodes}"), &text, &mut program);
        if only_equal() {
            texts::damaged(&text).for_each(|text| same_text(&text, &mut program));
        }
    }
}

/// Whether no line is to be timed.
fn only_equal() -> bool {
    std::env::args().any(|word| word == EQUAL)
}

fn read(size: &str, file: &[u32]) {
    assert_eq!(rattle::read(file), 0);
    if let Err(r) = policy::read(file) {
        panic!("refused {} {} {:?}", r.number, r.place, r.law);
    }
    line(
        &format!("read {size}"),
        8,
        || {},
        || {
            rattle::read(black_box(file));
        },
        || {
            let _ = black_box(policy::read(black_box(file)));
        },
    );
}

fn tree(size: &str, file: &[u32]) {
    let (mut ours, mut theirs) = ([7; ACTION_WORDS], [7; ACTION_WORDS]);
    let mut by_rattle = || rattle::tree(black_box(file), black_box(&inputs::PACKET), &mut ours);
    let mut by_rust = || match tree::tree_action(black_box(file), black_box(&inputs::PACKET)) {
        Ok(a) => {
            theirs = action::words(a);
            0
        }
        Err(refusal) => refusal.number,
    };
    assert_eq!(by_rattle(), by_rust());
    line(&format!("tree {size}"), 8, || {}, || _ = by_rattle(), || _ = by_rust());
    assert_eq!(ours, theirs);
}

fn compile(size: &str, file: &[u32]) {
    const ROOM: usize = ROW_WORDS * MOST_ROWS;
    let mut ours = vec![vec![7; ROOM]; 2];
    let mut theirs = ours.clone();
    let (rows, wanted) = {
        let [table, scratch] = &mut ours[..] else {
            unreachable!()
        };
        let [other, more] = &mut theirs[..] else { unreachable!() };
        (
            rattle::compile(file, table, scratch),
            compile::compile(file, other, more).unwrap_or(0),
        )
    };
    assert!(rows > 0, "{size} has no room");
    assert_eq!(rows, wanted);
    assert!(ours == theirs);
    let buffers = std::cell::RefCell::new(ours);
    line(
        &format!("compile {size}"),
        1,
        || buffers.borrow_mut().iter_mut().for_each(|b| b.fill(0)),
        || {
            let [table, scratch] = &mut buffers.borrow_mut()[..] else {
                unreachable!()
            };
            black_box(rattle::compile(black_box(file), table, scratch));
        },
        || {
            let [table, scratch] = &mut buffers.borrow_mut()[..] else {
                unreachable!()
            };
            let _ = black_box(compile::compile(black_box(file), table, scratch));
        },
    );
}

fn scan(size: &str, table: &[u32]) {
    let (mut ours, mut theirs) = ([7; ACTION_WORDS], [7; ACTION_WORDS]);
    let mut by_rattle = || rattle::scan(black_box(table), black_box(&inputs::PACKET), &mut ours);
    let mut by_rust = || match table::scan(black_box(table), black_box(&inputs::PACKET)) {
        Ok((a, tried)) => {
            theirs = action::words(a);
            tried
        }
        Err(_) => 0,
    };
    assert_eq!(by_rattle(), by_rust());
    line(&format!("scan {size}"), 8, || {}, || _ = by_rattle(), || _ = by_rust());
    assert_eq!(ours, theirs);
}

/// The words that are written for the packets, and one more.
fn room(packets: &[u32]) -> usize {
    FOUND_WORDS * (packets.len() / PACKET_WORDS) + 1
}

fn capture(size: &str, table: &[u32], packets: &[u32]) {
    let mut ours = vec![7; room(packets)];
    let mut theirs = ours.clone();
    assert_eq!(
        Ok(rattle::capture(table, packets, &mut ours)),
        capture::capture(table, packets, &mut theirs)
    );
    assert!(ours == theirs);
    let answers = std::cell::RefCell::new(ours);
    let calls = if packets.len() == PACKET_WORDS { 8 } else { 1 };
    line(
        &format!("capture {size}"),
        calls,
        || answers.borrow_mut().fill(0),
        || {
            black_box(rattle::capture(
                black_box(table),
                black_box(packets),
                &mut answers.borrow_mut(),
            ));
        },
        || {
            let _ = black_box(capture::capture(
                black_box(table),
                black_box(packets),
                &mut answers.borrow_mut(),
            ));
        },
    );
}

/// One capture against as many scans of the proved functions.
fn singles(size: &str, table: &[u32], packets: &[u32]) {
    let mut at_once = vec![7; room(packets)];
    let mut one_by_one = at_once.clone();
    let by_capture = |answers: &mut [u32]| rattle::capture(black_box(table), black_box(packets), answers);
    let by_scans = |answers: &mut [u32]| {
        let packets = black_box(packets).as_chunks::<PACKET_WORDS>().0;
        for (packet, found) in packets.iter().zip(answers.as_chunks_mut::<FOUND_WORDS>().0) {
            let (given, tried) = found.split_at_mut(ACTION_WORDS);
            tried[0] = rattle::scan(black_box(table), packet, given) as u32;
        }
        packets.len()
    };
    assert_eq!(by_capture(&mut at_once), by_scans(&mut one_by_one));
    assert!(at_once == one_by_one);
    let answers = std::cell::RefCell::new(at_once);
    line(
        &format!("singles {size}"),
        1,
        || answers.borrow_mut().fill(0),
        || _ = black_box(by_capture(&mut answers.borrow_mut())),
        || _ = black_box(by_scans(&mut answers.borrow_mut())),
    );
}

fn number(size: &str, table: &[u32]) {
    for (name, by_rust) in [
        ("number", number::all_pairs as fn(&[u32], &mut [u32], &mut [u32]) -> _),
        ("number pruned", number::pruned),
    ] {
        let rows = table.len() / ROW_WORDS;
        let mut ours = vec![vec![7; rows + 1]; 2];
        let mut theirs = ours.clone();
        {
            let [priorities, chain] = &mut ours[..] else {
                unreachable!()
            };
            let [other, more] = &mut theirs[..] else { unreachable!() };
            assert_eq!(
                Ok(rattle::number(table, priorities, chain)),
                by_rust(table, other, more)
            );
        }
        assert!(ours == theirs);
        let buffers = std::cell::RefCell::new(ours);
        line(
            &format!("{name} {size}"),
            1,
            || buffers.borrow_mut().iter_mut().for_each(|b| b.fill(0)),
            || {
                let [priorities, chain] = &mut buffers.borrow_mut()[..] else {
                    unreachable!()
                };
                black_box(rattle::number(black_box(table), priorities, chain));
            },
            || {
                let [priorities, chain] = &mut buffers.borrow_mut()[..] else {
                    unreachable!()
                };
                let _ = black_box(by_rust(black_box(table), priorities, chain));
            },
        );
    }
}

fn hidden(size: &str, table: &[u32]) {
    for (name, by_rust) in [
        ("hidden", hidden::all_pairs as fn(&mut [u32]) -> _),
        ("hidden pruned", hidden::pruned),
    ] {
        let (mut ours, mut theirs) = (table.to_vec(), table.to_vec());
        assert_eq!(Ok(rattle::hidden(&mut ours)), by_rust(&mut theirs));
        assert!(ours == theirs);
        let copy = std::cell::RefCell::new(ours);
        line(
            &format!("{name} {size}"),
            1,
            || copy.borrow_mut().copy_from_slice(table),
            || {
                black_box(rattle::hidden(black_box(&mut copy.borrow_mut())));
            },
            || {
                let _ = black_box(by_rust(black_box(&mut copy.borrow_mut())));
            },
        );
    }
}

/// The agent's scan, over bytes, against the proved one over words.
fn agent_scan(size: &str, table: &[u32], behind: usize) {
    let (lent, packet) = (Bytes::of(table, behind), Bytes::of(&inputs::PACKET, behind));
    let mut answer = Bytes::of(&[7; ANSWER_WORDS], behind);
    let mut given = [7; ACTION_WORDS];
    let by_bytes = |answer: &mut [u8]| rattle::agent_scan(black_box(&lent), black_box(&packet), answer);
    let by_words = |given: &mut [u32]| rattle::scan(black_box(table), black_box(&inputs::PACKET), given);
    assert_eq!(by_bytes(&mut answer), 0);
    let tried = by_words(&mut given);
    let by_rust = table::scan(table, &inputs::PACKET).map(|(a, tried)| (action::words(a), tried));
    assert_eq!(Ok((given, tried)), by_rust);
    let [kind, rate] = given;
    assert!(*answer == to_bytes(&[0, kind, rate, tried as u32]));
    line(
        &format!("agent scan {size}"),
        8,
        || {},
        || _ = by_bytes(&mut answer),
        || _ = by_words(&mut given),
    );
}

/// The agent's numbering, over bytes, against the proved one over words.
fn agent_number(size: &str, table: &[u32], behind: usize) {
    let buffer = vec![7; table.len() / ROW_WORDS + 1];
    let lent = Bytes::of(table, behind);
    let mut bytes = [&buffer[..], &buffer, &[7; ANSWER_WORDS]].map(|words| Bytes::of(words, behind));
    let mut words = [buffer.clone(), buffer];
    let mut theirs = words.clone();
    let by_bytes = |[priorities, chain, answer]: &mut [Bytes; 3]| {
        rattle::agent_number(black_box(&lent), priorities, chain, answer)
    };
    let by_words = |[priorities, chain]: &mut [Vec<u32>; 2]| rattle::number(black_box(table), priorities, chain);
    assert_eq!(by_bytes(&mut bytes), 0);
    let count = by_words(&mut words);
    let [priorities, chain] = &mut theirs;
    assert_eq!(Ok(count), number::all_pairs(table, priorities, chain));
    assert!(words == theirs);
    let wanted = [&words[0][..], &words[1], &[0, count, 0, 0]].map(to_bytes);
    assert!(bytes.iter().zip(&wanted).all(|(bytes, wanted)| **bytes == *wanted));
    let buffers = std::cell::RefCell::new((bytes, words));
    line(
        &format!("agent number {size}"),
        1,
        || {
            let (bytes, words) = &mut *buffers.borrow_mut();
            bytes.iter_mut().for_each(|b| b.fill(0));
            words.iter_mut().for_each(|b| b.fill(0));
        },
        || _ = black_box(by_bytes(&mut buffers.borrow_mut().0)),
        || _ = black_box(by_words(&mut buffers.borrow_mut().1)),
    );
}

/// The proved program gives what the hand-written reader gives, all of it and the policy file's words, or the fault and its place.
fn same_text(text: &[u8], program: &mut Program) {
    let by_rust = notation::read(text);
    let (ours, theirs) = (program.read(text), program::words_of(&by_rust));
    let told = if by_rust.is_ok() { ours.len() } else { theirs.len() };
    assert!(ours[..told] == theirs, "{}", String::from_utf8_lossy(text));
}

/// How often the two take turns over a text, each time with so many readings.
const TURNS: usize = 5;

/// The quickest reading of a text by each.
fn read_text(name: &str, text: &[u8], program: &mut Program) {
    same_text(text, program);
    if !wanted(name) {
        return;
    }
    let (mut ours, mut theirs) = (f64::INFINITY, f64::INFINITY);
    for _ in 0..TURNS {
        ours = ours.min(program.time(text));
        for _ in 0..READINGS {
            theirs = theirs.min(timed(1, &mut || _ = black_box(notation::read(black_box(text)))));
        }
    }
    print_line(name, ours, theirs);
}

/// Whether the words given to the program all stand in a line's name; none has the word that asks for no timing.
fn wanted(name: &str) -> bool {
    std::env::args().skip(1).all(|word| name.contains(&word))
}

fn print_line(name: &str, ours: f64, theirs: f64) {
    println!("{name:<34} {ours:>12.0} {theirs:>12.0} {:>6.2}", ours / theirs);
}

/// Runs the two in turn, each time so many calls, with the buffers made ready before and outside the timing, and prints the medians for one call.
fn line(name: &str, calls: u32, ready: impl Fn(), mut rattle: impl FnMut(), mut rust: impl FnMut()) {
    if !wanted(name) {
        return;
    }
    let mut times = (vec![], vec![]);
    let started = Instant::now();
    while times.0.len() < FEWEST || (times.0.len() < MOST && started.elapsed() < BUDGET) {
        ready();
        times.0.push(timed(calls, &mut rattle));
        ready();
        times.1.push(timed(calls, &mut rust));
    }
    let (a, b) = (median(times.0) / calls as f64, median(times.1) / calls as f64);
    print_line(name, a, b);
}

fn timed(calls: u32, f: &mut impl FnMut()) -> f64 {
    let start = Instant::now();
    for _ in 0..calls {
        f();
    }
    start.elapsed().as_nanos() as f64
}

fn median(mut times: Vec<f64>) -> f64 {
    times.sort_by(f64::total_cmp);
    times[times.len() / 2]
}
