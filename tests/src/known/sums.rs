//! Known cases of sums of rates, of the cap on them, and of the code that gives them.

use super::{
    action, broken, case, chain_of_nodes, compile, listing, node, open, refused, success, to, Known,
};
use crate::calls::{to_bytes, Call, READ_COUNTS};
use crate::model::action::Action::{self, Allow, Deny, DontCare, Gmb};
use crate::model::edition::{Edition, MOST_ATOMS, NEWEST};
use crate::model::fields::Packet;
use crate::model::matches::Prefix;
use crate::model::numbers::WRONG_CELL;
use crate::model::operator::GIVE_SUM;
use crate::model::record::RawRow;
use crate::policies::Draft;

/// The cap, its half, and a rate that goes beyond it when it is added to itself.
const CAP: u32 = 100_000_000;
const HALF: u32 = 50_000_000;
const SIXTY: u32 = 60_000_000;

/// The addresses 10.7.0.0 and 10.7.3.9.
const STUDIO: u32 = 168230912;
const SERVER: u32 = 168231689;

const CELLS: usize = NEWEST.operator_words();
/// The cell where both sides are GMBs, the ninth.
const NINTH: usize = CELLS - 1;

/// Sibling and parent, with sums; the second keeps no law.
const ADDING: [u32; CELLS] = [1, 2, 4, 2, 2, 2, 3, 2, 7];
const ADDING_BELOW: [u32; CELLS] = [1, 2, 4, 1, 2, 4, 3, 2, 7];
/// Commutative, but not associative.
const UNLAWFUL: [u32; CELLS] = [1, 1, 4, 1, 2, 2, 3, 2, 7];
/// Allows what a node and its children deny, and denies a rate below an Allow.
const CONTRARY: [u32; CELLS] = [3, 1, 2, 4, 1, 2, 1, 1, 7];

/// A studio denies 10.7.0.0/16, and two teams of it each reserve 10,000 kbit/s to the
/// server 10.7.3.9 inside it; in the first edition word for word.
const TEAMS: [u32; 69] = [
    2, //
    1, 2, 4, 2, 2, 2, 3, 2, 7, //
    1, 2, 4, 1, 2, 4, 3, 2, 5, //
    3, //
    0, 0, STUDIO, 0, 0, 0, 0, 16, 0, 2, 0, //
    0, 0, SERVER, 0, 0, 0, 0, 32, 0, 3, 10000, //
    0, 0, SERVER, 0, 0, 0, 0, 32, 0, 3, 10000, //
    3,     //
    0, 1, 0, 1, 2, //
    0, 1, 0, 1, 0, //
    0, 1, 0, 1, 0,
];

const TEAMS_LISTING: &str = "rows 2 priorities 2\n\
    2 * 0.0.0.0/0 10.7.3.9/32 * * * gmb 20000\n\
    1 * 0.0.0.0/0 10.7.0.0/16 * * * deny\n";

const CAP_LISTING: &str = "rows 1 priorities 1\n\
    1 * 0.0.0.0/0 0.0.0.0/0 * * * gmb 100000000\n";

pub fn cases() -> Vec<Known> {
    let mut cases = teams();
    cases.extend(at_the_cap());
    cases.extend(beyond_32_bits());
    cases.extend(rows_at_the_cap());
    cases.extend(wrong_codes());
    cases.extend(for_parents_only());
    cases
}

fn server(rate: u32) -> RawRow {
    to(Prefix::exactly(SERVER), Gmb(rate))
}

fn teams() -> Vec<Known> {
    let studio = to(Prefix::of(STUDIO, 16), Deny);
    let operators = [ADDING.to_vec(), NEWEST.parent()];
    let draft = Draft {
        edition: Edition::First,
        atoms: vec![studio, server(10_000), server(10_000)],
        nodes: [2, 0, 0].map(|teams| node(&operators, 1, teams)).to_vec(),
        operators: operators.to_vec(),
    };
    let file = draft.words();
    assert_eq!(file, TEAMS);
    let below = [20_000, 10_000, 10_000].map(server);
    let rows = [&below[..], &[studio], &below].concat();
    let one = |name, destination, found| {
        let packet = Packet {
            destination,
            ..Packet::default()
        };
        action(name, file.clone(), packet, found)
    };
    vec![
        one("two teams, their server", SERVER, Gmb(20_000)),
        one("two teams, the next server", SERVER + 1, Deny),
        one("two teams, elsewhere", 168296449, DontCare),
        compile("two teams compiled", file.clone(), &rows),
        listing("two teams listed", &to_bytes(&file), TEAMS_LISTING),
    ]
}

/// Atoms of one node that constrain nothing.
fn inside(actions: &[Action]) -> Vec<u32> {
    let atoms: Vec<RawRow> = actions.iter().copied().map(open).collect();
    chain_of_nodes(NEWEST, &[ADDING.to_vec()], &[&atoms]).words()
}

/// The same of nodes with one atom each, below one another.
fn chained(actions: &[Action]) -> Draft {
    let atoms: Vec<RawRow> = actions.iter().copied().map(open).collect();
    let nodes: Vec<&[RawRow]> = atoms.chunks(1).collect();
    chain_of_nodes(NEWEST, &[ADDING.to_vec()], &nodes)
}

/// The same, side by side below a node without atoms.
fn side_by_side(actions: &[Action]) -> Vec<u32> {
    let mut draft = chained(actions);
    for node in &mut draft.nodes {
        node.children = 0;
    }
    draft
        .nodes
        .insert(0, node(&draft.operators, 0, actions.len()));
    draft.words()
}

fn at_the_cap() -> Vec<Known> {
    let mut cases = Vec::new();
    let mut of = |name, actions: &[Action], sum| {
        let chain = chained(actions).words();
        for file in [inside(actions), side_by_side(actions), chain] {
            cases.push(action(name, file, Packet::default(), sum));
        }
    };
    let rates = |rates: [u32; 3]| rates.map(Gmb);
    let [most, half, sixty] = rates([CAP, HALF, SIXTY]);
    of("two rates", &[Gmb(1), Gmb(2)], Gmb(3));
    of(
        "one less than the cap",
        &[Gmb(1), Gmb(CAP - 2)],
        Gmb(CAP - 1),
    );
    of("halves less one", &[half, Gmb(HALF - 1)], Gmb(CAP - 1));
    of("two halves of the cap", &[half, half], most);
    of("1 to the cap", &[Gmb(1), Gmb(CAP - 1)], most);
    of("the cap from 1", &[Gmb(CAP - 1), Gmb(1)], most);
    of("halves and one", &[half, Gmb(HALF + 1)], most);
    of("one more than the cap", &[Gmb(CAP - 1), Gmb(2)], most);
    of("60,000,000 twice", &[sixty, sixty], most);
    of("1 beyond the cap", &[most, Gmb(1)], most);
    of("the cap twice", &[most, most], most);
    of("60,000,000 three times", &[sixty, sixty, sixty], most);
    let thirds = [33_333_333, 33_333_333, 33_333_333];
    of(
        "three to one less than the cap",
        &rates(thirds),
        Gmb(CAP - 1),
    );
    of(
        "three to the cap",
        &rates([33_333_333, 33_333_334, 33_333_333]),
        most,
    );
    of("two to the cap, and 1", &rates([1, HALF, HALF]), most);
    of(
        "beyond it with the first",
        &rates([40_000_000, HALF, 20_000_000]),
        most,
    );
    of(
        "beyond it with the last",
        &rates([20_000_000, HALF, SIXTY]),
        most,
    );
    of("an Allow between", &[sixty, Allow, sixty], most);
    of("a Deny between", &[sixty, Deny, sixty], Deny);
    cases
}

/// So many of the largest rate that 32 bits do not hold their sum.
fn beyond_32_bits() -> Vec<Known> {
    let most = Gmb(CAP);
    let of = |name, count| {
        let file = inside(&vec![most; count]);
        action(name, file, Packet::default(), most)
    };
    vec![
        of("the cap 43 times", 43),
        of("the cap for all atoms", MOST_ATOMS),
    ]
}

/// One node's rows: the first atom with those below, the first, and those below.
fn rows_at_the_cap() -> Vec<Known> {
    let of = |name, [a, b, c]: [u32; 3], rows: [u32; 7]| {
        let rows = rows.map(|rate| open(Gmb(rate)));
        compile(name, inside(&[a, b, c].map(Gmb)), &rows)
    };
    let three = inside(&[Gmb(SIXTY); 3]);
    vec![
        of(
            "rows of 60,000,000",
            [SIXTY; 3],
            [CAP, CAP, CAP, SIXTY, CAP, SIXTY, SIXTY],
        ),
        of(
            "rows below and beyond the cap",
            [40_000_000, HALF, 20_000_000],
            [
                CAP, 90_000_000, SIXTY, 40_000_000, 70_000_000, HALF, 20_000_000,
            ],
        ),
        of(
            "rows of halves of the cap",
            [HALF, HALF - 1, HALF],
            [CAP, CAP - 1, CAP, HALF, CAP - 1, HALF - 1, HALF],
        ),
        listing("60,000,000 listed", &to_bytes(&three), CAP_LISTING),
    ]
}

/// Sums in each of the first eight cells, and a code beyond them in the ninth, of the
/// first operator and of the second.
fn wrong_codes() -> Vec<Known> {
    let mut cases = Vec::new();
    for operator in 0..2 {
        let mut of = |name, cell: usize, code| {
            let mut operators = [ADDING.to_vec(), ADDING.to_vec()];
            operators[operator][cell] = code;
            let file = chain_of_nodes(NEWEST, &operators, &[&[]]).words();
            let place = (1 + CELLS * operator + cell) as u32;
            let answer = refused(WRONG_CELL, place, READ_COUNTS);
            cases.push(case(name, Call::Read { file }, answer));
        };
        for cell in 0..NINTH {
            of("7 in another cell", cell, GIVE_SUM);
        }
        of("8 in the ninth cell", NINTH, GIVE_SUM + 1);
    }
    cases
}

/// The search passes over operators that are named as parent only.
fn for_parents_only() -> Vec<Known> {
    let read = |name, draft: &Draft, answer| {
        let file = draft.words();
        case(name, Call::Read { file }, answer)
    };
    let mut cases = Vec::new();
    let mut of = |name, parent: [u32; CELLS], studio, team, found| {
        let atoms = [open(studio), open(team)];
        let operators = [NEWEST.sibling(), parent.to_vec()];
        let draft = chain_of_nodes(NEWEST, &operators, &[&atoms[..1], &atoms[1..]]);
        cases.push(read(name, &draft, success(&[2, 2, 2])));
        cases.push(action(name, draft.words(), Packet::default(), found));
    };
    let (sixty, cap) = (Gmb(SIXTY), Gmb(CAP));
    of("a sum for parents", ADDING_BELOW, Gmb(30), Gmb(10), Gmb(40));
    of("the cap for parents", ADDING_BELOW, sixty, sixty, cap);
    of("a rate under a Deny", ADDING_BELOW, Deny, Gmb(10), Gmb(10));
    of("a sum of a contrary", CONTRARY, Gmb(30), Gmb(10), Gmb(40));
    of("Denies of a contrary", CONTRARY, Deny, Deny, Allow);
    of("an Allow of a contrary", CONTRARY, Allow, Gmb(10), Deny);
    let empty = |operators: [[u32; CELLS]; 2]| {
        let operators = operators.map(|cells| cells.to_vec());
        chain_of_nodes(NEWEST, &operators, &[&[]])
    };
    let [mut inner, mut sibling] = [(); 2].map(|_| empty([ADDING, ADDING_BELOW]));
    (inner.nodes[0].inner, sibling.nodes[0].sibling) = (1, 1);
    let deny_allow = broken(1, 1, [Allow, Deny, DontCare]);
    let unlawful = broken(0, 2, [Allow, Deny, Gmb(1)]);
    cases.push(read(
        "sums for siblings",
        &empty([ADDING; 2]),
        success(&[2, 0, 1]),
    ));
    for draft in [inner, sibling] {
        cases.push(read(
            "sums not for parents only",
            &draft,
            deny_allow.clone(),
        ));
    }
    cases.push(read("unlawful sums", &empty([UNLAWFUL, ADDING]), unlawful));
    cases
}
