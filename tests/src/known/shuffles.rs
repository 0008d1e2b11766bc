//! Known cases of shuffles: the same atoms, or children with their atoms, in another
//! order, and changes that are none. The rows are as many as the sets that are counted.

use super::{
    action, case, chain_of_nodes, compile, listing, node, one_node, open, success, to, Known,
};
use crate::calls::{to_bytes, Call};
use crate::model::action::Action::{self, Allow, Deny, DontCare, Gmb};
use crate::model::edition::{Edition, NEWEST};
use crate::model::fields::Packet;
use crate::model::matches::{Match, Prefix};
use crate::model::record::RawRow;
use crate::policies::Draft;
use crate::sets::shared_sets;
use crate::tables::table_words;

/// The addresses 10.7.0.0 and 10.7.3.9.
const STUDIO: u32 = 168230912;
const SERVER: u32 = 168231689;
const TCP: u32 = 6;
const PING: u32 = 1;

/// Two in-ports are allowed and 10.7.0.0/16 is denied, in the first edition word for word.
/// Of fewer atoms no shuffle has another number of priorities: two make two rows that do
/// not overlap, or three that all do.
const BETWEEN: [u32; 50] = [
    1, //
    1, 2, 4, 2, 2, 2, 3, 2, 5, //
    3, //
    1, 0, 0, 0, 0, 0, 0, 0, 1, 1, 0, //
    0, 0, STUDIO, 0, 0, 0, 0, 16, 0, 2, 0, //
    2, 0, 0, 0, 0, 0, 0, 0, 1, 1, 0, //
    1, //
    0, 0, 0, 3, 0,
];

/// The first two atoms exchanged.
const IN_FRONT: [u32; 50] = [
    1, //
    1, 2, 4, 2, 2, 2, 3, 2, 5, //
    3, //
    0, 0, STUDIO, 0, 0, 0, 0, 16, 0, 2, 0, //
    1, 0, 0, 0, 0, 0, 0, 0, 1, 1, 0, //
    2, 0, 0, 0, 0, 0, 0, 0, 1, 1, 0, //
    1, //
    0, 0, 0, 3, 0,
];

const BETWEEN_LISTING: &str = "rows 5 priorities 4\n\
    4 1 0.0.0.0/0 10.7.0.0/16 * * * deny\n\
    3 1 0.0.0.0/0 0.0.0.0/0 * * * allow\n\
    4 2 0.0.0.0/0 10.7.0.0/16 * * * deny\n\
    2 * 0.0.0.0/0 10.7.0.0/16 * * * deny\n\
    1 2 0.0.0.0/0 0.0.0.0/0 * * * allow\n";

const IN_FRONT_LISTING: &str = "rows 5 priorities 3\n\
    3 1 0.0.0.0/0 10.7.0.0/16 * * * deny\n\
    3 2 0.0.0.0/0 10.7.0.0/16 * * * deny\n\
    2 * 0.0.0.0/0 10.7.0.0/16 * * * deny\n\
    1 1 0.0.0.0/0 0.0.0.0/0 * * * allow\n\
    1 2 0.0.0.0/0 0.0.0.0/0 * * * allow\n";

pub fn cases() -> Vec<Known> {
    let [one, two] = [1, 2].map(|in_port| of_in_port(in_port, Allow));
    let studio = to(Prefix::of(STUDIO, 16), Deny);
    let [both_one, both_two] = [1, 2].map(|in_port| RawRow {
        values: Packet {
            in_port,
            ..studio.values
        },
        flags: one.flags,
        ..studio
    });
    let draft =
        |atoms: &[RawRow]| chain_of_nodes(Edition::First, &[Edition::First.sibling()], &[atoms]);
    assert_eq!(draft(&[one, studio, two]).words(), BETWEEN);
    assert_eq!(draft(&[studio, one, two]).words(), IN_FRONT);

    let between = [both_one, one, both_two, studio, two];
    let in_front = [both_one, both_two, studio, one, two];
    let mut cases = vec![
        rows("a /16 between", &[one, studio, two], &between),
        rows("a /16 in front", &[studio, one, two], &in_front),
        number("4 priorities", &between, &[4, 3, 4, 2, 1], &[0, 1, 3, 4]),
        number("3 priorities", &in_front, &[3, 3, 2, 1, 1], &[0, 2, 3]),
        listing("4 listed", &to_bytes(&BETWEEN), BETWEEN_LISTING),
        listing("3 listed", &to_bytes(&IN_FRONT), IN_FRONT_LISTING),
        rows("two in-ports", &[one, two], &[one, two]),
        rows("two in-ports exchanged", &[two, one], &[two, one]),
    ];
    cases.extend(packets());
    cases.extend(sets());
    cases.extend(children());
    cases
}

fn of_in_port(in_port: u32, action: Action) -> RawRow {
    let (in_port, open) = (Prefix::exactly(in_port), Match::default());
    Match { in_port, ..open }.raw(action)
}

/// The compile of one node, whose rows are as many as the sets of its atoms.
fn rows(name: &'static str, atoms: &[RawRow], rows: &[RawRow]) -> Known {
    assert_eq!(shared_sets(atoms), rows.len(), "{name}");
    compile(name, one_node(atoms), rows)
}

/// Each row's priority, and the chain, which is as long as there are priorities.
fn number(name: &'static str, rows: &[RawRow], priorities: &[u32], chain: &[u32]) -> Known {
    let lent = vec![9; rows.len()];
    let levels = chain.len();
    let numbered = [&[0, 0, levels as u32], priorities, chain, &lent[levels..]].concat();
    let call = Call::Number {
        table: table_words(rows),
        priorities: lent.clone(),
        chain: lent,
    };
    case(name, call, numbered)
}

/// Both files give every packet the same action.
fn packets() -> Vec<Known> {
    let found = [
        (1, SERVER, Deny),
        (1, 0, Allow),
        (2, SERVER, Deny),
        (2, 0, Allow),
        (3, SERVER, Deny),
        (3, 0, DontCare),
    ];
    let mut cases = Vec::new();
    for (in_port, destination, expected) in found {
        let packet = Packet {
            in_port,
            destination,
            ..Packet::default()
        };
        for file in [BETWEEN, IN_FRONT] {
            cases.push(action(
                "a /16 and in-ports",
                file.to_vec(),
                packet,
                expected,
            ));
        }
    }
    cases
}

/// Equal atoms are told apart, and no set has an atom that no packet meets.
fn sets() -> Vec<Known> {
    let atom = of_in_port(1, Allow);
    let to_port = |protocol, port, action| {
        let (protocol, destination_port) = (protocol, port);
        let of = Match {
            protocol,
            destination_port,
            ..Match::default()
        };
        of.raw(action)
    };
    let (any, five) = (Prefix::default(), Prefix::exactly(5));
    let [tcp, ping] = [TCP, PING].map(|protocol| to_port(Prefix::exactly(protocol), any, Allow));
    let port = to_port(any, five, Deny);
    let of_both = to_port(Prefix::exactly(TCP), five, Deny);
    let contradictory = to_port(Prefix::exactly(PING), five, Deny);
    let other = of_in_port(2, Deny);
    vec![
        rows("no atom", &[], &[]),
        rows("an atom three times", &[atom; 3], &[atom; 7]),
        rows("flag 16 between", &[atom, atom.emptied(), atom], &[atom; 3]),
        rows("nothing to count", &[atom.emptied(), contradictory], &[]),
        rows("an atom and another", &[atom, other], &[atom, other]),
        rows(
            "a port with two protocols",
            &[port, ping, tcp],
            &[of_both, port, ping, tcp],
        ),
        rows(
            "a port behind two protocols",
            &[ping, contradictory, tcp, port],
            &[ping, of_both, tcp, port],
        ),
    ]
}

/// Nodes and atoms in file order: how many atoms and children each node has, and their
/// actions. They constrain nothing.
fn tree(nodes: &[(usize, usize)], actions: &[Action]) -> Vec<u32> {
    let operators = [NEWEST.sibling(), NEWEST.parent()];
    let nodes = nodes.iter();
    let nodes = nodes.map(|(atoms, children)| node(&operators, *atoms, *children));
    let draft = Draft {
        edition: NEWEST,
        nodes: nodes.collect(),
        atoms: actions.iter().copied().map(open).collect(),
        operators: operators.to_vec(),
    };
    draft.words()
}

/// Of a root's two children one denies, and its own child allows; the other reserves a
/// rate. Their exchange with all that is below them keeps the action.
fn children() -> Vec<Known> {
    let rate = Gmb(10);
    let nodes = [(0, 2), (1, 1), (1, 0), (1, 0)];
    let exchanged = [(0, 2), (1, 0), (1, 1), (1, 0)];
    let moved = [(0, 2), (2, 1), (0, 0), (1, 0)];
    let before = tree(&nodes, &[Deny, Allow, rate]);
    let after = tree(&exchanged, &[rate, Deny, Allow]);
    let without_atoms = tree(&exchanged, &[Deny, Allow, rate]);
    let atom_moved = tree(&moved, &[Deny, Allow, rate]);
    let turned = tree(&nodes, &[Allow, Deny, rate]);
    let of = |name, file: &[u32], found| action(name, file.to_vec(), Packet::default(), found);
    let [rows_before, rows_after] = [
        [rate, Deny, rate, Allow, Deny, Allow, rate],
        [rate, Deny, rate, rate, Allow, Deny, Allow],
    ]
    .map(|actions| actions.map(open));
    let read = |file: &[u32]| Call::Read {
        file: file.to_vec(),
    };
    vec![
        case("children read", read(&before), success(&[2, 3, 4])),
        case("exchanged children read", read(&after), success(&[2, 3, 4])),
        of("two children", &before, rate),
        of("two children exchanged", &after, rate),
        compile("rows of two children", before, &rows_before),
        compile("rows of children exchanged", after, &rows_after),
        of("exchanged without their atoms", &without_atoms, Deny),
        of("an atom moved to its parent", &atom_moved, Deny),
        of("two sides exchanged", &turned, Deny),
    ]
}
