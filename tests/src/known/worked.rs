//! The worked cases of the scope.

use super::{
    action, broken, case, chain_of_nodes, listing, one_node, open, refused, success, to, Known,
};
use crate::calls::{to_bytes, Call, READ_COUNTS};
use crate::model::action::Action::{self, Allow, Deny, DontCare, Gmb};
use crate::model::edition::{Edition, NEWEST, ROW_WORDS};
use crate::model::fields::Packet;
use crate::model::matches::{Match, Prefix};
use crate::model::numbers::ENDS_EARLY;
use crate::model::record::RawRow;
use crate::policies::Draft;
use crate::tables::table_words;

/// The tenant's file in the first edition, word for word.
const TENANT: [u32; 53] = [
    2, //
    1, 2, 4, 2, 2, 2, 3, 2, 5, //
    1, 2, 4, 1, 2, 4, 3, 2, 5, //
    2, //
    0, 0, 168230912, 0, 0, 0, 0, 16, 0, 2, 0, //
    0, 0, 168231689, 0, 0, 0, 0, 32, 0, 3, 40000, //
    2,     //
    0, 1, 0, 1, 1, //
    0, 1, 0, 1, 0,
];

const TENANT_LISTING: &str = "rows 2 priorities 2\n\
    2 * 0.0.0.0/0 10.7.3.9/32 * * * gmb 40000\n\
    1 * 0.0.0.0/0 10.7.0.0/16 * * * deny\n";

/// Rows of the first edition, word for word: all values constrained, and one
/// pair of numbers and another, which tells the flags apart.
const ROWS: [[u32; Edition::First.atom_words()]; 3] = [
    [7, 167772160, 168230912, 6, 80, 443, 8, 16, 15, 3, 40000],
    [7, 167772160, 168230912, 6, 0, 0, 8, 16, 3, 1, 0],
    [7, 167772160, 168230912, 0, 80, 0, 8, 16, 5, 2, 0],
];

/// Commutative, but not associative.
const UNLAWFUL: [u32; NEWEST.operator_words()] = [1, 1, 4, 1, 2, 2, 3, 2, 5];

const ANY_PACKET: Packet = Packet {
    in_port: 7,
    source: 1,
    destination: 2,
    protocol: 6,
    source_port: 80,
    destination_port: 443,
};

pub fn cases() -> Vec<Known> {
    written_as_it_must_be();
    let mut cases = operators();
    cases.extend(one_empty_node());
    cases.extend(tenant());
    cases.extend(laws());
    cases.extend(empty_file());
    cases
}

/// What is built by name is written as it stands above.
fn written_as_it_must_be() {
    assert_eq!(tenant_draft(Edition::First).words(), TENANT);
    let addresses = Match {
        in_port: Prefix::exactly(7),
        source: Prefix::of(167772160, 8),
        destination: Prefix::of(168230912, 16),
        ..Match::default()
    };
    let of_protocol = Match {
        protocol: Prefix::exactly(6),
        ..addresses
    };
    let from_port = Match {
        source_port: Prefix::exactly(80),
        ..addresses
    };
    let all = Match {
        source_port: Prefix::exactly(80),
        destination_port: Prefix::exactly(443),
        ..of_protocol
    };
    let rows = [
        all.raw(Gmb(40000)),
        of_protocol.raw(Allow),
        from_port.raw(Deny),
    ];
    assert_eq!(rows.map(|row| row.words(Edition::First)), ROWS);
}

fn operators() -> Vec<Known> {
    let of = |name, nodes: &[&[Action]], expected| {
        let atoms = |actions: &&[Action]| actions.iter().map(|one| open(*one)).collect();
        let nodes: Vec<Vec<RawRow>> = nodes.iter().map(atoms).collect();
        let nodes: Vec<&[RawRow]> = nodes.iter().map(Vec::as_slice).collect();
        let file = chain_of_nodes(NEWEST, &[NEWEST.sibling(), NEWEST.parent()], &nodes);
        action(name, file.words(), ANY_PACKET, expected)
    };
    vec![
        of("K1", &[&[Gmb(10), Allow]], Gmb(10)),
        of("K1 turned", &[&[Allow, Gmb(10)]], Gmb(10)),
        of("K2", &[&[Gmb(30), Gmb(10)]], Gmb(30)),
        of("K2 turned", &[&[Gmb(10), Gmb(30)]], Gmb(30)),
        of("K3", &[&[Deny], &[Allow]], Allow),
        of("K3 turned", &[&[Allow], &[Deny]], Deny),
        of("K4 first half", &[&[Gmb(5)], &[Deny]], Deny),
        of("K4 second half", &[&[Gmb(5)], &[Allow]], Gmb(5)),
        of("K4 as a tree", &[&[Gmb(5)], &[Deny], &[Allow]], Gmb(5)),
        of("parent, Allow with GMB", &[&[Allow], &[Gmb(9)]], Gmb(9)),
    ]
}

fn one_empty_node() -> Vec<Known> {
    let file = one_node(&[]);
    let read = Call::Read { file: file.clone() };
    let (table, scratch) = (2 * ROW_WORDS + 1, 3 * ROW_WORDS - 3);
    let compile = Call::Compile {
        file: file.clone(),
        table: vec![9; table],
        scratch: vec![8; scratch],
    };
    let number = Call::Number {
        table: vec![],
        priorities: vec![5],
        chain: vec![6, 7],
    };
    let scan = Call::Scan {
        table: vec![],
        packet: ANY_PACKET.words(NEWEST),
    };
    let compiled = success(&vec![0; 1 + table + scratch]);
    vec![
        case("K5 read", read, success(&[1, 0, 1])),
        case("K5 compile", compile, compiled),
        case("K5 number", number, vec![0, 0, 0, 5, 6, 7]),
        case("K5 scan", scan, vec![0, 0, 0, 0, 0]),
        action("K5 action", file.clone(), ANY_PACKET, DontCare),
        listing("K5 listing", &to_bytes(&file), "rows 0 priorities 0\n"),
    ]
}

/// The studio denies 10.7.0.0/16, and its team reserves a rate to 10.7.3.9 inside it.
fn tenant_draft(edition: Edition) -> Draft {
    let atoms = [
        to(Prefix::of(168230912, 16), Deny),
        to(Prefix::exactly(168231689), Gmb(40000)),
    ];
    let operators = [edition.sibling(), edition.parent()];
    chain_of_nodes(edition, &operators, &[&atoms[..1], &atoms[1..]])
}

/// The tenant's three rows in scan order.
fn tenant_rows() -> Vec<u32> {
    let atoms = tenant_draft(NEWEST).atoms;
    table_words(&[atoms[1], atoms[0], atoms[1]])
}

fn tenant() -> Vec<Known> {
    let file = tenant_draft(NEWEST).words();
    let rows = tenant_rows();
    let scratch = rows.len();
    let compiled = [&[3][..], &rows, &[0; 7], &vec![0; scratch]].concat();
    let (stay, hidden) = rows.split_at(2 * ROW_WORDS);
    let without_hidden = [&[0, 0, 2][..], stay, &vec![0; hidden.len()]].concat();
    let mut cases = vec![
        case(
            "tenant's file",
            Call::Read { file: file.clone() },
            success(&[2, 2, 2]),
        ),
        listing("tenant's listing", &to_bytes(&file), TENANT_LISTING),
        case(
            "K9 rows",
            Call::Compile {
                file: file.clone(),
                table: vec![77; rows.len() + 7],
                scratch: vec![88; scratch],
            },
            success(&compiled),
        ),
        case(
            "K9 hidden rows",
            Call::Hidden {
                table: rows.clone(),
            },
            without_hidden,
        ),
        case(
            "K9 priorities and chain",
            Call::Number {
                table: rows,
                priorities: vec![9; 4],
                chain: vec![9; 5],
            },
            vec![0, 0, 3, 3, 2, 1, 9, 0, 1, 2, 9, 9],
        ),
    ];
    cases.extend(tenant_packets());
    cases
}

fn tenant_packets() -> Vec<Known> {
    let packets = [
        ("K6", 168231689, Gmb(40000), 1),
        ("K7", 168231690, Deny, 2),
        ("K8", 168296449, DontCare, 3),
    ];
    let mut cases = Vec::new();
    for (name, destination, expected, tried) in packets {
        let zeros = Packet::default();
        let packet = Packet {
            destination,
            ..zeros
        };
        let [kind, rate] = expected.words();
        let scan = Call::Scan {
            table: tenant_rows(),
            packet: packet.words(NEWEST),
        };
        cases.push(action(name, tenant_draft(NEWEST).words(), packet, expected));
        cases.push(case(name, scan, vec![0, 0, kind, rate, tried]));
    }
    cases
}

fn laws() -> Vec<Known> {
    let mut inside = tenant_draft(NEWEST);
    inside.nodes[0].inner = 1;
    let inside = inside.words();
    let unlawful = chain_of_nodes(NEWEST, &[UNLAWFUL.to_vec()], &[&[]]).words();
    let listed = to_bytes(&inside);
    let (k10, k11) = (Call::Read { file: inside }, Call::Read { file: unlawful });
    vec![
        case("K10", k10, broken(1, 1, [Allow, Deny, DontCare])),
        listing("K10 listing", &listed, "refused 10 1\n"),
        case("K11", k11, broken(0, 2, [Allow, Deny, Gmb(1)])),
    ]
}

fn empty_file() -> Vec<Known> {
    let read = Call::Read { file: vec![] };
    vec![
        case("K12", read, refused(ENDS_EARLY, 0, READ_COUNTS)),
        listing("K12 listing", &[], "refused 1 0\n"),
        listing("one byte", &[1], "refused 18 0\n"),
    ]
}
