//! Known cases of ports, which packets of protocols 6 and 17 have and no others.

use super::hidden::pass;
use super::{
    action, case, chain_of_nodes, compile, listing, one_node, open, refused, success, Known,
};
use crate::calls::{to_bytes, Call, READ_COUNTS};
use crate::model::action::Action::{self, Allow, Deny, DontCare};
use crate::model::action::ACTION_WORDS;
use crate::model::edition::{Edition, NEWEST, ROW_WORDS};
use crate::model::fields::{Packet, MOST_PORT};
use crate::model::matches::{Match, Prefix};
use crate::model::numbers::{WRONG_MATCH, WRONG_PACKET, WRONG_ROW};
use crate::model::record::{RawRow, EMPTY};
use crate::policies::Draft;
use crate::tables::table_words;

const PING: u32 = 1;
const TCP: u32 = 6;
const UDP: u32 = 17;
/// Protocols without ports, SCTP (132) among them.
const OTHERS: [u32; 8] = [0, PING, 5, 7, 16, 18, 132, 255];

/// Source port 0 is denied and pings are allowed, in the first edition word for
/// word. The last atom asks for a ping with source port 0.
const PINGS: [u32; 64] = [
    2, //
    1, 2, 4, 2, 2, 2, 3, 2, 5, //
    1, 2, 4, 1, 2, 4, 3, 2, 5, //
    3, //
    0, 0, 0, 0, 0, 0, 0, 0, 4, 2, 0, //
    0, 0, 0, 1, 0, 0, 0, 0, 2, 1, 0, //
    0, 0, 0, 1, 0, 0, 0, 0, 6, 2, 0, //
    2, //
    0, 1, 0, 1, 1, //
    0, 1, 0, 2, 0,
];

const PINGS_LISTING: &str = "rows 2 priorities 1\n\
    1 * 0.0.0.0/0 0.0.0.0/0 * 0 * deny\n\
    1 * 0.0.0.0/0 0.0.0.0/0 1 * * allow\n";

const TCP_AND_PORT_LISTING: &str = "rows 3 priorities 3\n\
    3 * 0.0.0.0/0 0.0.0.0/0 6 * 5 deny\n\
    2 * 0.0.0.0/0 0.0.0.0/0 6 * * allow\n\
    1 * 0.0.0.0/0 0.0.0.0/0 * * 5 deny\n";

pub fn cases() -> Vec<Known> {
    assert_eq!(pings(Edition::First).words(), PINGS);
    let mut cases = port_0();
    cases.extend(compiles());
    cases.extend(pings_policy());
    cases.extend(right_rows());
    cases.extend(contradictory_rows());
    cases.extend(flag_beside_others());
    cases.extend(hidden_rows());
    cases.extend(numberings());
    cases.extend(wrong_packets());
    cases
}

/// A protocol alone, a source port alone and a destination port alone.
fn of(protocol: u32) -> Match {
    let (protocol, open) = (Prefix::exactly(protocol), Match::default());
    Match { protocol, ..open }
}

fn from_port(source_port: u32) -> Match {
    Match::default().and_from(source_port)
}

fn to_port(destination_port: u32) -> Match {
    Match::default().and_to(destination_port)
}

/// A port besides, which may contradict the protocol.
impl Match {
    fn and_from(self, source_port: u32) -> Match {
        let source_port = Prefix::exactly(source_port);
        Match {
            source_port,
            ..self
        }
    }

    fn and_to(self, destination_port: u32) -> Match {
        let destination_port = Prefix::exactly(destination_port);
        Match {
            destination_port,
            ..self
        }
    }
}

fn packet(protocol: u32, source_port: u32, destination_port: u32) -> Packet {
    Packet {
        protocol,
        source_port,
        destination_port,
        ..Packet::default()
    }
}

/// A scan that finds an action after so many rows.
fn scan(name: &'static str, rows: &[RawRow], packet: Packet, found: (Action, u32)) -> Known {
    let ([kind, rate], tried) = (found.0.words(), found.1);
    let call = Call::Scan {
        table: table_words(rows),
        packet: packet.words(NEWEST),
    };
    case(name, call, vec![0, 0, kind, rate, tried])
}

/// A numbering in buffers of a word more than there are rows.
fn numbering(name: &'static str, rows: &[RawRow], priorities: &[u32], chain: &[u32]) -> Known {
    let levels = chain.len() as u32;
    let mut chain = chain.to_vec();
    chain.resize(rows.len() + 1, 9);
    let answer = [&[0, 0, levels][..], priorities, &[9], &chain].concat();
    let call = Call::Number {
        table: table_words(rows),
        priorities: vec![9; rows.len() + 1],
        chain: vec![9; rows.len() + 1],
    };
    case(name, call, answer)
}

/// One atom for source port 0, of which a ping knows nothing.
fn port_0() -> Vec<Known> {
    let row = from_port(0).raw(Deny);
    let file = one_node(&[row]);
    let mut packets = vec![
        (packet(TCP, 0, 0), Deny),
        (packet(UDP, 0, 0), Deny),
        (packet(TCP, 1, 0), DontCare),
        (packet(UDP, 1, 0), DontCare),
        (packet(PING, 1, 0), DontCare),
    ];
    packets.extend(OTHERS.map(|protocol| (packet(protocol, 0, 0), DontCare)));
    let mut cases = vec![compile("port 0 compiled", file.clone(), &[row])];
    for (packet, found) in packets {
        cases.push(action("port 0, the tree", file.clone(), packet, found));
        cases.push(scan("port 0, the scan", &[row], packet, (found, 1)));
    }
    cases
}

/// What one node's atoms have in common, and what they have not.
fn compiles() -> Vec<Known> {
    let wide = open(Allow);
    let mut cases = Vec::new();
    for protocol in OTHERS {
        let (only, to_5) = (of(protocol).raw(Allow), to_port(5).raw(Deny));
        let apart = [only, to_5];
        cases.push(compile("a protocol and a port", one_node(&apart), &apart));
        cases.push(numbering("one priority", &apart, &[1, 1], &[0]));
        let from = of(protocol).and_from(0);
        for none in [from, of(protocol).and_to(5), from.and_to(5)] {
            let none = none.raw(Deny);
            for atoms in [[none, wide], [wide, none]] {
                let file = one_node(&atoms);
                let read = Call::Read { file: file.clone() };
                let (name, met) = ("contradictory atom", packet(protocol, 0, 5));
                cases.push(case(name, read, success(&[1, 2, 1])));
                cases.push(compile(name, file.clone(), &[wide]));
                cases.push(action(name, file, met, Allow));
            }
        }
    }
    for protocol in [TCP, UDP] {
        let (only, to_5) = (of(protocol).raw(Deny), to_port(5).raw(Deny));
        let rows = [of(protocol).and_to(5).raw(Deny), only, to_5];
        cases.push(compile("TCP and a port", one_node(&[only, to_5]), &rows));
        cases.push(numbering("three priorities", &rows, &[3, 2, 1], &[0, 1, 2]));
    }
    cases
}

fn pings(edition: Edition) -> Draft {
    let atoms = [
        from_port(0).raw(Deny),
        of(PING).raw(Allow),
        of(PING).and_from(0).raw(Deny),
    ];
    let operators = [edition.sibling(), edition.parent()];
    chain_of_nodes(edition, &operators, &[&atoms[..1], &atoms[1..]])
}

fn pings_policy() -> Vec<Known> {
    let draft = pings(NEWEST);
    let (file, rows) = (draft.words(), &draft.atoms[..2]);
    let read = Call::Read { file: file.clone() };
    let one = |packet, found| action("pings, the tree", file.clone(), packet, found);
    let (tcp, to_5) = (of(TCP).raw(Allow), to_port(5).raw(Deny));
    vec![
        case("pings read", read, success(&[2, 3, 2])),
        compile("pings compiled", file.clone(), rows),
        one(packet(PING, 0, 0), Allow),
        one(packet(PING, 80, 80), Allow),
        one(packet(TCP, 0, 80), Deny),
        one(packet(UDP, 0, 0), Deny),
        one(packet(UDP, 80, 0), DontCare),
        one(packet(0, 0, 0), DontCare),
        listing("pings listed", &to_bytes(&file), PINGS_LISTING),
        listing(
            "TCP and a port listed",
            &to_bytes(&one_node(&[tcp, to_5])),
            TCP_AND_PORT_LISTING,
        ),
    ]
}

/// The three answers to a table of which this row is wrong.
fn refused_tables(name: &'static str, rows: &[RawRow], place: u32) -> Vec<Known> {
    let table = table_words(rows);
    let scan = Call::Scan {
        table: table.clone(),
        packet: packet(TCP, 0, 5).words(NEWEST),
    };
    let number = Call::Number {
        table: table.clone(),
        priorities: vec![9; rows.len()],
        chain: vec![8; rows.len()],
    };
    let (nines, eights) = (vec![9; rows.len()], vec![8; rows.len()]);
    let front = [WRONG_ROW, place];
    let numbered = [&front[..], &[0], &nines, &eights].concat();
    let passed = [&front[..], &[0], &table].concat();
    vec![
        case(name, scan, [&front[..], &[0, 0, 0]].concat()),
        case(name, number, numbered),
        case(name, Call::Hidden { table }, passed),
    ]
}

/// Ports with a protocol that has them, and with none.
fn right_rows() -> Vec<Known> {
    let (found, missed) = ((Allow, 1), (Deny, 2));
    let rows_and_scans = [
        (Match::default(), found, found),
        (of(TCP), found, missed),
        (of(UDP), missed, found),
    ];
    let mut cases = Vec::new();
    for (matching, by_tcp, by_udp) in rows_and_scans {
        for matching in [matching.and_from(0), matching.and_to(5)] {
            let rows = [matching.raw(Allow), open(Deny)];
            let scan = |name, protocol, found| scan(name, &rows, packet(protocol, 0, 5), found);
            cases.push(pass("a right row with a port", &rows, &[0, 1]));
            cases.push(numbering("a right row numbered", &rows, &[2, 1], &[0, 1]));
            cases.push(scan("a right row, TCP", TCP, by_tcp));
            cases.push(scan("a right row, UDP", UDP, by_udp));
            cases.push(scan("a right row, a ping", PING, missed));
        }
    }
    cases
}

/// Ports with a protocol that has none, in the first row and in the last.
fn contradictory_rows() -> Vec<Known> {
    let wide = open(Allow);
    let mut cases = Vec::new();
    for protocol in OTHERS {
        let from = of(protocol).and_from(0);
        for matching in [from, of(protocol).and_to(5), from.and_to(5)] {
            let wrong = matching.raw(Deny);
            let (first, last) = ([wrong, wide, wrong], [wide, wide, wrong]);
            cases.extend(refused_tables("contradictory row first", &first, 0));
            cases.extend(refused_tables("contradictory row last", &last, 2));
        }
    }
    cases
}

/// The flag of the empty match beside those of ports.
fn flag_beside_others() -> Vec<Known> {
    let mut cases = Vec::new();
    for matching in [
        to_port(5),
        from_port(0),
        of(PING).and_to(5),
        of(TCP).and_from(0),
    ] {
        let mut row = matching.raw(Deny);
        row.flags |= EMPTY;
        let read = Call::Read {
            file: one_node(&[open(Allow), row]),
        };
        let place = 11 + ROW_WORDS as u32;
        let answer = refused(WRONG_MATCH, place, READ_COUNTS);
        cases.push(case("the empty flag and a port, read", read, answer));
        let rows = [open(Allow), row];
        cases.extend(refused_tables("the empty flag and a port", &rows, 1));
    }
    cases
}

fn hidden_rows() -> Vec<Known> {
    let [ping, tcp, udp] = [PING, TCP, UDP].map(|protocol| of(protocol).raw(Allow));
    let (to_5, from_7) = (to_port(5).raw(Deny), from_port(7).raw(Deny));
    let [tcp_to_5, udp_to_5] = [TCP, UDP].map(|protocol| of(protocol).and_to(5).raw(Deny));
    let both = from_port(7).and_to(5).raw(Allow);
    let all = [open(Deny), ping, tcp, udp, to_5, from_7, tcp_to_5, both];
    vec![
        pass("a port behind TCP", &[tcp, to_5], &[0, 1]),
        pass("a port behind UDP", &[udp, to_5], &[0, 1]),
        pass(
            "a port behind TCP and UDP",
            &[tcp, udp, to_5, udp_to_5],
            &[0, 1, 2],
        ),
        pass(
            "a port behind its two halves",
            &[tcp_to_5, udp_to_5, to_5],
            &[0, 1, 2],
        ),
        pass("TCP's port behind the port", &[to_5, tcp_to_5], &[0]),
        pass("UDP's port behind the port", &[to_5, udp_to_5], &[0]),
        pass("TCP's port behind TCP", &[tcp, tcp_to_5], &[0]),
        pass("TCP's port behind UDP", &[udp, tcp_to_5], &[0, 1]),
        pass("TCP behind a port", &[to_5, tcp], &[0, 1]),
        pass("a ping behind a port", &[to_5, ping], &[0, 1]),
        pass("a port behind a ping", &[ping, to_5], &[0, 1]),
        pass("two ports behind one", &[from_7, both, to_5], &[0, 2]),
        pass("all behind an open row", &all, &[0]),
    ]
}

fn numberings() -> Vec<Known> {
    let [ping, tcp, udp] = [PING, TCP, UDP].map(|protocol| of(protocol).raw(Allow));
    let (to_5, from_7) = (to_port(5).raw(Deny), from_port(7).raw(Deny));
    let wide = open(Deny);
    vec![
        numbering(
            "a ping and two ports",
            &[ping, to_5, from_7],
            &[2, 2, 1],
            &[1, 2],
        ),
        numbering(
            "three protocols and a port",
            &[ping, tcp, udp, to_5, ping],
            &[2, 2, 2, 1, 1],
            &[1, 3],
        ),
        numbering(
            "a ping, a port and all",
            &[ping, to_5, wide],
            &[2, 2, 1],
            &[0, 2],
        ),
        numbering(
            "two ports and a ping",
            &[to_5, to_port(6).raw(Deny), from_7, ping],
            &[2, 2, 1, 2],
            &[0, 2],
        ),
    ]
}

/// A ping's ports are in the range of all ports, whatever they are.
fn wrong_packets() -> Vec<Known> {
    let rows = [open(Deny)];
    let (most, over) = (MOST_PORT, MOST_PORT + 1);
    let mut cases = vec![
        action(
            "a ping of high ports, the tree",
            one_node(&rows),
            packet(PING, most, most),
            Deny,
        ),
        scan(
            "a ping of high ports, the scan",
            &rows,
            packet(PING, most, most),
            (Deny, 1),
        ),
    ];
    for packet in [packet(PING, over, 0), packet(PING, 0, over)] {
        let packet = packet.words(NEWEST);
        let tree = Call::Action {
            file: one_node(&rows),
            packet: packet.clone(),
        };
        let table = table_words(&rows);
        let scan = Call::Scan { table, packet };
        let refused = refused(WRONG_PACKET, 0, ACTION_WORDS);
        cases.push(case("a ping's port too large, the tree", tree, refused));
        let refused = vec![WRONG_PACKET, 0, 0, 0, 0];
        cases.push(case("a ping's port too large, the scan", scan, refused));
    }
    cases
}
