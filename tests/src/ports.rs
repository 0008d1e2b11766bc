//! Matches that contradict themselves: they constrain a port, and the protocol to
//! one without ports. An atom may have such a match and a row may not. Which they
//! are is told by the words, and the model is not asked.

use crate::model::action::Action;
use crate::model::edition::{COUNT_WORDS, NEWEST};
use crate::model::fields::{Kind, KINDS, MOST_PROTOCOL, WITH_PORTS};
use crate::model::matches::{Match, Prefix};
use crate::model::record::RawRow;
use crate::random::Random;

/// Some protocols without ports: the limits, pings, those next to one with ports, and
/// one that has ports elsewhere.
pub const WITHOUT_PORTS: [u32; 9] = [0, 1, 5, 7, 16, 18, 132, MOST_PROTOCOL - 1, MOST_PROTOCOL];

const OF_PORTS: [Kind; 2] = [KINDS.source_port, KINDS.destination_port];

fn has_flag(row: &RawRow, kind: Kind) -> bool {
    row.flags & kind.flag() != 0
}

pub fn constrains_port(row: &RawRow) -> bool {
    OF_PORTS.iter().any(|kind| has_flag(row, *kind))
}

fn wants_no_ports(row: &RawRow) -> bool {
    has_flag(row, KINDS.protocol) && !WITH_PORTS.contains(&row.values.protocol)
}

/// Whether a row with right flags contradicts itself.
pub fn contradicts(row: &RawRow) -> bool {
    row.flags <= NEWEST.flags() && constrains_port(row) && wants_no_ports(row)
}

/// The row with a protocol without ports, and with port 0 if it has no other.
pub fn contradicted(random: &mut Random, row: &RawRow) -> RawRow {
    let mut row = *row;
    if !wants_no_ports(&row) {
        row.values.protocol = without_ports(random);
        row.flags |= KINDS.protocol.flag();
    }
    if !constrains_port(&row) {
        let [source, destination] = OF_PORTS.map(Kind::flag);
        row.flags |= random.pick(&[source, destination, source | destination]);
    }
    row
}

/// One of those above, or any other.
fn without_ports(random: &mut Random) -> u32 {
    let any = random.word() % (MOST_PROTOCOL + 1);
    if random.percent(50) || WITH_PORTS.contains(&any) {
        return random.pick(&WITHOUT_PORTS);
    }
    any
}

/// The match, or one that does not contradict itself: without its protocol, without
/// its ports, or with a protocol that has them.
pub fn reconciled(random: &mut Random, matching: Match) -> Match {
    let open = Prefix::default();
    let mut reconciled = matching;
    if contradicts(&matching.raw(Action::DontCare)) {
        match random.below(3) {
            0 => reconciled.protocol = open,
            1 => (reconciled.source_port, reconciled.destination_port) = (open, open),
            _ => reconciled.protocol = Prefix::exactly(random.pick(&WITH_PORTS)),
        }
    }
    reconciled
}

/// How many atoms of a right file contradict themselves.
pub fn contradictory_atoms(file: &[u32]) -> usize {
    let operators = file[NEWEST.operator_count_at()] as usize;
    let count_at = NEWEST.atom_count_at(operators);
    let atoms = file[count_at + COUNT_WORDS..].chunks(NEWEST.atom_words());
    let atoms = atoms.take(file[count_at] as usize);
    let contradicts = |words: &&[u32]| contradicts(&RawRow::from_words(words, NEWEST));
    atoms.filter(contradicts).count()
}
