//! Small right files that are shuffled. Half of them are telling: which of their atoms
//! count is shown by the actions.

use crate::cases::Maker;
use crate::model::action::GMB;
use crate::model::operator::{GIVE_LEFT, GIVE_RIGHT, GIVE_SUM};
use crate::policies::Draft;
use crate::properties::right_draft;
use crate::random::Random;
use crate::sets::MOST_ATOMS_COUNTED;
use crate::world::World;

/// So many atoms are more than others have.
pub const MORE_ATOMS: usize = 7;
/// How many these have; the most are seldom, since they can make 4,095 rows.
const MANY_ATOMS: [usize; 8] = [7, 7, 7, 8, 8, 9, 10, MOST_ATOMS_COUNTED];

/// Every second file is telling.
pub fn is_telling(place: usize) -> bool {
    place % 2 == 1
}

/// Of ten files five are telling, one has no atoms, and one has more than others.
pub fn small_draft(maker: &mut Maker, world: &World, place: usize) -> Draft {
    let mut draft = if is_telling(place) {
        branching_draft(maker, world)
    } else {
        right_draft(maker, world, |random, size| {
            size.atoms = match place % 10 {
                0 => random.pick(&MANY_ATOMS),
                2 => 0,
                _ => random.within(2, MORE_ATOMS - 1),
            }
        })
    };
    repeat_some(&mut maker.random, &mut draft);
    if is_telling(place) {
        make_telling(&mut maker.random, &mut draft);
    }
    draft
}

/// Drawn until some node has two children.
fn branching_draft(maker: &mut Maker, world: &World) -> Draft {
    let mut drafts = std::iter::repeat_with(|| {
        right_draft(maker, world, |random, size| {
            size.atoms = MORE_ATOMS - 1;
            size.nodes = random.within(3, 7);
        })
    });
    let branching = |draft: &Draft| draft.nodes.iter().any(|node| node.children > 1);
    drafts.find(branching).expect("drafts without end")
}

/// Now and then some atoms are those of an earlier place.
fn repeat_some(random: &mut Random, draft: &mut Draft) {
    if !random.percent(30) {
        return;
    }
    for atom in 1..draft.atoms.len() {
        if random.percent(40) {
            draft.atoms[atom] = draft.atoms[random.below(atom)];
        }
    }
}

/// Each atom reserves a rate of its own. Rates are added, or within some nodes the larger
/// counts; at each node its own atoms win over those below it, or these over its own.
fn make_telling(random: &mut Random, draft: &mut Draft) {
    let larger = draft.edition.sibling();
    let mut adding = larger.clone();
    adding[draft.edition.cell(GMB, GMB)] = GIVE_SUM;
    let [own, below] = [GIVE_LEFT, GIVE_RIGHT].map(|code| vec![code; adding.len()]);
    draft.operators = vec![adding, larger, own, below];
    for node in &mut draft.nodes {
        node.sibling = 0;
        node.inner = random.below(2) as u32;
        node.parent = random.within(2, 3) as u32;
    }
    for (place, atom) in draft.atoms.iter_mut().enumerate() {
        (atom.kind, atom.rate) = (GMB, 1 << place);
    }
}
