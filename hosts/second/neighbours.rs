//! The two rounds of a neighbour query.

use crate::member::{Entry, Gap};
use crate::suite::{first_best, indices, Suite, MOST_MEMBERS};

/// A neighbour and the highest version of the gaps next to the name on its side.
pub(crate) struct Side {
    pub gap: u32,
    pub neighbour: Entry,
}

impl Suite {
    /// Both rounds below the name whose slots are given.
    #[inline]
    pub(crate) fn below(&self, set: u32, slots: &[usize; MOST_MEMBERS]) -> Side {
        let gap = first_best(
            indices(set).map(|i| self.members[i].gap_below(slots[i])),
            higher_gap,
        );
        Side {
            gap: gap.version,
            neighbour: first_best(
                indices(set)
                    .filter_map(|i| self.members[i].offer_below(slots[i], gap.end, gap.version)),
                |entry, best| (entry.name, entry.version) > (best.name, best.version),
            ),
        }
    }

    /// The mirror image above it.
    #[inline]
    pub(crate) fn above(&self, set: u32, slots: &[usize; MOST_MEMBERS], name: i32) -> Side {
        let gap = first_best(
            indices(set).map(|i| self.members[i].gap_above(slots[i], name)),
            higher_gap,
        );
        Side {
            gap: gap.version,
            neighbour: first_best(
                indices(set).filter_map(|i| {
                    self.members[i].offer_above(slots[i], name, gap.end, gap.version)
                }),
                |entry, best| (-entry.name, entry.version) > (-best.name, best.version),
            ),
        }
    }
}

fn higher_gap(gap: &Gap, best: &Gap) -> bool {
    gap.version > best.version
}
