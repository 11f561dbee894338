//! "Sets and sequences": views, their members and quorum, and nested views.

use std::collections::BTreeSet;

pub const RELAYS: u8 = 8;

/// "A view is a set of updates: bit s says relay s joined, bit 8+s says relay s
/// left (s = 0 to 7), so a number 0 to 65,535."
#[derive(Clone, Copy, PartialEq, Eq, PartialOrd, Ord, Debug, Default)]
pub struct View(pub u16);

/// Pending and gathered updates are sets of updates too, without being anybody's view.
pub type Updates = View;

impl View {
    pub const EMPTY: View = View(0);

    pub fn join(relay: u8) -> Updates {
        View(1 << relay)
    }

    pub fn leave(relay: u8) -> Updates {
        View(1 << (8 + relay))
    }

    pub fn of_joins(mask: u8) -> View {
        View(u16::from(mask))
    }

    pub fn holds(self, updates: Updates) -> bool {
        updates.0 & !self.0 == 0
    }

    /// "'Inside' means every update of one is in the other and they differ."
    pub fn inside(self, other: View) -> bool {
        other.holds(self) && self != other
    }

    /// "differ and neither includes the other"; "Equal views don't conflict."
    pub fn conflicts(self, other: View) -> bool {
        self != other && !self.inside(other) && !other.inside(self)
    }

    pub fn union(self, other: View) -> View {
        View(self.0 | other.0)
    }

    pub fn less(self, other: View) -> View {
        View(self.0 & !other.0)
    }

    /// "Its members joined and have not left."
    pub fn has_member(self, relay: u8) -> bool {
        self.holds(View::join(relay)) && !self.holds(View::leave(relay))
    }

    pub fn members(self) -> impl Iterator<Item = u8> {
        (0..RELAYS).filter(move |&relay| self.has_member(relay))
    }

    /// "Its quorum is half its member count, rounded down, plus 1"; "without
    /// members it is 1 and never reached."
    pub fn quorum(self) -> usize {
        self.members().count() / 2 + 1
    }

    /// "Only members count towards it."
    pub fn is_quorum(self, named: impl Fn(u8) -> bool) -> bool {
        self.members().filter(|&relay| named(relay)).count() >= self.quorum()
    }
}

/// "A sequence is a set of views of which any two are nested."
///
/// An inner view has the lower number, so the set's own order is the nesting.
#[derive(Clone, PartialEq, Eq, PartialOrd, Ord, Debug, Default)]
pub struct Sequence(BTreeSet<View>);

impl Sequence {
    pub fn of(views: impl IntoIterator<Item = View>) -> Sequence {
        Sequence(views.into_iter().collect())
    }

    pub fn numbers(numbers: &[u16]) -> Sequence {
        Sequence::of(numbers.iter().map(|&number| View(number)))
    }

    pub fn is_empty(&self) -> bool {
        self.0.is_empty()
    }

    pub fn len(&self) -> usize {
        self.0.len()
    }

    pub fn views(&self) -> impl Iterator<Item = View> + '_ {
        self.0.iter().copied()
    }

    pub fn least(&self) -> Option<View> {
        self.0.first().copied()
    }

    pub fn most(&self) -> Option<View> {
        self.0.last().copied()
    }

    pub fn contains(&self, other: &Sequence) -> bool {
        other.0.is_subset(&self.0)
    }

    pub fn conflicts(&self, other: &Sequence) -> bool {
        self.views().any(|a| other.views().any(|b| a.conflicts(b)))
    }

    pub fn union(&self, other: &Sequence) -> Sequence {
        Sequence::of(self.views().chain(other.views()))
    }

    pub fn plus(&self, view: View) -> Sequence {
        Sequence::of(self.views().chain([view]))
    }

    pub fn above(&self, view: View) -> Sequence {
        Sequence::of(self.views().filter(|&v| view.inside(v)))
    }

    pub fn is_nested(&self) -> bool {
        !self.conflicts(self)
    }

    /// "Kept for view v, all its views strictly include v."
    pub fn is_kept_for(&self, view: View) -> bool {
        self.is_nested() && self.views().all(|v| view.inside(v))
    }
}
