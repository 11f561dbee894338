//! The live view generator of one view at one relay.

use crate::sets::{Sequence, View, RELAYS};

/// "own sequence, converged sequence, last raised sequence; the last proposal
/// and the last convergence heard from each of the eight."
#[derive(Clone, PartialEq, Eq, Debug, Default)]
pub struct Generator {
    pub view: View,
    pub own: Sequence,
    pub converged: Sequence,
    pub raised: Sequence,
    pub proposals: [Sequence; RELAYS as usize],
    pub convergences: [Sequence; RELAYS as usize],
}

#[derive(Clone, PartialEq, Eq, Debug)]
pub enum Heard {
    NothingNew,
    Union(Sequence),
    Conflict(Sequence),
}

/// "If q has a view that own lacks: where some view of q and some of own differ
/// and neither includes the other, own becomes converged plus one view, the
/// union of most(own) and most(q); otherwise own becomes the union of both."
pub fn hear(own: &Sequence, converged: &Sequence, q: &Sequence) -> Heard {
    if own.contains(q) {
        return Heard::NothingNew;
    }
    match (own.most(), q.most()) {
        (Some(own_most), Some(q_most)) if own.conflicts(q) => {
            Heard::Conflict(converged.plus(own_most.union(q_most)))
        }
        _ => Heard::Union(own.union(q)),
    }
}

impl Generator {
    pub fn of(view: View) -> Generator {
        Generator {
            view,
            ..Generator::default()
        }
    }

    /// "if own differs from converged and a quorum of v's last noted proposals equal own"
    pub fn converges(&self) -> bool {
        self.own != self.converged && self.quorum_proposes_own()
    }

    pub fn quorum_proposes_own(&self) -> bool {
        self.view
            .is_quorum(|relay| self.proposals[usize::from(relay)] == self.own)
    }

    /// "If a quorum's last notes equal q"
    pub fn quorum_converged(&self, q: &Sequence) -> bool {
        self.view
            .is_quorum(|relay| self.convergences[usize::from(relay)] == *q)
    }
}
