//! What a relay gathers for one pair of old view and new view.

use crate::sets::{Sequence, Updates, View};
use crate::stamp::Record;
use std::collections::BTreeSet;

/// "sequence if the install has come, who has sent state, best stamp and value,
/// updates gathered." No message's sequence is empty, so the empty one says that
/// the install has not come.
#[derive(Clone, PartialEq, Eq, Debug, Default)]
pub struct Transfer {
    pub old: View,
    pub new: View,
    pub install: Sequence,
    pub senders: BTreeSet<u8>,
    pub best: Record,
    pub gathered: Updates,
}

impl Transfer {
    pub fn between(old: View, new: View) -> Transfer {
        Transfer {
            old,
            new,
            ..Transfer::default()
        }
    }

    pub fn has_install(&self) -> bool {
        !self.install.is_empty()
    }

    /// "a quorum of o has sent state"
    pub fn has_quorum(&self) -> bool {
        self.old.is_quorum(|relay| self.senders.contains(&relay))
    }
}
