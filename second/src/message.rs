//! What can wait in the 256 places.

use crate::sets::{Sequence, Updates, View};
use crate::stamp::Record;

#[derive(Clone, Copy, PartialEq, Eq, PartialOrd, Ord, Debug)]
pub enum Party {
    Relay(u8),
    Desk(u8),
}

#[derive(Clone, PartialEq, Eq, Debug)]
pub enum Body {
    Request {
        update: Updates,
        view: View,
    },
    View {
        view: View,
    },
    Proposal {
        view: View,
        sequence: Sequence,
    },
    Converged {
        view: View,
        sequence: Sequence,
    },
    Install {
        old: View,
        new: View,
        sequence: Sequence,
    },
    State {
        old: View,
        new: View,
        record: Record,
        pending: Updates,
    },
    Get {
        try_number: u16,
        view: View,
    },
    Put {
        try_number: u16,
        view: View,
        record: Record,
    },
    ViewReply {
        try_number: u16,
        view: View,
    },
    GetReply {
        try_number: u16,
        record: Record,
    },
    Acknowledgement {
        try_number: u16,
    },
}

#[derive(Clone, PartialEq, Eq, Debug)]
pub struct Message {
    pub from: Party,
    pub to: Party,
    pub body: Body,
}
