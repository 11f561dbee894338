//! A desk: its phases and the replies to it.

use crate::message::{Body, Message, Party};
use crate::plan::{Event, Plan};
use crate::refusal::{Answer, Refused};
use crate::rules::Rule;
use crate::sets::View;
use crate::stamp::{Record, Stamp};
use std::collections::BTreeSet;

#[derive(Clone, Copy, PartialEq, Eq, Debug)]
pub enum Phase {
    Idle,
    Read1,
    Read2,
    Write1,
    Write2,
}

impl Phase {
    /// In the order of their numbers.
    pub const ALL: [Phase; 5] = [
        Phase::Idle,
        Phase::Read1,
        Phase::Read2,
        Phase::Write1,
        Phase::Write2,
    ];

    fn gets(self) -> bool {
        matches!(self, Phase::Read1 | Phase::Write1)
    }
}

#[derive(Clone, PartialEq, Eq, Debug)]
pub struct Desk {
    pub number: u8,
    pub alive: bool,
    pub view: View,
    pub phase: Phase,
    pub try_number: u16,
    pub value: u32,
    pub stamp: Stamp,
    pub replied: BTreeSet<u8>,
    pub best: Record,
    pub agreed: bool,
}

impl Desk {
    pub fn start(number: u8, view: View) -> Desk {
        Desk {
            number,
            alive: true,
            view,
            phase: Phase::Idle,
            try_number: 0,
            value: 0,
            stamp: Stamp::default(),
            replied: BTreeSet::new(),
            best: Record::default(),
            agreed: false,
        }
    }

    pub fn read(&mut self, plan: &mut Plan) -> Result<(), Refused> {
        if self.phase != Phase::Idle {
            return Err(Refused::by(Answer::NotNow, Rule::ReadNotNow));
        }
        plan.met(Rule::ReadBegun);
        self.begin(Phase::Read1, plan)
    }

    pub fn write(&mut self, value: u32, plan: &mut Plan) -> Result<(), Refused> {
        if self.phase != Phase::Idle {
            return Err(Refused::by(Answer::NotNow, Rule::WriteNotNow));
        }
        plan.met(Rule::WriteBegun);
        self.value = value;
        self.begin(Phase::Write1, plan)
    }

    /// "Each phase begins by adding 1 to the try, clearing the replies and sending
    /// to all members of the desk's view: Get in phase 1, Put in phase 2."
    fn begin(&mut self, phase: Phase, plan: &mut Plan) -> Result<(), Refused> {
        let worn = || Refused::by(Answer::Worn, Rule::WornTry);
        self.try_number = self.try_number.checked_add(1).ok_or_else(worn)?;
        self.phase = phase;
        self.clear_replies();
        let (try_number, view) = (self.try_number, self.view);
        let body = if phase.gets() {
            Body::Get { try_number, view }
        } else {
            Body::Put {
                try_number,
                view,
                record: Record::new(self.stamp, self.value),
            }
        };
        plan.send_to_relays(Party::Desk(self.number), view.members(), &body);
        Ok(())
    }

    fn clear_replies(&mut self) {
        self.replied.clear();
        self.best = Record::default();
        self.agreed = false;
    }

    pub fn deliver(&mut self, message: &Message, plan: &mut Plan) -> Result<(), Refused> {
        let Party::Relay(from) = message.from else {
            unreachable!("only relays reply");
        };
        match message.body {
            Body::ViewReply { try_number, view } => {
                if self.listens(from, try_number, true, plan) {
                    return self.hear_view(view, plan);
                }
            }
            Body::GetReply { try_number, record } => {
                if self.listens(from, try_number, self.phase.gets(), plan) {
                    self.note_stamp(record, plan);
                    return self.note_reply(from, plan);
                }
            }
            Body::Acknowledgement { try_number } => {
                if self.listens(from, try_number, !self.phase.gets(), plan) {
                    return self.note_reply(from, plan);
                }
            }
            _ => unreachable!("no rule sends this to a desk"),
        }
        Ok(())
    }

    /// "A reply with another try, of the other phase's kind, from no member of the
    /// desk's view, or to an idle desk does nothing."
    fn listens(&self, from: u8, try_number: u16, kind_fits: bool, plan: &mut Plan) -> bool {
        let deaf = if self.phase == Phase::Idle {
            Some(Rule::DeskIdleReply)
        } else if try_number != self.try_number {
            Some(Rule::DeskLateReply)
        } else if !kind_fits {
            Some(Rule::DeskWrongKind)
        } else if !self.view.has_member(from) {
            Some(Rule::DeskNonMember)
        } else {
            None
        };
        plan.rules.extend(deaf);
        deaf.is_none()
    }

    /// "A view reply that strictly includes the desk's view is adopted and the
    /// phase starts again; any other does nothing."
    fn hear_view(&mut self, view: View, plan: &mut Plan) -> Result<(), Refused> {
        if !self.view.inside(view) {
            plan.met(Rule::DeskViewIgnored);
            return Ok(());
        }
        let first = self.phase.gets();
        plan.met(if first {
            Rule::DeskViewAdopted1
        } else {
            Rule::DeskViewAdopted2
        });
        self.view = view;
        self.begin(self.phase, plan)
    }

    fn note_stamp(&mut self, record: Record, plan: &mut Plan) {
        let first = self.replied.is_empty();
        self.agreed = first || (self.agreed && record.stamp == self.best.stamp);
        if !self.agreed {
            plan.met(Rule::DeskStampsDisagree);
        }
        if self.best.keep_greater(record) {
            plan.met(Rule::DeskBestReplaced);
        }
    }

    fn note_reply(&mut self, from: u8, plan: &mut Plan) -> Result<(), Refused> {
        self.replied.insert(from);
        plan.met(Rule::DeskReplyNoted);
        if self.view.is_quorum(|relay| self.replied.contains(&relay)) {
            self.end_phase(plan)?;
        }
        Ok(())
    }

    fn end_phase(&mut self, plan: &mut Plan) -> Result<(), Refused> {
        match self.phase {
            Phase::Idle => unreachable!("an idle desk notes no reply"),
            Phase::Write1 => {
                plan.met(Rule::Write1Done);
                let worn = || Refused::by(Answer::Worn, Rule::WornCount);
                let count = self.best.stamp.count.checked_add(1).ok_or_else(worn)?;
                self.stamp = Stamp::new(count, self.number);
                self.begin(Phase::Write2, plan)
            }
            Phase::Write2 => {
                plan.met(Rule::Write2Ends);
                let (desk, stamp, value) = (self.number, self.stamp, self.value);
                self.end(Event::WriteEnded { desk, stamp, value }, plan)
            }
            Phase::Read1 if self.agreed => {
                plan.met(Rule::Read1Agreed);
                let (desk, Record { stamp, value }) = (self.number, self.best);
                self.end(Event::ReadEnded { desk, stamp, value }, plan)
            }
            Phase::Read1 => {
                plan.met(Rule::Read1PutsBack);
                (self.stamp, self.value) = (self.best.stamp, self.best.value);
                self.begin(Phase::Read2, plan)
            }
            Phase::Read2 => {
                plan.met(Rule::Read2Ends);
                let (desk, stamp, value) = (self.number, self.stamp, self.value);
                self.end(Event::ReadEnded { desk, stamp, value }, plan)
            }
        }
    }

    /// "Idle, only alive, view and try stay."
    fn end(&mut self, event: Event, plan: &mut Plan) -> Result<(), Refused> {
        plan.event = event;
        *self = Desk {
            alive: self.alive,
            try_number: self.try_number,
            ..Desk::start(self.number, self.view)
        };
        Ok(())
    }
}
