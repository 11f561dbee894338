//! Get and Put: what a relay answers to desks.

use super::Relay;
use crate::message::{Body, Party};
use crate::plan::Plan;
use crate::refusal::{Answer, Refused};
use crate::rules::Rule;
use crate::sets::View;
use crate::stamp::Record;

/// What both tell of themselves: not active, another view, a view reply.
type Told = [Rule; 3];
const GET: Told = [
    Rule::GetNotYetNotActive,
    Rule::GetNotYetView,
    Rule::GetViewReply,
];
const PUT: Told = [
    Rule::PutNotYetNotActive,
    Rule::PutNotYetView,
    Rule::PutViewReply,
];

impl Relay {
    pub(super) fn hear_get(
        &mut self,
        desk: u8,
        try_number: u16,
        view: View,
        plan: &mut Plan,
    ) -> Result<(), Refused> {
        if self.serves(desk, try_number, view, GET, plan)? {
            plan.met(Rule::GetReply);
            let record = self.record;
            self.reply(desk, Body::GetReply { try_number, record }, plan);
        }
        Ok(())
    }

    pub(super) fn hear_put(
        &mut self,
        desk: u8,
        try_number: u16,
        view: View,
        record: Record,
        plan: &mut Plan,
    ) -> Result<(), Refused> {
        if self.serves(desk, try_number, view, PUT, plan)? {
            let stored = self.record.keep_greater(record);
            plan.met(if stored {
                Rule::PutStored
            } else {
                Rule::PutNotStored
            });
            self.reply(desk, Body::Acknowledgement { try_number }, plan);
        }
        Ok(())
    }

    /// "NOT YET unless active and c equals the own view or is inside it." Whether it equals it; inside it, the answer is the own view.
    fn serves(
        &self,
        desk: u8,
        try_number: u16,
        view: View,
        told: Told,
        plan: &mut Plan,
    ) -> Result<bool, Refused> {
        let [not_active, other_view, view_reply] = told;
        if !self.active {
            return Err(Refused::by(Answer::NotYet, not_active));
        }
        if !self.view.holds(view) {
            return Err(Refused::by(Answer::NotYet, other_view));
        }
        let inner = view.inside(self.view);
        if inner {
            plan.met(view_reply);
            let view = self.view;
            self.reply(desk, Body::ViewReply { try_number, view }, plan);
        }
        Ok(!inner)
    }

    fn reply(&self, desk: u8, body: Body, plan: &mut Plan) {
        plan.send(self.party(), Party::Desk(desk), body);
    }
}
