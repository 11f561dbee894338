//! A relay: what it asks for, its generators and transfers, and delivery at it.

mod entry;
mod operations;
mod views;

use crate::generator::Generator;
use crate::message::{Body, Message, Party};
use crate::plan::Plan;
use crate::refusal::{Answer, Refused};
use crate::rules::Rule;
use crate::sets::{Sequence, Updates, View};
use crate::stamp::Record;
use crate::transfer::Transfer;
use std::rc::Rc;

/// Generators and transfers are shared between a relay and the copy that a step
/// is planned on, so that planning copies only the one that changes.
#[derive(Clone, PartialEq, Eq, Debug)]
pub struct Relay {
    pub number: u8,
    pub alive: bool,
    pub view: View,
    pub entered: bool,
    pub active: bool,
    pub known: View,
    pub pending: Updates,
    pub record: Record,
    pub generators: Vec<Rc<Generator>>,
    pub transfers: Vec<Rc<Transfer>>,
}

impl Relay {
    pub fn start(number: u8, view: View) -> Relay {
        let member = view.has_member(number);
        Relay {
            number,
            alive: true,
            view: if member { view } else { View::EMPTY },
            entered: member,
            active: member,
            known: view,
            pending: View::EMPTY,
            record: Record::default(),
            generators: Vec::new(),
            transfers: Vec::new(),
        }
    }

    pub fn join(&mut self, plan: &mut Plan) -> Result<(), Refused> {
        if self.entered {
            return Err(Refused::by(Answer::NotNow, Rule::JoinNotNowEntered));
        }
        if self.known.holds(View::join(self.number)) {
            return Err(Refused::by(Answer::NotNow, Rule::JoinNotNowKnown));
        }
        plan.met(Rule::JoinAsked);
        self.request(View::join(self.number), self.known, plan);
        Ok(())
    }

    pub fn leave(&mut self, plan: &mut Plan) -> Result<(), Refused> {
        if !self.view.has_member(self.number) {
            return Err(Refused::by(Answer::NotNow, Rule::LeaveNotNow));
        }
        plan.met(Rule::LeaveAsked);
        self.request(View::leave(self.number), self.view, plan);
        Ok(())
    }

    fn request(&self, update: Updates, view: View, plan: &mut Plan) {
        let body = Body::Request { update, view };
        plan.send_to_relays(self.party(), view.members(), &body);
    }

    pub fn timer(&mut self, plan: &mut Plan) -> Result<(), Refused> {
        if !self.active {
            return Err(Refused::by(Answer::NotNow, Rule::TimerNotNowNotActive));
        }
        if self.view.holds(self.pending) {
            return Err(Refused::by(Answer::NotNow, Rule::TimerNotNowNothingPending));
        }
        plan.met(Rule::TimerProposes);
        let proposed = Sequence::of([self.view.union(self.pending)]);
        self.propose(proposed, self.view, plan);
        Ok(())
    }

    pub fn deliver(&mut self, message: &Message, plan: &mut Plan) -> Result<(), Refused> {
        match (&message.body, message.from) {
            (&Body::Request { update, view }, Party::Relay(from)) => {
                self.hear_request(from, update, view, plan)
            }
            (&Body::View { view }, Party::Relay(_)) => self.hear_view(view, plan),
            (Body::Proposal { view, sequence }, Party::Relay(from)) => {
                self.hear_proposal(from, *view, sequence, plan)
            }
            (Body::Converged { view, sequence }, Party::Relay(from)) => {
                self.hear_converged(from, *view, sequence, plan)
            }
            (Body::Install { old, new, sequence }, Party::Relay(_)) => {
                self.hear_install(*old, *new, sequence, plan)?
            }
            (
                &Body::State {
                    old,
                    new,
                    record,
                    pending,
                },
                Party::Relay(from),
            ) => self.hear_state(from, (old, new), record, pending, plan),
            (&Body::Get { try_number, view }, Party::Desk(desk)) => {
                self.hear_get(desk, try_number, view, plan)?
            }
            (
                &Body::Put {
                    try_number,
                    view,
                    record,
                },
                Party::Desk(desk),
            ) => self.hear_put(desk, try_number, view, record, plan)?,
            _ => unreachable!("no rule sends this to a relay"),
        }
        Ok(())
    }

    fn party(&self) -> Party {
        Party::Relay(self.number)
    }

    fn hear_request(&mut self, from: u8, update: Updates, view: View, plan: &mut Plan) {
        if !self.entered {
            plan.met(Rule::RequestNotEntered);
        } else if self.view != view {
            plan.met(Rule::RequestOtherView);
            plan.send(
                self.party(),
                Party::Relay(from),
                Body::View { view: self.view },
            );
        } else if self.view.holds(update) {
            plan.met(Rule::RequestAlreadyInView);
        } else {
            plan.met(Rule::RequestOwnViewAdded);
            if !self.active {
                plan.met(Rule::RequestOwnViewNotActive);
            }
            self.pending = self.pending.union(update);
        }
    }

    /// "who keeps it as known view if the one known is inside it"
    fn hear_view(&mut self, view: View, plan: &mut Plan) {
        if self.known.inside(view) {
            plan.met(Rule::ViewKept);
            self.known = view;
        } else {
            plan.met(Rule::ViewNotKept);
        }
    }

    /// "A generator or transfer that a rule notes into, proposes with or keeps an
    /// install in is taken if absent, and at no other time."
    fn generator(&mut self, view: View, plan: &mut Plan) -> &mut Generator {
        let found = self.generators.iter().position(|g| g.view == view);
        let index = found.unwrap_or_else(|| {
            plan.met(Rule::GeneratorTaken);
            plan.generators_taken += 1;
            self.generators.push(Rc::new(Generator::of(view)));
            self.generators.len() - 1
        });
        Rc::make_mut(&mut self.generators[index])
    }

    fn transfer(&mut self, old: View, new: View, plan: &mut Plan) -> &mut Transfer {
        let found = self
            .transfers
            .iter()
            .position(|t| (t.old, t.new) == (old, new));
        let index = found.unwrap_or_else(|| {
            plan.met(Rule::TransferTaken);
            plan.transfers_taken += 1;
            self.transfers.push(Rc::new(Transfer::between(old, new)));
            self.transfers.len() - 1
        });
        Rc::make_mut(&mut self.transfers[index])
    }
}
