//! Installs, states and the entry test: how a relay moves to a new view.

use super::Relay;
use crate::message::Body;
use crate::plan::{Event, Plan};
use crate::refusal::{Answer, Refused};
use crate::rules::Rule;
use crate::sets::{Sequence, Updates, View};
use crate::stamp::Record;
use crate::transfer::Transfer;

impl Relay {
    pub(super) fn hear_install(
        &mut self,
        old: View,
        new: View,
        q: &Sequence,
        plan: &mut Plan,
    ) -> Result<(), Refused> {
        let of_old = old.has_member(self.number);
        if of_old && !self.view.holds(old) {
            return Err(Refused::by(Answer::NotYet, Rule::InstallNotYet));
        }
        if of_old {
            self.stop_and_send_state(old, new, plan);
        } else {
            plan.met(Rule::InstallNotOfOld);
        }
        if !self.view.inside(new) {
            plan.met(Rule::InstallViewNotInside);
        } else if !new.has_member(self.number) {
            plan.met(Rule::InstallNotOfNew);
        } else {
            self.keep_install(old, new, q, plan);
            if self.entry_test(old, new, plan) {
                plan.met(Rule::EntryByInstall);
            }
        }
        Ok(())
    }

    /// "A member of o, if its view is inside w, stops being active; in any case it
    /// sends state(o, w, stamp, value, pending) to w's members."
    fn stop_and_send_state(&mut self, old: View, new: View, plan: &mut Plan) {
        if self.view.inside(new) {
            plan.met(if self.active {
                Rule::InstallStops
            } else {
                Rule::InstallStoppedAlready
            });
            self.active = false;
        }
        plan.met(if new.members().count() == 0 {
            Rule::InstallStateToNobody
        } else {
            Rule::InstallStateSent
        });
        let body = Body::State {
            old,
            new,
            record: self.record,
            pending: self.pending,
        };
        plan.send_to_relays(self.party(), new.members(), &body);
    }

    fn keep_install(&mut self, old: View, new: View, q: &Sequence, plan: &mut Plan) {
        let transfer = self.transfer(old, new, plan);
        if transfer.has_install() {
            plan.met(Rule::InstallKeptAlready);
        } else {
            plan.met(Rule::InstallKept);
            transfer.install = q.clone();
        }
    }

    pub(super) fn hear_state(
        &mut self,
        from: u8,
        (old, new): (View, View),
        record: Record,
        pending: Updates,
        plan: &mut Plan,
    ) {
        if !self.view.inside(new) {
            return plan.met(Rule::StateIgnored);
        }
        let transfer = self.transfer(old, new, plan);
        let first = transfer.senders.insert(from);
        plan.met(if first {
            Rule::StateNoted
        } else {
            Rule::StateNotedAgain
        });
        if transfer.best.keep_greater(record) {
            plan.met(Rule::StateBestReplaced);
        }
        transfer.gathered = transfer.gathered.union(pending);
        if self.entry_test(old, new, plan) {
            plan.met(Rule::EntryByState);
        }
    }

    fn entry_test(&mut self, old: View, new: View, plan: &mut Plan) -> bool {
        let mut pairs = self.transfers.iter();
        let found = pairs.find(|t| (t.old, t.new) == (old, new)).cloned();
        let transfer = found.expect("the rule before the entry test took it");
        if !transfer.has_install() {
            plan.met(Rule::EntryNoInstall);
            return false;
        }
        if !transfer.has_quorum() {
            plan.met(Rule::EntryNoQuorum);
            return false;
        }
        self.enter(&transfer, plan);
        true
    }

    fn enter(&mut self, transfer: &Transfer, plan: &mut Plan) {
        let new = transfer.new;
        note_entry(self, transfer, plan);
        self.record = transfer.best;
        self.pending = self.pending.union(transfer.gathered).less(new);
        self.view = new;
        self.entered = true;
        if self.known.inside(new) {
            self.known = new;
        }
        // "transfers whose new view does not strictly include w are freed, and the
        // rest move down in their order"
        self.transfers.retain(|t| new.inside(t.new));
        let above = transfer.install.above(new);
        if above.is_empty() {
            plan.met(Rule::EntryActive);
            self.active = true;
            plan.event = Event::Opened {
                relay: self.number,
                view: new,
            };
        } else {
            plan.met(Rule::EntryProposes);
            self.active = false;
            if !self.propose(above, new, plan) {
                plan.met(Rule::EntryGeneratorBegunAlready);
            }
        }
    }
}

fn note_entry(before: &Relay, transfer: &Transfer, plan: &mut Plan) {
    let new = transfer.new;
    if before.record.stamp.is_above(transfer.best.stamp) {
        plan.met(Rule::EntryOwnRecordGreater);
    }
    let pending = before.pending.union(transfer.gathered);
    if pending.less(new) != pending {
        plan.met(Rule::EntryPendingLessened);
    }
    if pending.less(new) != View::EMPTY {
        plan.met(Rule::EntryPendingStays);
    }
    let wider = before.known.inside(new);
    plan.met(if wider {
        Rule::EntryKnownSet
    } else {
        Rule::EntryKnownStays
    });
    let stays: Vec<bool> = before.transfers.iter().map(|t| new.inside(t.new)).collect();
    if stays.contains(&false) {
        plan.met(Rule::TransfersFreed);
    }
    if stays.windows(2).any(|pair| !pair[0] && pair[1]) {
        plan.met(Rule::TransfersMovedDown);
    }
}
