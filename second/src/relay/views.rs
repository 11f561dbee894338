//! Proposals and convergences: how the relays of a view come to the next one.

use super::Relay;
use crate::generator::{hear, Generator, Heard};
use crate::message::Body;
use crate::plan::Plan;
use crate::rules::Rule;
use crate::sets::{Sequence, View, RELAYS};

impl Relay {
    /// "Propose q for v: if v's generator has an empty own sequence, it becomes q
    /// and goes as proposal to all members of v, oneself too; else nothing."
    pub(super) fn propose(&mut self, q: Sequence, view: View, plan: &mut Plan) -> bool {
        let party = self.party();
        let generator = self.generator(view, plan);
        let begins = generator.own.is_empty();
        if begins {
            plan.met(Rule::ProposeBegun);
            generator.own = q.clone();
            let body = Body::Proposal { view, sequence: q };
            plan.send_to_relays(party, view.members(), &body);
        } else {
            plan.met(Rule::ProposeHadOwn);
        }
        begins
    }

    pub(super) fn hear_proposal(&mut self, from: u8, view: View, q: &Sequence, plan: &mut Plan) {
        if !self.entered {
            plan.met(Rule::ProposalNotEntered);
        }
        let party = self.party();
        let generator = self.generator(view, plan);
        generator.proposals[usize::from(from)] = q.clone();
        let heard = hear(&generator.own, &generator.converged, q);
        note_heard(generator, &heard, plan);
        if let Heard::Union(own) | Heard::Conflict(own) = heard {
            generator.own = own.clone();
            let body = Body::Proposal {
                view,
                sequence: own,
            };
            plan.send_to_relays(party, view.members(), &body);
        }
        if generator.converges() {
            plan.met(Rule::ConvergedSet);
            if !generator.converged.is_empty() {
                plan.met(Rule::ConvergedSetAgain);
            }
            generator.converged = generator.own.clone();
            let body = Body::Converged {
                view,
                sequence: generator.own.clone(),
            };
            plan.send_to_relays(party, view.members(), &body);
        } else if generator.own == generator.converged {
            plan.met(Rule::ConvergedAlready);
        } else {
            plan.met(Rule::ConvergedNoQuorum);
        }
    }

    pub(super) fn hear_converged(&mut self, from: u8, view: View, q: &Sequence, plan: &mut Plan) {
        let party = self.party();
        let generator = self.generator(view, plan);
        generator.convergences[usize::from(from)] = q.clone();
        if !generator.quorum_converged(q) {
            return plan.met(Rule::ConvergenceNoQuorum);
        }
        if generator.raised == *q {
            return plan.met(Rule::ConvergenceAgainNotRaised);
        }
        plan.met(Rule::ConvergenceRaised);
        if !generator.raised.is_empty() {
            plan.met(Rule::ConvergenceRaisedOther);
        }
        generator.raised = q.clone();
        let new = q.least().expect("no message's sequence is empty");
        let body = Body::Install {
            old: view,
            new,
            sequence: q.clone(),
        };
        let to = (0..RELAYS).filter(|&relay| view.has_member(relay) || new.has_member(relay));
        plan.send_to_relays(party, to, &body);
    }
}

fn note_heard(before: &Generator, heard: &Heard, plan: &mut Plan) {
    match heard {
        Heard::NothingNew => plan.met(Rule::ProposalNothingNew),
        Heard::Union(_) if before.own.is_empty() => plan.met(Rule::ProposalOwnEmpty),
        Heard::Union(_) => plan.met(Rule::ProposalUnion),
        Heard::Conflict(own) => {
            plan.met(Rule::ProposalConflict);
            if *own == before.own {
                plan.met(Rule::ProposalConflictOwnUnchanged);
            }
            if !before.converged.is_empty() {
                plan.met(Rule::ProposalConflictKeepsConverged);
            }
        }
    }
}
