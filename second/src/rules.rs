//! One name for each rule of document 01, and counts of the rules that runs met.

use crate::plan::Event;
use crate::refusal::Answer;

macro_rules! rules {
    ($($rule:ident $name:literal)*) => {
        #[derive(Clone, Copy, PartialEq, Eq, PartialOrd, Ord, Debug)]
        pub enum Rule { $($rule),* }

        impl Rule {
            pub const ALL: &'static [Rule] = &[$(Rule::$rule),*];

            pub fn name(self) -> &'static str {
                match self { $(Rule::$rule => $name),* }
            }
        }
    };
}

rules! {
    BadStepKind "bad-step-kind"
    BadStepId "bad-step-id"
    BadStepValue "bad-step-value"
    EmptyDeliver "empty-deliver"
    EmptyDrop "empty-drop"
    DeadActor "dead-actor"
    DeadReceiver "dead-receiver"
    DeadCrash "dead-crash"
    JoinNotNowEntered "join-not-now-entered"
    JoinNotNowKnown "join-not-now-known"
    LeaveNotNow "leave-not-now"
    TimerNotNowNotActive "timer-not-now-not-active"
    TimerNotNowNothingPending "timer-not-now-nothing-pending"
    ReadNotNow "read-not-now"
    WriteNotNow "write-not-now"
    InstallNotYet "install-not-yet"
    GetNotYetNotActive "get-not-yet-not-active"
    GetNotYetView "get-not-yet-view"
    PutNotYetNotActive "put-not-yet-not-active"
    PutNotYetView "put-not-yet-view"
    WornTry "worn-try"
    WornCount "worn-count"
    NoRoomMessages "no-room-messages"
    NoRoomGenerators "no-room-generators"
    NoRoomTransfers "no-room-transfers"
    NoRoomGeneratorsTimer "no-room-generators-timer"
    NoRoomGeneratorsProposal "no-room-generators-proposal"
    NoRoomGeneratorsConverged "no-room-generators-converged"
    NoRoomGeneratorsEntry "no-room-generators-entry"
    NoRoomTransfersInstall "no-room-transfers-install"
    NoRoomTransfersState "no-room-transfers-state"
    DeliveredPlaceCounted "delivered-place-counted"

    JoinAsked "join-asked"
    LeaveAsked "leave-asked"
    TimerProposes "timer-proposes"
    ReadBegun "read-begun"
    WriteBegun "write-begun"
    Dropped "dropped"
    DroppedDeadReceiver "dropped-dead-receiver"
    CrashedRelay "crashed-relay"
    CrashedDesk "crashed-desk"

    RequestNotEntered "request-not-entered"
    RequestOwnViewAdded "request-own-view-added"
    RequestOwnViewNotActive "request-own-view-not-active"
    RequestAlreadyInView "request-already-in-view"
    RequestOtherView "request-other-view"
    ViewKept "view-kept"
    ViewNotKept "view-not-kept"

    ProposeBegun "propose-begun"
    ProposeHadOwn "propose-had-own"
    GeneratorTaken "generator-taken"
    TransferTaken "transfer-taken"

    ProposalNothingNew "proposal-nothing-new"
    ProposalConflict "proposal-conflict"
    ProposalConflictOwnUnchanged "proposal-conflict-own-unchanged"
    ProposalConflictKeepsConverged "proposal-conflict-keeps-converged"
    ProposalUnion "proposal-union"
    ProposalOwnEmpty "proposal-own-empty"
    ProposalNotEntered "proposal-not-entered"
    ConvergedSet "converged-set"
    ConvergedSetAgain "converged-set-again"
    ConvergedNoQuorum "converged-no-quorum"
    ConvergedAlready "converged-already"
    ConvergenceRaised "convergence-raised"
    ConvergenceRaisedOther "convergence-raised-other"
    ConvergenceAgainNotRaised "convergence-again-not-raised"
    ConvergenceNoQuorum "convergence-no-quorum"

    InstallStops "install-stops"
    InstallStoppedAlready "install-stopped-already"
    InstallViewNotInside "install-view-not-inside"
    InstallStateSent "install-state-sent"
    InstallStateToNobody "install-state-to-nobody"
    InstallNotOfOld "install-not-of-old"
    InstallNotOfNew "install-not-of-new"
    InstallKept "install-kept"
    InstallKeptAlready "install-kept-already"
    StateIgnored "state-ignored"
    StateNoted "state-noted"
    StateNotedAgain "state-noted-again"
    StateBestReplaced "state-best-replaced"

    EntryNoInstall "entry-no-install"
    EntryNoQuorum "entry-no-quorum"
    EntryActive "entry-active"
    EntryProposes "entry-proposes"
    EntryGeneratorBegunAlready "entry-generator-begun-already"
    EntryByInstall "entry-by-install"
    EntryByState "entry-by-state"
    EntryOwnRecordGreater "entry-own-record-greater"
    EntryPendingStays "entry-pending-stays"
    EntryPendingLessened "entry-pending-lessened"
    EntryKnownSet "entry-known-set"
    EntryKnownStays "entry-known-stays"
    TransfersFreed "transfers-freed"
    TransfersMovedDown "transfers-moved-down"

    GetViewReply "get-view-reply"
    GetReply "get-reply"
    PutStored "put-stored"
    PutNotStored "put-not-stored"
    PutViewReply "put-view-reply"

    DeskIdleReply "desk-idle-reply"
    DeskLateReply "desk-late-reply"
    DeskWrongKind "desk-wrong-kind"
    DeskNonMember "desk-non-member"
    DeskViewAdopted1 "desk-view-adopted-phase-1"
    DeskViewAdopted2 "desk-view-adopted-phase-2"
    DeskViewIgnored "desk-view-ignored"
    DeskReplyNoted "desk-reply-noted"
    DeskBestReplaced "desk-best-replaced"
    DeskStampsDisagree "desk-stamps-disagree"
    Write1Done "write1-done"
    Write2Ends "write2-ends"
    Read1Agreed "read1-agreed"
    Read1PutsBack "read1-puts-back"
    Read2Ends "read2-ends"
}

impl Rule {
    /// Why no sheet of at most 8,000 steps can meet the rule, if none can. The
    /// tests show these rules on worlds that are built by hand.
    pub fn beyond_sheets(self) -> Option<&'static str> {
        match self {
            Rule::WornTry => Some("each step adds at most 1 to a try, so it is at most 8,000"),
            Rule::WornCount => Some("each step adds at most 1 to the greatest count"),
            Rule::RequestAlreadyInView => Some("a request(u, c) is only sent where u is not in c"),
            Rule::DeskWrongKind => Some("a try belongs to one phase, as each phase adds 1"),
            Rule::DeskNonMember => {
                Some("a try's Get or Put goes to members of the view that lasts as long as the try")
            }
            Rule::DeskViewIgnored => {
                Some("a relay replies with its view only if the try's view is inside it")
            }
            _ => None,
        }
    }
}

#[derive(Clone, Debug)]
pub struct Coverage {
    pub answers: [u64; 10],
    pub events: [u64; 4],
    pub rules: Vec<u64>,
}

impl Default for Coverage {
    fn default() -> Coverage {
        Coverage {
            answers: [0; 10],
            events: [0; 4],
            rules: vec![0; Rule::ALL.len()],
        }
    }
}

impl Coverage {
    pub fn count(&mut self, answer: Answer, event: Event, rules: &[Rule]) {
        self.answers[usize::from(answer.number())] += 1;
        self.events[usize::from(event.number())] += 1;
        for &rule in rules {
            self.rules[rule as usize] += 1;
        }
    }

    pub fn of(&self, rule: Rule) -> u64 {
        self.rules[rule as usize]
    }

    pub fn lines(&self) -> Vec<(String, u64)> {
        let answers = self.answers.iter().enumerate();
        let events = self.events.iter().enumerate();
        let rules = Rule::ALL.iter().zip(&self.rules);
        answers
            .map(|(number, &n)| (format!("answer {number}"), n))
            .chain(events.map(|(number, &n)| (format!("event {number}"), n)))
            .chain(rules.map(|(rule, &n)| (format!("rule {}", rule.name()), n)))
            .collect()
    }

    pub fn text(&self) -> String {
        let lines = self.lines().into_iter();
        lines.map(|(name, n)| format!("{name} {n}\n")).collect()
    }
}
