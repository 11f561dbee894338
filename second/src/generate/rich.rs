//! Runs that follow the rules: joins, leaves and timers that conflict, late
//! installs, several desks at once, crashes, drops and adopted views.

use super::maker::{Hold, Maker};
use super::random::Random;
use crate::message::Party;
use crate::refusal::Answer;
use crate::rules::Rule;
use crate::sets::{Updates, View};
use crate::sheet::Sheet;
use crate::step::{plan, Step, CRASH, DELIVER, DROP, JOIN, LEAVE, READ, TIMER};

/// How a run leans: weights of the steps, and chances out of 1,000.
#[derive(Clone, Debug)]
pub struct Temper {
    pub members: (usize, usize),
    pub deliver: usize,
    pub join: usize,
    pub leave: usize,
    pub timer: usize,
    pub read: usize,
    pub write: usize,
    pub drop: usize,
    pub crash: usize,
    pub crashes: usize,
    pub refused: usize,
    pub oldest: usize,
    pub newest: usize,
    pub hold: usize,
    pub hold_for: usize,
    pub crowd: usize,
}

const CALM: Temper = Temper {
    members: (1, 4),
    deliver: 60,
    join: 1,
    leave: 1,
    timer: 2,
    read: 4,
    write: 4,
    drop: 0,
    crash: 0,
    crashes: 0,
    refused: 5,
    oldest: 700,
    newest: 0,
    hold: 0,
    hold_for: 1,
    crowd: 120,
};

pub fn calm(random: &mut Random, steps: usize) -> Sheet {
    run(random, steps, &CALM)
}

pub fn conflict(random: &mut Random, steps: usize) -> Sheet {
    let temper = Temper {
        members: (3, 5),
        join: 6,
        leave: 3,
        timer: 12,
        read: 1,
        write: 1,
        drop: 2,
        oldest: 100,
        newest: 200,
        hold: 5,
        hold_for: 60,
        crowd: 110,
        ..CALM
    };
    run(random, steps, &temper)
}

pub fn late(random: &mut Random, steps: usize) -> Sheet {
    let temper = Temper {
        members: (2, 4),
        join: 3,
        leave: 2,
        timer: 8,
        read: 2,
        write: 2,
        drop: 1,
        refused: 30,
        oldest: 300,
        newest: 100,
        hold: 25,
        hold_for: 250,
        crowd: 150,
        ..CALM
    };
    run(random, steps, &temper)
}

pub fn desks(random: &mut Random, steps: usize) -> Sheet {
    let temper = Temper {
        members: (1, 5),
        join: 1,
        leave: 1,
        timer: 3,
        read: 8,
        write: 10,
        refused: 30,
        oldest: 200,
        newest: 150,
        hold: 15,
        hold_for: 80,
        ..CALM
    };
    run(random, steps, &temper)
}

pub fn crash(random: &mut Random, steps: usize) -> Sheet {
    let temper = Temper {
        members: (3, 6),
        join: 3,
        leave: 2,
        timer: 5,
        read: 3,
        write: 3,
        drop: 8,
        crash: 1,
        crashes: 4,
        refused: 30,
        oldest: 400,
        hold: 5,
        hold_for: 50,
        ..CALM
    };
    run(random, steps, &temper)
}

pub fn mixed(random: &mut Random, steps: usize) -> Sheet {
    let temper = any_temper(random);
    run(random, steps, &temper)
}

pub fn short(random: &mut Random, steps: usize) -> Sheet {
    let temper = Temper {
        members: (1, 3),
        refused: 40,
        ..any_temper(random)
    };
    let steps = random.below(steps + 1);
    run(random, steps, &temper)
}

pub fn any_temper(random: &mut Random) -> Temper {
    let least = 1 + random.below(4);
    let crashes = random.below(2) * random.below(4);
    Temper {
        members: (least, least + random.below(3)),
        deliver: 30 + random.below(60),
        join: 1 + random.below(6),
        leave: random.below(5),
        timer: 1 + random.below(12),
        read: random.below(8),
        write: random.below(8),
        drop: random.below(6),
        crash: usize::from(crashes > 0),
        crashes,
        refused: random.below(40),
        oldest: random.below(900),
        newest: random.below(400),
        hold: random.below(40),
        hold_for: 1 + random.below(300),
        crowd: 60 + random.below(150),
    }
}

pub fn run(random: &mut Random, steps: usize, temper: &Temper) -> Sheet {
    let (least, most) = temper.members;
    let members = least + random.below(most - least + 1);
    let mask = random.mask(members);
    let mut maker = Maker::new(random, mask, steps);
    go_on(&mut maker, temper);
    maker.sheet()
}

/// Steps of this temper until the sheet is full, or nothing has been open for so
/// long that the run has come to its end.
pub fn go_on(maker: &mut Maker<'_>, temper: &Temper) {
    let mut holds: Vec<(Hold, usize)> = Vec::new();
    let mut crashes = temper.crashes;
    let mut refused = 0;
    while !maker.full() && refused < 25 {
        let now = maker.steps.len();
        holds.retain(|&(_, until)| until > now);
        if maker.random.per_mille(temper.hold) {
            let hold = any_hold(maker.random);
            holds.push((hold, now + 1 + maker.random.below(temper.hold_for)));
        }
        let asked = choose(maker, temper, &holds, crashes);
        crashes -= usize::from(asked.kind == CRASH && maker.opens(asked));
        refused = if maker.take(asked) == Answer::Done {
            0
        } else {
            refused + 1
        };
    }
}

fn any_hold(random: &mut Random) -> Hold {
    let relay = random.below(8) as u8;
    let desk = random.below(4) as u8;
    match random.below(8) {
        0 | 1 => Hold::To(Party::Relay(relay)),
        2 => Hold::From(Party::Relay(relay)),
        3 => Hold::From(Party::Desk(desk)),
        4 => Hold::Installs,
        5 => Hold::InstallsTo(relay),
        6 => Hold::States,
        _ => Hold::Puts,
    }
}

fn choose(maker: &mut Maker<'_>, temper: &Temper, holds: &[(Hold, usize)], crashes: usize) -> Step {
    if maker.random.per_mille(temper.refused) {
        return likely_refused(maker);
    }
    let crowded = maker.world.waiting() > temper.crowd;
    let begins = |weight: usize| if crowded { 0 } else { weight };
    let crash = if crashes > 0 { begins(temper.crash) } else { 0 };
    let weights = [
        temper.deliver.max(1),
        begins(temper.join),
        begins(temper.leave),
        begins(temper.timer),
        begins(temper.read),
        begins(temper.write),
        temper.drop * if crowded { 8 } else { 1 },
        crash,
    ];
    let asked = match maker.random.weighted(&weights) {
        1 => open_join(maker),
        2 => open_leave(maker),
        3 => open_timer(maker),
        4 => open_one(maker, READ, 4),
        5 => open_write(maker),
        6 => drop_one(maker),
        7 => open_one(maker, CRASH, 12),
        _ => deliver_one(maker, temper, holds, crowded),
    };
    asked.unwrap_or_else(|| fall_back(maker, temper, holds))
}

fn open_one(maker: &mut Maker<'_>, kind: u8, ids: u8) -> Option<Step> {
    let steps = (0..ids).map(|id| Step::new(kind, id));
    let open: Vec<Step> = steps.filter(|&asked| maker.opens(asked)).collect();
    maker.random.pick(&open)
}

/// Asking again is open, but seldom leads anywhere once a relay has it pending.
fn asked_before(maker: &mut Maker<'_>, update: Updates) -> bool {
    let relays = &maker.world.relays;
    let asked = relays
        .iter()
        .any(|relay| relay.active && relay.pending.holds(update));
    asked && !maker.random.per_mille(150)
}

fn open_join(maker: &mut Maker<'_>) -> Option<Step> {
    let asked = open_one(maker, JOIN, 8)?;
    let again = asked_before(maker, View::join(asked.id));
    Some(asked).filter(|_| !again)
}

/// A view with few members soon has none, after which nothing more happens, so
/// these mostly stay.
fn open_leave(maker: &mut Maker<'_>) -> Option<Step> {
    let asked = open_one(maker, LEAVE, 8)?;
    let view = maker.world.relays[usize::from(asked.id)].view;
    let lonely = view.members().count() < 3 && !maker.random.per_mille(150);
    let again = asked_before(maker, View::leave(asked.id));
    Some(asked).filter(|_| !lonely && !again)
}

/// A timer is open again and again after its generator has begun, but does nothing then.
fn open_timer(maker: &mut Maker<'_>) -> Option<Step> {
    let asked = open_one(maker, TIMER, 8)?;
    let idle = maker.would(asked).is_some_and(|plan| plan.sends.is_empty());
    Some(asked).filter(|_| !idle || maker.random.per_mille(100))
}

fn open_write(maker: &mut Maker<'_>) -> Option<Step> {
    let steps = (0..4).map(|desk| Step::write(desk, 0));
    let open: Vec<Step> = steps.filter(|&asked| maker.opens(asked)).collect();
    let desk = maker.random.pick(&open)?.id;
    Some(Step::write(desk, maker.random.value()))
}

/// A lost message leaves a desk or a generator waiting for good, so mostly those
/// go that nobody needs any more.
fn drop_one(maker: &mut Maker<'_>) -> Option<Step> {
    let mut places = maker.places(|_| true);
    maker.random.shuffle(&mut places);
    if maker.random.per_mille(60) {
        return places.first().map(|&place| Step::new(DROP, place));
    }
    let needless = |&place: &u8| {
        let met = plan(&maker.world, Step::new(DELIVER, place));
        let rules = met.map_or_else(|refused| refused.rules, |plan| plan.rules);
        rules.iter().any(|rule| NEEDLESS.contains(rule))
    };
    places
        .into_iter()
        .take(12)
        .find(needless)
        .map(|place| Step::new(DROP, place))
}

const NEEDLESS: &[Rule] = &[
    Rule::DeadReceiver,
    Rule::DeskIdleReply,
    Rule::DeskLateReply,
    Rule::StateIgnored,
    Rule::StateNotedAgain,
    Rule::InstallViewNotInside,
    Rule::InstallStoppedAlready,
    Rule::ConvergenceAgainNotRaised,
    Rule::RequestOwnViewNotActive,
    Rule::ProposeHadOwn,
    Rule::ViewNotKept,
];

fn deliver_one(
    maker: &mut Maker<'_>,
    temper: &Temper,
    holds: &[(Hold, usize)],
    crowded: bool,
) -> Option<Step> {
    let mut places = maker.places(|message| !holds.iter().any(|(hold, _)| hold.keeps(message)));
    let lean = maker.random.below(1000);
    if lean < temper.oldest {
        places.truncate(8);
    } else if lean < temper.oldest + temper.newest {
        places.reverse();
        places.truncate(8);
    } else {
        maker.random.shuffle(&mut places);
    }
    let steps = places.into_iter().map(|place| Step::new(DELIVER, place));
    let mut open =
        steps.filter_map(|asked| maker.would(asked).map(|plan| (asked, plan.sends.len())));
    if crowded {
        open.take(8)
            .min_by_key(|&(_, sends)| sends)
            .map(|(asked, _)| asked)
    } else {
        open.next().map(|(asked, _)| asked)
    }
}

/// With nothing else open, held messages come after all, or a desk begins.
fn fall_back(maker: &mut Maker<'_>, temper: &Temper, holds: &[(Hold, usize)]) -> Step {
    deliver_one(maker, temper, holds, true)
        .or_else(|| deliver_one(maker, temper, &[], true))
        .or_else(|| open_one(maker, READ, 4))
        .or_else(|| drop_one(maker))
        .unwrap_or_else(|| likely_refused(maker))
}

/// In range, but more often than not refused.
pub fn likely_refused(maker: &mut Maker<'_>) -> Step {
    match maker.random.below(12) {
        0 => Step::new(JOIN, maker.random.below(8) as u8),
        1 => Step::new(LEAVE, maker.random.below(8) as u8),
        2 => Step::new(TIMER, maker.random.below(8) as u8),
        3 => Step::new(READ, maker.random.below(4) as u8),
        4 => Step::write(maker.random.below(4) as u8, maker.random.value()),
        5 => Step::new(DROP, maker.random.byte()),
        6 => Step::new(DELIVER, maker.random.byte()),
        7 => crash_again(maker),
        _ => refused_delivery(maker),
    }
}

fn crash_again(maker: &mut Maker<'_>) -> Step {
    let steps = (0..12).map(|who| Step::new(CRASH, who));
    let dead: Vec<Step> = steps.filter(|&asked| !maker.opens(asked)).collect();
    maker
        .random
        .pick(&dead)
        .unwrap_or(Step::new(DROP, maker.random.byte()))
}

fn refused_delivery(maker: &mut Maker<'_>) -> Step {
    let mut places = maker.places(|_| true);
    maker.random.shuffle(&mut places);
    let mut steps = places.into_iter().map(|place| Step::new(DELIVER, place));
    let refused = steps.find(|&asked| !maker.opens(asked));
    refused.unwrap_or(Step::new(DELIVER, maker.random.byte()))
}
