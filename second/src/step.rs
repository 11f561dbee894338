//! One step: the refusals in their order, then what is done.

use crate::message::{Body, Message, Party};
use crate::plan::{Event, Plan};
use crate::refusal::{Answer, Refused};
use crate::rules::Rule;
use crate::world::{World, GENERATORS, TRANSFERS};

pub const JOIN: u8 = 1;
pub const LEAVE: u8 = 2;
pub const TIMER: u8 = 3;
pub const READ: u8 = 4;
pub const WRITE: u8 = 5;
pub const DELIVER: u8 = 6;
pub const DROP: u8 = 7;
pub const CRASH: u8 = 8;

/// A step as a sheet holds it, in range or not.
#[derive(Clone, Copy, PartialEq, Eq, Debug, Default)]
pub struct Step {
    pub kind: u8,
    pub id: u8,
    pub value: u32,
}

impl Step {
    pub fn new(kind: u8, id: u8) -> Step {
        Step { kind, id, value: 0 }
    }

    pub fn write(desk: u8, value: u32) -> Step {
        Step {
            kind: WRITE,
            id: desk,
            value,
        }
    }
}

/// "All but 0 report event 0 with zero fields and change nothing."
#[derive(Clone, PartialEq, Eq, Debug)]
pub struct Report {
    pub answer: Answer,
    pub event: Event,
    pub placed: Vec<usize>,
    pub rules: Vec<Rule>,
}

pub fn step(world: &mut World, step: Step) -> Report {
    match plan(world, step) {
        Ok(plan) => commit(world, plan),
        Err(refused) => Report {
            answer: refused.answer,
            event: Event::None,
            placed: Vec::new(),
            rules: refused.rules,
        },
    }
}

/// "Checked in this order, the first that applies": each line below ends the
/// planning at its refusal, and room is counted last.
pub fn plan(world: &World, step: Step) -> Result<Plan, Refused> {
    in_range(step)?;
    let mut plan = Plan::default();
    match step.kind {
        JOIN | LEAVE | TIMER => ask_relay(world, step, &mut plan)?,
        READ | WRITE => ask_desk(world, step, &mut plan)?,
        DELIVER => deliver(world, step.id, &mut plan)?,
        DROP => drop_message(world, step.id, &mut plan)?,
        _ => crash(world, step.id, &mut plan)?,
    }
    room(world, &mut plan)?;
    Ok(plan)
}

/// "kind, id or value out of range"; "A value other than 0 belongs to WRITE only."
fn in_range(step: Step) -> Result<(), Refused> {
    let highest = match step.kind {
        JOIN | LEAVE | TIMER => 7,
        READ | WRITE => 3,
        DELIVER | DROP => 255,
        CRASH => 11,
        _ => return Err(Refused::by(Answer::BadStep, Rule::BadStepKind)),
    };
    if step.id > highest {
        return Err(Refused::by(Answer::BadStep, Rule::BadStepId));
    }
    if step.value != 0 && step.kind != WRITE {
        return Err(Refused::by(Answer::BadStep, Rule::BadStepValue));
    }
    Ok(())
}

fn alive(alive: bool, rule: Rule) -> Result<(), Refused> {
    if alive {
        Ok(())
    } else {
        Err(Refused::by(Answer::Dead, rule))
    }
}

fn ask_relay(world: &World, step: Step, plan: &mut Plan) -> Result<(), Refused> {
    let mut relay = world.relays[usize::from(step.id)].clone();
    alive(relay.alive, Rule::DeadActor)?;
    match step.kind {
        JOIN => relay.join(plan)?,
        LEAVE => relay.leave(plan)?,
        _ => relay.timer(plan)?,
    }
    plan.relay = Some(relay);
    Ok(())
}

fn ask_desk(world: &World, step: Step, plan: &mut Plan) -> Result<(), Refused> {
    let mut desk = world.desks[usize::from(step.id)].clone();
    alive(desk.alive, Rule::DeadActor)?;
    match step.kind {
        READ => desk.read(plan)?,
        _ => desk.write(step.value, plan)?,
    }
    plan.desk = Some(desk);
    Ok(())
}

fn deliver(world: &World, place: u8, plan: &mut Plan) -> Result<(), Refused> {
    let empty = || Refused::by(Answer::Empty, Rule::EmptyDeliver);
    let message = world.places[usize::from(place)]
        .as_ref()
        .ok_or_else(empty)?;
    plan.freed = Some(place);
    plan.delivers = true;
    match message.to {
        Party::Relay(number) => {
            let mut relay = world.relays[usize::from(number)].clone();
            alive(relay.alive, Rule::DeadReceiver)?;
            relay.deliver(message, plan)?;
            plan.relay = Some(relay);
        }
        Party::Desk(number) => {
            let mut desk = world.desks[usize::from(number)].clone();
            alive(desk.alive, Rule::DeadReceiver)?;
            desk.deliver(message, plan)?;
            plan.desk = Some(desk);
        }
    }
    Ok(())
}

/// "DROP only frees": nobody acts, so a crashed receiver does not matter.
fn drop_message(world: &World, place: u8, plan: &mut Plan) -> Result<(), Refused> {
    let empty = || Refused::by(Answer::Empty, Rule::EmptyDrop);
    let message = world.places[usize::from(place)]
        .as_ref()
        .ok_or_else(empty)?;
    plan.freed = Some(place);
    plan.met(Rule::Dropped);
    let heard = match message.to {
        Party::Relay(number) => world.relays[usize::from(number)].alive,
        Party::Desk(number) => world.desks[usize::from(number)].alive,
    };
    if !heard {
        plan.met(Rule::DroppedDeadReceiver);
    }
    Ok(())
}

/// "CRASH who (0..7 relays, 8..11 desks)"
fn crash(world: &World, who: u8, plan: &mut Plan) -> Result<(), Refused> {
    if who < 8 {
        let mut relay = world.relays[usize::from(who)].clone();
        alive(relay.alive, Rule::DeadCrash)?;
        relay.alive = false;
        plan.relay = Some(relay);
        plan.met(Rule::CrashedRelay);
    } else {
        let mut desk = world.desks[usize::from(who - 8)].clone();
        alive(desk.alive, Rule::DeadCrash)?;
        desk.alive = false;
        plan.desk = Some(desk);
        plan.met(Rule::CrashedDesk);
    }
    Ok(())
}

/// "the step needs more messages, generators or transfers than are free at its
/// begin, its own delivered place counted as free"
fn room(world: &World, plan: &mut Plan) -> Result<(), Refused> {
    let mut rules = Vec::new();
    if plan.sends.len() > world.free() + usize::from(plan.delivers) {
        rules.push(Rule::NoRoomMessages);
    } else if plan.sends.len() > world.free() {
        plan.met(Rule::DeliveredPlaceCounted);
    }
    let body = plan
        .freed
        .and_then(|place| world.places[usize::from(place)].as_ref());
    if let Some(after) = &plan.relay {
        let before = &world.relays[usize::from(after.number)];
        if plan.generators_taken > GENERATORS - before.generators.len() {
            rules.extend([Rule::NoRoomGenerators, generator_wanted(body)]);
        }
        if plan.transfers_taken > TRANSFERS - before.transfers.len() {
            rules.extend([Rule::NoRoomTransfers, transfer_wanted(body)]);
        }
    }
    if rules.is_empty() {
        Ok(())
    } else {
        Err(Refused {
            answer: Answer::NoRoom,
            rules,
        })
    }
}

fn generator_wanted(delivered: Option<&Message>) -> Rule {
    match delivered.map(|message| &message.body) {
        None => Rule::NoRoomGeneratorsTimer,
        Some(Body::Proposal { .. }) => Rule::NoRoomGeneratorsProposal,
        Some(Body::Converged { .. }) => Rule::NoRoomGeneratorsConverged,
        Some(_) => Rule::NoRoomGeneratorsEntry,
    }
}

fn transfer_wanted(delivered: Option<&Message>) -> Rule {
    match delivered.map(|message| &message.body) {
        Some(Body::Install { .. }) => Rule::NoRoomTransfersInstall,
        _ => Rule::NoRoomTransfersState,
    }
}

/// "DELIVER frees its place first."
fn commit(world: &mut World, plan: Plan) -> Report {
    if let Some(place) = plan.freed {
        world.places[usize::from(place)] = None;
    }
    if let Some(relay) = plan.relay {
        let number = usize::from(relay.number);
        world.relays[number] = relay;
    }
    if let Some(desk) = plan.desk {
        let number = usize::from(desk.number);
        world.desks[number] = desk;
    }
    let sends = plan.sends.into_iter();
    let placed = sends.map(|message| world.place(message)).collect();
    Report {
        answer: Answer::Done,
        event: plan.event,
        placed,
        rules: plan.rules,
    }
}
