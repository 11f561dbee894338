//! Short names for steps and worlds, as the readings write them.
#![allow(dead_code, unused_imports)]

pub use second::hand::*;
use second::message::{Message, Party};
use second::record::rehearse;
use second::refusal::Answer;
use second::rules::Rule;
use second::sheet::{bytes_unchecked, Sheet};
use second::step::{self, step, Report, Step};
use second::world::World;

pub fn j(relay: u8) -> Step {
    Step::new(step::JOIN, relay)
}

pub fn l(relay: u8) -> Step {
    Step::new(step::LEAVE, relay)
}

pub fn t(relay: u8) -> Step {
    Step::new(step::TIMER, relay)
}

pub fn r(desk: u8) -> Step {
    Step::new(step::READ, desk)
}

pub fn w(desk: u8, value: u32) -> Step {
    Step::write(desk, value)
}

pub fn d(place: u8) -> Step {
    Step::new(step::DELIVER, place)
}

pub fn drop(place: u8) -> Step {
    Step::new(step::DROP, place)
}

pub fn crash(who: u8) -> Step {
    Step::new(step::CRASH, who)
}

pub fn record_of(mask: u8, steps: &[Step]) -> String {
    let sheet = Sheet {
        mask,
        steps: steps.to_vec(),
    };
    rehearse(&bytes_unchecked(&sheet)).0
}

pub fn run(world: &mut World, steps: &[Step]) -> Vec<Answer> {
    steps
        .iter()
        .map(|&asked| step(world, asked).answer)
        .collect()
}

pub fn sent(world: &World, report: &Report) -> Vec<Message> {
    let messages = report
        .placed
        .iter()
        .map(|&place| world.places[place].clone());
    messages
        .map(|message| message.expect("it was just placed"))
        .collect()
}

pub fn receivers(messages: &[Message]) -> Vec<Party> {
    messages.iter().map(|message| message.to).collect()
}

pub fn relays(numbers: &[u8]) -> Vec<Party> {
    numbers.iter().map(|&number| Party::Relay(number)).collect()
}

pub fn refused(report: &Report, answer: Answer, rule: Rule) {
    assert_eq!(report.answer, answer);
    assert_eq!(report.rules, vec![rule]);
    assert_eq!(report.placed, Vec::<usize>::new());
}
