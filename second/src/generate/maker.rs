//! A sheet in the making, with the world that its steps so far lead to.

use super::random::Random;
use crate::message::{Body, Message, Party};
use crate::plan::Plan;
use crate::refusal::Answer;
use crate::sheet::Sheet;
use crate::step::{plan, step, Report, Step, DELIVER, DROP};
use crate::world::{World, PLACES};

pub struct Maker<'a> {
    pub random: &'a mut Random,
    pub world: World,
    pub mask: u8,
    pub steps: Vec<Step>,
    pub limit: usize,
    arrived: Vec<usize>,
    arrivals: usize,
}

/// What stays undelivered for a while, as a slow link or a slow relay would do.
#[derive(Clone, Copy, PartialEq, Eq, Debug)]
pub enum Hold {
    To(Party),
    From(Party),
    Installs,
    InstallsTo(u8),
    States,
    Puts,
}

impl Hold {
    pub fn keeps(self, message: &Message) -> bool {
        let install = matches!(message.body, Body::Install { .. });
        match self {
            Hold::To(party) => message.to == party,
            Hold::From(party) => message.from == party,
            Hold::Installs => install,
            Hold::InstallsTo(relay) => install && message.to == Party::Relay(relay),
            Hold::States => matches!(message.body, Body::State { .. }),
            Hold::Puts => matches!(message.body, Body::Put { .. }),
        }
    }
}

impl Maker<'_> {
    pub fn new(random: &mut Random, mask: u8, limit: usize) -> Maker<'_> {
        Maker {
            random,
            world: World::start(mask).expect("makers pick a mask above 0"),
            mask,
            steps: Vec::new(),
            limit,
            arrived: vec![0; PLACES],
            arrivals: 0,
        }
    }

    pub fn full(&self) -> bool {
        self.steps.len() >= self.limit
    }

    pub fn sheet(self) -> Sheet {
        Sheet {
            mask: self.mask,
            steps: self.steps,
        }
    }

    pub fn take(&mut self, asked: Step) -> Answer {
        let report = self.report(asked);
        report.answer
    }

    fn report(&mut self, asked: Step) -> Report {
        let report = step(&mut self.world, asked);
        self.steps.push(asked);
        for &place in &report.placed {
            self.arrivals += 1;
            self.arrived[place] = self.arrivals;
        }
        report
    }

    pub fn would(&self, asked: Step) -> Option<Plan> {
        plan(&self.world, asked).ok()
    }

    pub fn opens(&self, asked: Step) -> bool {
        self.would(asked).is_some()
    }

    /// The places of messages that pass, oldest first.
    pub fn places(&self, passes: impl Fn(&Message) -> bool) -> Vec<u8> {
        let waiting = |&place: &u8| {
            self.world.places[usize::from(place)]
                .as_ref()
                .is_some_and(&passes)
        };
        let mut places: Vec<u8> = (0..=u8::MAX).filter(waiting).collect();
        places.sort_by_key(|&place| self.arrived[usize::from(place)]);
        places
    }

    pub fn message(&self, place: u8) -> &Message {
        self.world.places[usize::from(place)]
            .as_ref()
            .expect("the place was just found filled")
    }

    pub fn drop_all(&mut self, passes: impl Fn(&Message) -> bool) {
        for place in self.places(passes) {
            if !self.full() {
                self.take(Step::new(DROP, place));
            }
        }
    }

    /// Delivers the oldest message that passes and is not refused, until none is left.
    pub fn deliver_all(&mut self, passes: impl Fn(&Message) -> bool) {
        while !self.full() {
            let places = self.places(&passes).into_iter();
            let mut steps = places.map(|place| Step::new(DELIVER, place));
            match steps.find(|&asked| self.opens(asked)) {
                Some(asked) => self.take(asked),
                None => break,
            };
        }
    }
}
