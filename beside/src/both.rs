//! One world in both programs.

use crate::engine::{self, TOLD};
use crate::lent::{same, same_world, Lent};
use crate::tally::Tally;
use second::image::{encode, encode_into, SIZE};
use second::plan::Event;
use second::refusal::Answer;
use second::step::{step, Report, Step};
use second::world::World;

/// What told's bytes are before a step, and stay where it is refused.
pub const UNTOLD: u8 = 0xee;

pub struct Both {
    pub world: World,
    lent: Lent,
    told: Lent,
    image: Vec<u8>,
    before: Vec<u8>,
}

/// The nine bytes that tell of a step, high byte first.
pub fn told(event: Event) -> [u8; TOLD] {
    let (who, count, desk, last) = match event {
        Event::None => (0, 0, 0, 0),
        Event::Opened { relay, view } => (relay, 0, 0, u32::from(view.0)),
        Event::ReadEnded { desk, stamp, value } | Event::WriteEnded { desk, stamp, value } => {
            (desk, stamp.count, stamp.desk, value)
        }
    };
    let [high, low] = count.to_be_bytes();
    let [a, b, c, d] = last.to_be_bytes();
    [event.number(), who, high, low, desk, a, b, c, d]
}

impl Both {
    /// Each makes its own start; the lent bytes were something else before.
    pub fn start(mask: u8) -> Result<Both, String> {
        let world = World::start(mask).ok_or("mask 0 is no start")?;
        let mut both = Both::over(world, Lent::filled(SIZE, 0x5a));
        same(
            "start's answer",
            engine::start(both.lent.bytes_mut(), mask),
            0,
        )?;
        both.compare()?;
        Ok(both)
    }

    /// The engine is lent the second program's image.
    pub fn of(world: World) -> Both {
        let image = encode(&world);
        Both::over(world, Lent::of(&image))
    }

    fn over(world: World, lent: Lent) -> Both {
        Both {
            world,
            lent,
            told: Lent::filled(TOLD, 0),
            image: vec![0; SIZE],
            before: vec![0; SIZE],
        }
    }

    fn compare(&mut self) -> Result<(), String> {
        encode_into(&self.world, &mut self.image);
        same_world(self.lent.bytes(), &self.image, "the second program")?;
        self.lent.margins()
    }

    pub fn good(&self) -> Result<(), String> {
        same("good", engine::good(self.lent.bytes()), 0)
    }

    pub fn step(&mut self, asked: Step, tally: &mut Tally) -> Result<Report, String> {
        self.compared(asked, tally)
            .map_err(|why| format!("{asked:?}: {why}"))
    }

    fn compared(&mut self, asked: Step, tally: &mut Tally) -> Result<Report, String> {
        self.before.copy_from_slice(self.lent.bytes());
        self.told.bytes_mut().fill(UNTOLD);
        let answer = engine::step(self.lent.bytes_mut(), asked, self.told.bytes_mut());
        let report = step(&mut self.world, asked);
        tally.count(&report);
        same("answer", answer, report.answer.number())?;
        if report.answer == Answer::Done {
            same("told", self.told.bytes(), &told(report.event)[..])?;
        } else {
            same("told", self.told.bytes(), &[UNTOLD; TOLD][..])?;
            same_world(self.lent.bytes(), &self.before, "the refused step found")?;
        }
        self.told.margins()?;
        self.compare()?;
        Ok(report)
    }
}
