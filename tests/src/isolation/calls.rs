//! Calls of parties, and of numbers that are none, on one legend.

use crate::generate::{any_resolution, RESOLUTIONS};
use crate::operations::Operations;
use crate::random::Random;
use crate::reference::{Question, SCREEN_BYTES};
use kutimuq::ffi::{Legend, PondAnswer, Rectangle};
use kutimuq::refusal::{self, Refusal};

pub const FIRST_PARTY: u8 = 1;
pub const SECOND_PARTY: u8 = 2;
const CLASSES: [u16; 3] = [0, 7, 255];
const CONFIDENCES: [u8; 4] = [0, 50, 99, 100];
/// The screen that is too short.
const TOO_SHORT: usize = 2;

#[derive(Clone, Copy, Debug, PartialEq, Eq)]
pub struct Call {
    pub party: u8,
    pub what: What,
}

#[derive(Clone, Copy, Debug, PartialEq, Eq)]
pub enum What {
    Set {
        register: u8,
        class: u16,
        confidence: u8,
    },
    Release {
        register: u8,
    },
    /// Of one of the screens.
    Read {
        screen: usize,
        resolution: u16,
        question: Question,
    },
}

#[derive(Clone, Copy, Debug, PartialEq, Eq)]
pub enum Answer {
    Changed(Refusal),
    Read(PondAnswer),
}

impl Answer {
    pub fn refusal(&self) -> Refusal {
        match self {
            Answer::Changed(refusal) => *refusal,
            Answer::Read(answer) => answer.refusal,
        }
    }

    pub fn accepted(&self) -> bool {
        self.refusal().number == refusal::ACCEPTED
    }
}

impl Call {
    /// The answer, and the legend left.
    pub fn run(
        &self,
        operations: &dyn Operations,
        screens: &[Vec<u8>],
        legend: Legend,
    ) -> (Answer, Legend) {
        match self.what {
            What::Set { register, class, confidence } => {
                let set = operations.set_entry(legend, self.party, register, class, confidence);
                (Answer::Changed(set.refusal), set.legend)
            }
            What::Release { register } => {
                let released = operations.release_entry(legend, self.party, register);
                (Answer::Changed(released.refusal), released.legend)
            }
            What::Read { screen, resolution, question } => {
                let read = operations.pond(&screens[screen], resolution, question, legend);
                (Answer::Read(read), legend)
            }
        }
    }

    /// A call by either party, seldom by none.
    pub fn any(random: &mut Random) -> Call {
        let party = random.pick(&[1, 1, 1, 1, 1, 2, 2, 2, 2, 2, 0, 3]);
        Call::by(random, party)
    }

    /// Mostly allowed, and on few registers, so that the parties meet.
    pub fn by(random: &mut Random, party: u8) -> Call {
        let what = match random.below(5) {
            0 | 1 => set(random),
            2 => What::Release { register: register(random) },
            _ => reading(random, party),
        };
        Call { party, what }
    }
}

pub fn set(random: &mut Random) -> What {
    let class = random.pick(&CLASSES);
    let confidence = random.pick(&CONFIDENCES);
    What::Set {
        register: register(random),
        class: if random.once_in(20) { class + 256 } else { class },
        confidence: if random.once_in(20) { random.pick(&[101, 255]) } else { confidence },
    }
}

fn register(random: &mut Random) -> u8 {
    match random.below(16) {
        0 => random.pick(&[16, 18, 128, 255]),
        1..=3 => random.below(16) as u8,
        _ => random.below(5) as u8,
    }
}

pub fn reading(random: &mut Random, party: u8) -> What {
    let class = random.pick(&CLASSES);
    let floor = random.pick(&CONFIDENCES);
    let area = Rectangle {
        left: random.below(300),
        top: random.below(190),
        columns: if random.once_in(20) { random.pick(&[0, 700]) } else { random.between(1, 20) },
        lines: random.between(1, 10),
    };
    let question = Question {
        area,
        party,
        class: if random.once_in(20) { class + 256 } else { class },
        floor: if random.once_in(20) { random.pick(&[101, 255]) } else { floor },
    };
    let screen = if random.once_in(16) { TOO_SHORT } else { random.below(TOO_SHORT) };
    What::Read { screen, resolution: any_resolution(random), question }
}

/// Random bytes, so that all registers come.
pub fn screens(random: &mut Random) -> Vec<Vec<u8>> {
    let lengths = [SCREEN_BYTES, SCREEN_BYTES + 1, SCREEN_BYTES - 1];
    lengths.map(|length| random.bytes(length)).to_vec()
}

/// A question that is in range, without a pixel: only the legend can be refused.
pub fn of_the_legend_alone(random: &mut Random, party: u8) -> Call {
    let question = Question { party, ..Question::default() };
    Call { party, what: What::Read { screen: 0, resolution: random.pick(&RESOLUTIONS), question } }
}
