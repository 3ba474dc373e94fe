//! A class counted in a rectangle for a party, sure and unsure pixels apart (document 01; document
//! 02, ticket 8).

use super::judging::{judge_area, Judged};
use super::legend::{judge_class, judge_confidence, judge_legend, judge_party};
use super::screen::{judge_resolution, SCREEN_BYTES};
use super::tally::{count_registers, judge_rectangle};
use kutimuq::ffi::{Legend, PondAnswer, Rectangle};

/// What a party asks of a screen.
#[derive(Clone, Copy, Debug, Default, PartialEq, Eq)]
pub struct Question {
    pub area: Rectangle,
    pub party: u8,
    pub class: u16,
    pub floor: u8,
}

pub fn pond(screen: &[u8], resolution: u16, question: Question, legend: Legend) -> PondAnswer {
    match judge_pond(screen, resolution, question, legend) {
        Ok(answer) => answer,
        Err(refusal) => PondAnswer { refusal, ..PondAnswer::default() },
    }
}

fn judge_pond(
    screen: &[u8],
    resolution: u16,
    question: Question,
    legend: Legend,
) -> Judged<PondAnswer> {
    judge_area(screen, SCREEN_BYTES)?;
    let shape = judge_resolution(resolution)?;
    judge_rectangle(&shape, question.area)?;
    judge_party(question.party)?;
    let class = judge_class(question.class)?;
    judge_confidence(question.floor)?;
    judge_legend(&legend)?;
    let mut answer = PondAnswer::default();
    let counts = count_registers(screen, &shape, question.area);
    for (register, count) in counts.into_iter().enumerate() {
        if legend.owners[register] != question.party || legend.classes[register] != class {
            answer.other += count;
        } else if legend.confidences[register] >= question.floor {
            answer.sure += count;
        } else {
            answer.unsure += count;
        }
    }
    Ok(answer)
}
