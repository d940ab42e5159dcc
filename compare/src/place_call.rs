//! What holds of a call of `bordavina_place`: the rules of its placing or its refusal, and that it
//! writes no other entry of the lent lists. Document 01, "The placing" and "What each cause gives".

use crate::bordavina::PlaceResult;
use crate::lent::LentList;
use crate::refusal::Refusal;
use crate::roof::Roof;
use crate::rules::{check_placing, Broken, Placing, GROUP};

pub const REFUSED: &str = "a refused call gives its number and offset, and the rest is 0";
pub const ACCEPTED: &str = "a call that is not refused gives number 0 and offset 0";
pub const ANSWERS_LEFT: &str = "other entries of the answer list are untouched";
pub const GROUP_LEFT: &str = "other entries of the group list are untouched";

/// The two lists after a call.
pub struct Lists {
    pub answers: LentList,
    pub group: LentList,
}

/// The broken rules of a call on an accepted file, with lists that are long enough.
pub fn check_placed(roof: &Roof, answer: &PlaceResult, lists: &Lists) -> Vec<Broken> {
    let mut broken = Vec::new();
    if (answer.number, answer.offset) != (0, 0) {
        broken.push(Broken::new(ACCEPTED, format!("{answer:?}")));
    }
    let panes = roof.job.panes().len();
    let Some(group) = lists.group.entries().get(..answer.group) else {
        let length = lists.group.entries().len();
        let came = format!("a group of {} in a list of {length}", answer.group);
        broken.push(Broken::new(GROUP, came));
        return broken;
    };
    let placing = Placing {
        answers: &lists.answers.entries()[..panes],
        placed: answer.placed,
        wanted: answer.wanted,
        group,
    };
    broken.extend(check_placing(roof, &placing));
    broken.extend(check_untouched(lists, panes, answer.group));
    broken
}

/// The broken rules of a call that is refused.
pub fn check_refused(refusal: Refusal, answer: &PlaceResult, lists: &Lists) -> Vec<Broken> {
    let mut broken = Vec::new();
    let expected = PlaceResult::from(refusal);
    if *answer != expected {
        let came = format!("{answer:?} for {expected:?}");
        broken.push(Broken::new(REFUSED, came));
    }
    broken.extend(check_untouched(lists, 0, 0));
    broken
}

/// The lists may only be written in so many entries from the front.
fn check_untouched(lists: &Lists, answers: usize, group: usize) -> Vec<Broken> {
    let answers = lists.answers.written_beyond(answers);
    let group = lists.group.written_beyond(group);
    let answers = answers.map(|came| Broken::new(ANSWERS_LEFT, came));
    let group = group.map(|came| Broken::new(GROUP_LEFT, came));
    answers.into_iter().chain(group).collect()
}
