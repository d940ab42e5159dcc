//! What is compared: the four calls, and their answers as `include/bordavina.rs` has them.

use crate::bordavina::{self, CheckResult, PlaceResult, VerdictResult, TEXT_SIZE};
use crate::refusal::Refusal;

/// The proved library, or a stand-in for it in a test.
pub trait Library {
    fn check(&self, file: &[u8]) -> CheckResult;
    fn verdict(&self, file: &[u8], pane: u32, glass: u32) -> VerdictResult;
    fn place(&self, file: &[u8], answers: &mut [u32], short_group: &mut [u32]) -> PlaceResult;
    fn report(&self, file: &[u8], text: &mut [u8; TEXT_SIZE]) -> usize;
}

/// The proved library.
pub struct Bordavina;

impl Library for Bordavina {
    fn check(&self, file: &[u8]) -> CheckResult {
        bordavina::check(file)
    }

    fn verdict(&self, file: &[u8], pane: u32, glass: u32) -> VerdictResult {
        bordavina::verdict(file, pane, glass)
    }

    fn place(&self, file: &[u8], answers: &mut [u32], short_group: &mut [u32]) -> PlaceResult {
        bordavina::place(file, answers, short_group)
    }

    fn report(&self, file: &[u8], text: &mut [u8; TEXT_SIZE]) -> usize {
        bordavina::report(file, text)
    }
}

impl From<Refusal> for CheckResult {
    fn from(Refusal { number, offset }: Refusal) -> CheckResult {
        CheckResult {
            number,
            offset,
            ..CheckResult::default()
        }
    }
}

impl From<Refusal> for VerdictResult {
    fn from(Refusal { number, offset }: Refusal) -> VerdictResult {
        VerdictResult {
            number,
            offset,
            ..VerdictResult::default()
        }
    }
}

impl From<Refusal> for PlaceResult {
    fn from(Refusal { number, offset }: Refusal) -> PlaceResult {
        PlaceResult {
            number,
            offset,
            ..PlaceResult::default()
        }
    }
}
