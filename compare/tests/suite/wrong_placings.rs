//! Wrong placings, each of which has to be found by the rules that it breaks.

use crate::jobs::{
    BARE_JOB, BARE_PANE_JOB, CUT_JOB, EXAMPLE_J, FALLING_JOB, HOUSE_JOB, RIBBON_JOB, SHORT_JOB,
    TWO_PLACES_JOB, UNSORTED_JOB,
};
use compare::reader::read;
use compare::roof::Roof;
use compare::rules::{
    check_placing, Placing, ALL_SERVED, GREATEST, GROUP, LEFT, NO_GROUP, PASSING, PLACED, RISING,
    SHORT, SPARE, STOCK, WANTED, WHOLE,
};

/// The rules that a placing breaks.
fn broken(
    file: &[u8],
    answers: &[u32],
    (placed, wanted): (usize, usize),
    group: &[u32],
) -> Vec<&'static str> {
    let roof = Roof::of(read(file).expect("an accepted file"));
    let placing = Placing {
        answers,
        placed,
        wanted,
        group,
    };
    let broken = check_placing(&roof, &placing);
    broken.into_iter().map(|broken| broken.rule).collect()
}

#[test]
fn right_placings() {
    assert_eq!(broken(EXAMPLE_J, &[7, 9], (2, 2), &[]), [""; 0]);
    assert_eq!(broken(SHORT_JOB, &[7, 9, 0], (2, 3), &[3, 4]), [""; 0]);
    assert_eq!(broken(SHORT_JOB, &[7, 0, 9], (2, 3), &[3, 4]), [""; 0]);
    assert_eq!(broken(RIBBON_JOB, &[7, 9], (2, 2), &[]), [""; 0]);
    assert_eq!(broken(CUT_JOB, &[9, 0], (1, 2), &[1, 2]), [""; 0]);
    assert_eq!(broken(CUT_JOB, &[0, 9], (1, 2), &[1, 2]), [""; 0]);
    assert_eq!(broken(HOUSE_JOB, &[7, 9], (2, 2), &[]), [""; 0]);
}

#[test]
fn first_fit() {
    let rules = broken(EXAMPLE_J, &[9, 0], (1, 2), &[2]);
    assert_eq!(rules, [ALL_SERVED, GREATEST, SHORT]);
    let rules = broken(RIBBON_JOB, &[9, 0], (1, 2), &[1]);
    assert_eq!(rules, [ALL_SERVED, GREATEST, SHORT]);
    let rules = broken(HOUSE_JOB, &[9, 0], (1, 2), &[2]);
    assert_eq!(rules, [ALL_SERVED, GREATEST, SHORT]);
}

/// Document 02, 2026-05. No pane that has 0 has a sheet to spare, and the group is right, or lacks a pane.
#[test]
fn fewer_than_the_greatest_number() {
    let rules = broken(SHORT_JOB, &[9, 0, 0], (1, 3), &[3, 4]);
    assert_eq!(rules, [GREATEST]);
    let rules = broken(TWO_PLACES_JOB, &[9, 0, 0, 7, 0], (2, 5), &[3, 4, 5, 6]);
    assert_eq!(rules, [GREATEST]);
    let rules = broken(BARE_PANE_JOB, &[9, 0, 0], (1, 3), &[2, 8]);
    assert_eq!(rules, [GREATEST]);
    let rules = broken(BARE_PANE_JOB, &[9, 0, 0], (1, 3), &[8]);
    assert_eq!(rules, [GREATEST, LEFT]);
}

/// The answers are right, and placed is one less or one more.
#[test]
fn placed_is_not_the_greatest_number() {
    let placed = |placed| broken(TWO_PLACES_JOB, &[8, 9, 0, 7, 0], (placed, 5), &[3, 4, 5, 6]);
    assert_eq!(placed(2), [PLACED, GREATEST]);
    assert_eq!(placed(3), [""; 0]);
    assert_eq!(placed(4), [PLACED]);
}

#[test]
fn nothing_placed() {
    let rules = broken(SHORT_JOB, &[0, 0, 0], (0, 3), &[3, 4]);
    assert_eq!(rules, [SPARE, SPARE, SPARE, GREATEST, LEFT]);
}

#[test]
fn counts_made_up() {
    assert_eq!(broken(EXAMPLE_J, &[7, 9], (3, 3), &[]), [WANTED, PLACED]);
    let rules = broken(SHORT_JOB, &[7, 9, 0], (3, 3), &[]);
    assert_eq!(rules, [PLACED, ALL_SERVED]);
    assert_eq!(broken(SHORT_JOB, &[7, 9, 0], (2, 4), &[3, 4]), [WANTED]);
}

#[test]
fn glass_that_does_not_pass() {
    assert_eq!(broken(EXAMPLE_J, &[9, 7], (2, 2), &[]), [PASSING]);
    assert_eq!(broken(EXAMPLE_J, &[8, 9], (2, 2), &[]), [PASSING]);
    assert_eq!(broken(RIBBON_JOB, &[9, 7], (2, 2), &[]), [PASSING]);
    assert_eq!(broken(HOUSE_JOB, &[9, 7], (2, 2), &[]), [PASSING]);
}

/// By sight size, glass 7 would pass.
#[test]
fn glass_smaller_than_the_cut_size() {
    let rules = broken(CUT_JOB, &[9, 7], (2, 2), &[]);
    assert_eq!(rules, [PASSING, ALL_SERVED]);
    assert_eq!(broken(CUT_JOB, &[7, 9], (2, 2), &[]), rules);
}

#[test]
fn glass_over_its_stock() {
    assert_eq!(broken(EXAMPLE_J, &[9, 9], (2, 2), &[]), [STOCK]);
    let rules = broken(SHORT_JOB, &[7, 9, 9], (3, 3), &[]);
    assert_eq!(rules, [STOCK, ALL_SERVED]);
}

#[test]
fn wrong_groups() {
    let group = |group: &[u32]| broken(SHORT_JOB, &[7, 9, 0], (2, 3), group);
    assert_eq!(group(&[]), [GROUP]);
    assert_eq!(group(&[3, 4, 5]), [GROUP]);
    assert_eq!(group(&[4]), [SHORT, WHOLE]);
    assert_eq!(group(&[1, 3, 4]), [SHORT, WHOLE]);
    assert_eq!(broken(EXAMPLE_J, &[7, 9], (2, 2), &[1]), [NO_GROUP]);
}

/// Short groups that do not show the whole shortage. Where the answers are right, a group without one of the
/// panes that have 0 never does.
#[test]
fn groups_that_show_a_part() {
    let group = |group: &[u32]| broken(TWO_PLACES_JOB, &[8, 9, 0, 7, 0], (3, 5), group);
    assert_eq!(group(&[3, 4, 5, 6]), [""; 0]);
    for (name, ids) in [("first place", [3, 4]), ("second place", [5, 6])] {
        assert_eq!(group(&ids), [WHOLE, LEFT], "{name}");
    }
    for (name, ids) in [("without pane 3", [4, 5, 6]), ("without pane 6", [3, 4, 5])] {
        assert_eq!(group(&ids), [WHOLE], "{name}");
    }
    for (name, ids) in [("without pane 4", [3, 5, 6]), ("without pane 5", [3, 4, 6])] {
        assert_eq!(group(&ids), [WHOLE, LEFT], "{name}");
    }
    assert_eq!(group(&[1, 3, 4, 5, 6]), [WHOLE]);
    assert_eq!(group(&[4, 5]), [SHORT, WHOLE]);
    assert_eq!(group(&[3, 6]), [SHORT, WHOLE, LEFT]);
    assert_eq!(group(&[1]), [SHORT, WHOLE, LEFT]);
}

/// The right panes, but not by id: document 02, 2026-04.
#[test]
fn groups_out_of_order() {
    let group = |group: &[u32]| broken(UNSORTED_JOB, &[9, 9, 7, 0], (3, 4), group);
    assert_eq!(group(&[9, 10, 100]), [""; 0]);
    for (order, ids) in [
        ("file order", [100, 9, 10]),
        ("highest first", [100, 10, 9]),
        ("as text", [10, 100, 9]),
        ("the first two exchanged", [10, 9, 100]),
        ("the last two exchanged", [9, 100, 10]),
    ] {
        assert_eq!(group(&ids), [RISING], "{order}");
    }
}

#[test]
fn all_panes_in_file_order_where_ids_fall() {
    let group = |group: &[u32]| broken(FALLING_JOB, &[9, 9, 9, 0], (3, 4), group);
    assert_eq!(group(&[1, 9, 10, 9999]), [""; 0]);
    assert_eq!(group(&[9999, 10, 9, 1]), [RISING]);
}

/// Without glasses, every pane has to be in the group.
#[test]
fn one_of_two_panes_without_a_glass() {
    let group = |group: &[u32]| broken(BARE_JOB, &[0, 0], (0, 2), group);
    assert_eq!(group(&[1]), [WHOLE, LEFT]);
    assert_eq!(group(&[9999]), [WHOLE, LEFT]);
    assert_eq!(group(&[1, 9999]), [""; 0]);
    assert_eq!(group(&[9999, 1]), [RISING]);
}

/// Which group is listed stays open, if it shows the whole shortage.
#[test]
fn any_whole_group_by_id() {
    let group = |group: &[u32]| broken(BARE_PANE_JOB, &[7, 9, 0], (2, 3), group);
    assert_eq!(group(&[8]), [""; 0]);
    assert_eq!(group(&[2, 8]), [""; 0]);
    assert_eq!(group(&[1, 2, 8]), [""; 0]);
    assert_eq!(group(&[8, 2]), [RISING]);
    assert_eq!(group(&[1, 8]), [SHORT, WHOLE]);
    assert_eq!(group(&[2]), [SHORT, WHOLE, LEFT]);
}

/// An id that is there twice is told as such and as not rising, whether or not its two places are
/// neighbours.
#[test]
fn an_id_twice() {
    let group = |group: &[u32]| broken(SHORT_JOB, &[7, 9, 0], (2, 3), group);
    for ids in [[3, 3, 4], [3, 4, 4], [3, 4, 3], [4, 3, 4]] {
        assert_eq!(group(&ids), [GROUP, RISING], "{ids:?}");
    }
    assert_eq!(group(&[3, 3]), [GROUP, SHORT, WHOLE, LEFT, RISING]);
}

/// A wrong group is told by its own rules, in order or not.
#[test]
fn wrong_groups_out_of_order() {
    let group = |group: &[u32]| broken(SHORT_JOB, &[7, 9, 0], (2, 3), group);
    assert_eq!(group(&[4, 1]), [SHORT, WHOLE, RISING]);
    assert_eq!(group(&[4, 3, 1]), [SHORT, WHOLE, RISING]);
    assert_eq!(group(&[5, 3, 4]), [GROUP, RISING]);
    assert_eq!(group(&[3, 4, 0]), [GROUP, RISING]);
    assert_eq!(broken(EXAMPLE_J, &[7, 9], (2, 2), &[2, 1]), [NO_GROUP]);
}
