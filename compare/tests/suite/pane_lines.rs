//! Pane lines of both letters, and the causes for which they are refused: document 02, 2026-03.

use crate::jobs::{accepted, refused};
use crate::table_a2::classes_and_zones;
use compare::job::Wind;
use compare::refusal::Refusal;

const GLASS: &str = "G 1 1 6 1 1 1 1 0\n";
const BY_PRESSURES: &str = "P 1 4 0 0 0 1 3 60 95\n";
const BY_CLASS: &str = "Q 1 4 0 0 0 1 3 2 1\n";

/// A pane line by this letter, with these as its id and its last two numbers.
fn line(letter: char, id: u32, first: u32, second: u32) -> String {
    format!("{letter} {id} 4 30 0 3000 900 1500 {first} {second}\n")
}

/// The refusal of a line that comes after these panes.
fn refused_after(panes: &str, line: &str) -> Refusal {
    refused(GLASS, &format!("{panes}{line}"))
}

/// The refusal of that number at the line after these panes.
fn refusal(number: usize, panes: &str) -> Refusal {
    Refusal::new(number, GLASS.len() + panes.len())
}

#[test]
fn every_class_and_zone() {
    for (class, zone) in classes_and_zones() {
        let job = accepted("", &line('Q', 1, class.into(), zone.into()));
        assert_eq!(job.panes()[0].wind, Wind::Class { class, zone });
    }
}

/// The letter alone says what the last two numbers are.
#[test]
fn the_numbers_of_a_class_by_both_letters() {
    for (class, zone) in classes_and_zones() {
        let wind = |letter| {
            let line = line(letter, 1, class.into(), zone.into());
            accepted("", &line).panes()[0].wind
        };
        let pressures = Wind::Pressures {
            down: class,
            up: zone,
        };
        assert_eq!(wind('P'), pressures);
        assert_eq!(wind('Q'), Wind::Class { class, zone });
    }
}

#[test]
fn numbers_outside() {
    for panes in ["", "P 2 4 0 0 0 1 3 60 95\n", "Q 2 4 0 0 0 1 3 2 1\n"] {
        let second = |first, second| refused_after(panes, &line('Q', 1, first, second));
        for class in [0, 11, 12, 60, 257, 1_000, 65_537, 99_999] {
            assert_eq!(second(class, 1), refusal(5, panes), "class {class}");
            assert_eq!(second(class, 2), refusal(5, panes), "class {class}");
        }
        for zone in [0, 3, 10, 95, 257, 65_537, 99_999] {
            assert_eq!(second(1, zone), refusal(5, panes), "zone {zone}");
            assert_eq!(second(10, zone), refusal(5, panes), "zone {zone}");
        }
        // The pressures of a P line, which are those of N2 in zone 1.
        assert_eq!(second(60, 95), refusal(5, panes));
    }
}

/// The first seven numbers have the allowed values of a `P` line.
#[test]
fn the_other_numbers_of_a_q_line() {
    let numbers = [1, 4, 30, 0, 3_000, 900, 1_500, 2, 1];
    let line = |numbers: [u32; 9]| {
        let fields = numbers.map(|number| format!(" {number}"));
        format!("Q{}\n", fields.concat())
    };
    let with = |at: usize, number| {
        let mut numbers = numbers;
        numbers[at] = number;
        line(numbers)
    };
    let allowed: [&[u32]; 7] = [
        &[1, 9_999],
        &[2, 4],
        &[0, 74],
        &[0, 1],
        &[0, 99_999],
        &[1, 5_000],
        &[1, 5_000],
    ];
    let outside: [&[u32]; 7] = [
        &[0, 10_000],
        &[0, 1, 3, 5],
        &[75],
        &[2],
        &[],
        &[0, 5_001],
        &[0, 5_001],
    ];
    for at in 0..7 {
        for &number in allowed[at] {
            assert_eq!(accepted("", &with(at, number)).panes().len(), 1);
        }
        for &number in outside[at] {
            assert_eq!(refused("", &with(at, number)), Refusal::new(5, 0));
        }
    }
}

#[test]
fn lines_that_are_not_of_the_form() {
    for bad in [
        "q 2 4 0 0 0 1 3 2 1\n",
        "R 2 4 0 0 0 1 3 2 1\n",
        "O 2 4 0 0 0 1 3 2 1\n",
        "G 2 4 0 0 0 1 3 2 1\n",
        "G 2 1 6 1 1 1 1 0\n",
        "PQ 2 4 0 0 0 1 3 2 1\n",
        " Q 2 4 0 0 0 1 3 2 1\n",
        "Q  2 4 0 0 0 1 3 2 1\n",
        "Q2 4 0 0 0 1 3 2 1\n",
        "Q 2 4 0 0 0 1 3 2 1",
        "Q 2 4 0 0 0 1 3 2\n",
        "Q 2 4 0 0 0 1 3\n",
        "Q 2 4 0 0 0 1 3 2 1 0\n",
        "Q 2 4 0 0 0 1 3 02 1\n",
        "Q 2 4 0 0 0 1 3 2 01\n",
        "Q 2 4 0 0 0 1 3 100000 1\n",
        "Q 2 4 0 0 0 1 3 2 100000\n",
        "Q 2 4 0 0 0 1 3 N2 1\n",
        "Q 2 4 0 0 0 1 3 2 1 \n",
        "Q 2 4 0 0 0 1 3 2 1\r\n",
        "Q\n",
    ] {
        for panes in ["", BY_PRESSURES, BY_CLASS] {
            assert_eq!(refused_after(panes, bad), refusal(4, panes), "{bad:?}");
        }
    }
}

#[test]
fn q_lines_in_the_glass_part() {
    for bad in [
        "Q 2 4 0 0 0 1 3 2 1\n",
        "Q 2 1 6 1 1 1 1 0\n",
        "q 2 1 6 1 1 1 1 0\n",
    ] {
        let second = refused(&format!("{GLASS}{bad}"), BY_CLASS);
        assert_eq!(second, Refusal::new(4, GLASS.len()), "{bad:?}");
        assert_eq!(refused(bad, BY_CLASS), Refusal::new(4, 0), "{bad:?}");
    }
}

#[test]
fn both_letters_in_any_order() {
    for letters in ["PPQ", "PQP", "QPP", "QQP", "QPQ", "PQQ", "QQQ"] {
        let lines = letters.chars().zip(1..).map(|(letter, id)| {
            let (first, second) = if letter == 'P' { (60, 95) } else { (2, 1) };
            line(letter, id, first, second)
        });
        let job = accepted(GLASS, &lines.collect::<String>());
        let read = job.panes().iter().map(|pane| match pane.wind {
            Wind::Pressures { down: 60, up: 95 } => 'P',
            Wind::Class { class: 2, zone: 1 } => 'Q',
            other => panic!("{other:?}"),
        });
        assert_eq!(read.collect::<String>(), letters);
    }
}

/// An id may be on one pane line, whatever the letters, and on a glass line besides.
#[test]
fn repeated_ids() {
    for (first, second) in [
        (BY_PRESSURES, BY_CLASS),
        (BY_CLASS, BY_PRESSURES),
        (BY_CLASS, BY_CLASS),
    ] {
        assert_eq!(refused_after(first, second), refusal(6, first));
        let between = line('P', 7, 0, 0) + &line('Q', 8, 1, 1);
        let panes = format!("{first}{between}");
        assert_eq!(refused_after(&panes, second), refusal(6, &panes));
    }
    assert_eq!(accepted(GLASS, BY_CLASS).panes().len(), 1);
}

#[test]
fn order_of_causes() {
    let second = |line: &str| refused_after(BY_PRESSURES, line).number;
    assert_eq!(second("Q 1 4 0 0 0 1 3 11 1"), 4);
    assert_eq!(second("q 1 4 0 0 0 1 3 11 1\n"), 4);
    assert_eq!(second("Q 1 4 0 0 0 1 3 11 1\n"), 5);
    assert_eq!(second("Q 1 4 0 0 0 1 3 10 3\n"), 5);
    assert_eq!(second("Q 1 4 0 0 0 1 3 10 2\n"), 6);

    let panes: String = (1..=256)
        .map(|id| line(if id % 2 == 0 { 'P' } else { 'Q' }, id, 1, 2))
        .collect();
    assert_eq!(accepted("", &panes).panes().len(), 256);
    for more in ["Q", "Q 1 4 0 0 0 1 3 11 1\n", BY_CLASS] {
        assert_eq!(refused_after(&panes, more), refusal(8, &panes), "{more:?}");
    }
}
