//! The causes for which the reader refuses a file, and their order.

use crate::jobs::{accepted, refused};
use compare::reader::read;
use compare::refusal::Refusal;

#[test]
fn trailer_and_length() {
    assert_eq!(read(b"t 00000 00000\n").unwrap_err(), Refusal::new(2, 0));
    assert_eq!(read(b"--T 00000 0000:\n").unwrap_err(), Refusal::new(2, 2));
    assert_eq!(read(b"--T 00002 00001\n").unwrap_err(), Refusal::new(3, 2));
    assert_eq!(read(b"--T 00000 00003\n").unwrap_err(), Refusal::new(3, 2));
    assert!(read(b"--T 00002 00002\n").is_ok());
    let mut longest = vec![0; 65_521];
    longest.extend(b"T 65521 65521\n");
    assert!(read(&longest).is_ok());
    longest.insert(0, 0);
    assert_eq!(read(&longest).unwrap_err(), Refusal::new(1, 0));
}

#[test]
fn form_of_lines() {
    let good = "G 1 1 6 1 1 1 1 0\n";
    assert_eq!(accepted(good, "").glasses().len(), 1);
    for bad in [
        "G 2 1 6 1 1 1 1 0",
        "G 2 1 6 1 1 1 1\n",
        "G 2 1 6 1 1 1 1 0 0\n",
        "G 2 1 6 1 1 1 1 00\n",
        "G 2 1 06 1 1 1 1 0\n",
        "G 2 1 6 1 1 1 100000 0\n",
        "G 2  1 6 1 1 1 1 0\n",
        "G 2\t1 6 1 1 1 1 0\n",
        "G 2 1 6 1 1 1 1 0\r\n",
        "G 2 1 6 1 1 1 1 0 \n",
        "g 2 1 6 1 1 1 1 0\n",
        "P 2 1 6 1 1 1 1 0\n",
        "\n",
    ] {
        assert_eq!(
            refused(&format!("{good}{bad}"), ""),
            Refusal::new(4, 18),
            "{bad:?}"
        );
    }
}

/// A pane of two or four edges may have any sides of 1 to 5000: document 02, 2026-01.
#[test]
fn any_sides() {
    let line = |edges, w, h| format!("P 1 {edges} 0 0 0 {w} {h} 0 0\n");
    for (one, other) in [(1, 3), (1, 4), (1000, 3001), (1666, 5000), (1, 5000)] {
        for edges in [2, 4] {
            assert_eq!(accepted("", &line(edges, one, other)).panes().len(), 1);
            assert_eq!(accepted("", &line(edges, other, one)).panes().len(), 1);
        }
    }
    for (one, other) in [(1, 5001), (0, 5000)] {
        assert_eq!(refused("", &line(4, one, other)), Refusal::new(5, 0));
        assert_eq!(refused("", &line(4, other, one)), Refusal::new(5, 0));
    }
}

#[test]
fn order_of_causes() {
    let good = "P 1 4 0 0 0 1 3 0 0\n";
    let second = |line: &str| refused("", &format!("{good}{line}")).number;
    assert_eq!(second("P 1 4 75 0 0 1 4 0 0"), 4);
    assert_eq!(second("P 1 4 75 0 0 1 4 0 0\n"), 5);
    assert_eq!(second("P 1 4 74 0 0 1 4 0 0\n"), 6);
    let glass = "G 1 1 6 1 1 1 1 0\n";
    assert_eq!(refused(&glass.repeat(2), "P").number, 6);
    assert_eq!(accepted(glass, good).panes().len(), 1);
    assert_eq!(refused("G", "P").offset, 0);

    let panes: String = (1..=256)
        .map(|id| format!("P {id} 2 0 0 0 1 9 0 0\n"))
        .collect();
    assert_eq!(accepted("", &panes).panes().len(), 256);
    assert_eq!(
        refused("", &format!("{panes}?")),
        Refusal::new(8, panes.len())
    );
    let glasses: String = (1..=64)
        .map(|id| format!("G {id} 1 6 1 1 1 1 0\n"))
        .collect();
    assert_eq!(accepted(&glasses, &panes).glasses().len(), 64);
    assert_eq!(
        refused(&format!("{glasses}?"), ""),
        Refusal::new(8, glasses.len())
    );
}
