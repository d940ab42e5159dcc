//! Wrong texts, each of which has to be found by the rules that it breaks.

use crate::jobs::{BARE_JOB, EXAMPLE_J, FALLING_JOB, SHORT_JOB, TWO_PLACES_JOB, UNSORTED_JOB};
use compare::reader::read;
use compare::roof::Roof;
use compare::rules::{GREATEST, GROUP, LEFT, PLACED, RISING, SHORT, STOCK, WHOLE};
use compare::text::{check_text, FORM, PANES, REFUSAL, SHORT_LINE};

/// The rules that a text breaks.
fn broken_text(file: &[u8], text: &str) -> Vec<&'static str> {
    let expected = read(file).map(Roof::of);
    let expected = expected.as_ref().map_err(|refusal| *refusal);
    let broken = check_text(expected, text.as_bytes());
    broken.into_iter().map(|broken| broken.rule).collect()
}

#[test]
fn texts() {
    assert_eq!(broken_text(EXAMPLE_J, "1 7\n2 9\n2 2\n"), [""; 0]);
    for text in [
        "1 7\n2 9\n2 2",
        "1 7\n2 9\n2 2\n\n",
        "1 7\n\n2 9\n2 2\n",
        "1  7\n2 9\n2 2\n",
        "1 7 \n2 9\n2 2\n",
        " 1 7\n2 9\n2 2\n",
        "1\t7\n2 9\n2 2\n",
        "1 7\r\n2 9\n2 2\n",
        "01 7\n2 9\n2 2\n",
        "1 07\n2 9\n2 2\n",
        "1 +7\n2 9\n2 2\n",
        "1 7 0\n2 9\n2 2\n",
        "1\n2 9\n2 2\n",
        "1 7\nshort 1\n2 9\n2 2\n",
        "",
        "\n",
    ] {
        assert_eq!(broken_text(EXAMPLE_J, text), [FORM], "{text:?}");
    }
    assert_eq!(broken_text(EXAMPLE_J, "2 9\n1 7\n2 2\n"), [PANES]);
    assert_eq!(broken_text(EXAMPLE_J, "1 7\n2 2\n"), [PANES]);
    assert_eq!(broken_text(EXAMPLE_J, "1 7\n2 9\n2 2\n2 2\n"), [PANES]);
    assert_eq!(broken_text(EXAMPLE_J, "refused 1 0\n"), [FORM]);
    assert_eq!(
        broken_text(EXAMPLE_J, "1 7\n2 9\n2 2\nshort\n"),
        [SHORT_LINE]
    );
    assert_eq!(broken_text(EXAMPLE_J, "1 9\n2 9\n2 2\n"), [STOCK]);
}

#[test]
fn texts_of_a_short_job() {
    let text = |end: &str| broken_text(SHORT_JOB, &format!("1 7\n3 9\n4 0\n2 3\n{end}"));
    assert_eq!(text("short 3 4\n"), [""; 0]);
    assert_eq!(text(""), [SHORT_LINE, GROUP]);
    assert_eq!(text("short\n"), [GROUP]);
    assert_eq!(text("short 4\n"), [SHORT, WHOLE]);
    for end in [
        "short 3 4",
        "short  3 4\n",
        "short 3 4 \n",
        "short 3 04\n",
        "short: 3 4\n",
        "Short 3 4\n",
        "short 3 4\nshort 3 4\n",
    ] {
        assert_eq!(text(end), [FORM], "{end:?}");
    }
}

/// The right panes, but not by id: document 02, 2026-04.
#[test]
fn short_lines_out_of_order() {
    let text = |end: &str| {
        let text = format!("100 9\n9 9\n55 7\n10 0\n3 4\n{end}");
        broken_text(UNSORTED_JOB, &text)
    };
    assert_eq!(text("short 9 10 100\n"), [""; 0]);
    for (order, line) in [
        ("file order", "short 100 9 10\n"),
        ("highest first", "short 100 10 9\n"),
        ("as text", "short 10 100 9\n"),
        ("the first two exchanged", "short 10 9 100\n"),
        ("the last two exchanged", "short 9 100 10\n"),
    ] {
        assert_eq!(text(line), [RISING], "{order}");
    }
    assert_eq!(text("short 9 9 10 100\n"), [GROUP, RISING]);
    assert_eq!(text("short 100 9\n"), [SHORT, WHOLE, LEFT, RISING]);
}

#[test]
fn short_lines_in_file_order_where_ids_fall() {
    let all = |end: &str| {
        let text = format!("9999 9\n10 9\n9 9\n1 0\n3 4\n{end}");
        broken_text(FALLING_JOB, &text)
    };
    assert_eq!(all("short 1 9 10 9999\n"), [""; 0]);
    assert_eq!(all("short 9999 10 9 1\n"), [RISING]);
    let both = |end: &str| broken_text(BARE_JOB, &format!("9999 0\n1 0\n0 2\n{end}"));
    assert_eq!(both("short 1 9999\n"), [""; 0]);
    assert_eq!(both("short 9999 1\n"), [RISING]);
}

/// Document 02, 2026-05: fewer panes than can be served, and groups that do not show the whole shortage.
#[test]
fn texts_of_a_roof_short_in_two_places() {
    let text = |text: &str| broken_text(TWO_PLACES_JOB, text);
    let right = "1 8\n3 9\n4 0\n6 7\n5 0\n3 5\n";
    let group = |end: &str| text(&format!("{right}{end}"));
    assert_eq!(group("short 3 4 5 6\n"), [""; 0]);
    assert_eq!(group("short 3 4\n"), [WHOLE, LEFT]);
    assert_eq!(group("short 4 5 6\n"), [WHOLE]);
    assert_eq!(group("short 1 3 4 5 6\n"), [WHOLE]);
    let fewer = "1 9\n3 0\n4 0\n6 7\n5 0\n2 5\nshort 3 4 5 6\n";
    assert_eq!(text(fewer), [GREATEST]);
    let made_up = "1 9\n3 0\n4 0\n6 7\n5 0\n3 5\nshort 3 4 5 6\n";
    assert_eq!(text(made_up), [PLACED, GREATEST]);
}

/// The lines of panes stay in file order.
#[test]
fn lines_of_panes_by_id() {
    let text = "1 0\n9 9\n10 9\n9999 9\n3 4\nshort 1 9 10 9999\n";
    assert_eq!(broken_text(FALLING_JOB, text), [PANES]);
}

#[test]
fn texts_of_a_refused_file() {
    assert_eq!(broken_text(b"--", "refused 1 0\n"), [""; 0]);
    for text in [
        "refused 1 0",
        "refused 1  0\n",
        "refused 2 0\n",
        "refused 1 2\n",
        "refused 01 0\n",
        "0 0\n",
        "refused 1 0\n0 0\n",
        "",
    ] {
        assert_eq!(broken_text(b"--", text), [REFUSAL], "{text:?}");
    }
}
