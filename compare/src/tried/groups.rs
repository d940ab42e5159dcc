//! The short groups: document 01, "The placing", and document 02, 2026-04. Which group is listed is open, so
//! that these are the groups of the max flow.

use super::{named, Lines, Reading, Section};
use crate::job::Pane;
use crate::roof::Roof;

pub const SECTION: Section = Section {
    title: "short groups",
    unit: None,
    names: || named(&NAMES),
    count,
};

const NAMES: [&str; 14] = [
    "one pane of several",
    "some panes",
    "all panes of several",
    "the only pane",
    "ids not in file order",
    "letter P alone",
    "letter Q alone",
    "both letters",
    "ribbons alone",
    "ribbons and others",
    "a ribbon by class",
    "short by 2 or more, ids not in file order",
    "short by 2 or more, letter Q alone",
    "short by 2 or more, a ribbon by class",
];

fn count(reading: &Reading, lines: &mut Lines) {
    if let Ok(roof) = reading.roof {
        if roof.shortage() > 0 {
            lines.meet_each(0, met(roof));
        }
    }
}

fn met(roof: &Roof) -> [bool; NAMES.len()] {
    let panes = roof.job.panes();
    let group: Vec<Pane> = roof.flow.group.iter().map(|&pane| panes[pane]).collect();
    let by_class = count_of(&group, Pane::is_by_class);
    let ribbons = count_of(&group, Pane::is_ribbon);
    let ribbon_by_class = group.iter().any(Pane::is_ribbon_by_class);
    let reordered = !group.iter().map(|pane| pane.id).is_sorted();
    let by_more = roof.shortage() > 1;
    let (members, wanted) = (group.len(), panes.len());
    [
        members == 1 && wanted > 1,
        1 < members && members < wanted,
        members == wanted && wanted > 1,
        wanted == 1,
        reordered,
        by_class == 0,
        by_class == members,
        0 < by_class && by_class < members,
        ribbons == members,
        0 < ribbons && ribbons < members,
        ribbon_by_class,
        by_more && reordered,
        by_more && by_class == members,
        by_more && ribbon_by_class,
    ]
}

fn count_of(group: &[Pane], holds: fn(&Pane) -> bool) -> usize {
    group.iter().filter(|pane| holds(pane)).count()
}
