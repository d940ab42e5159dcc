//! What holds of every placing: document 01, "The placing", and its demands 2 and 3, with the order of a
//! short group by document 02, 2026-04, and the greatest number of panes by 2026-05. A short group shows
//! that no other way serves more, as `include/bordavina.h` promises.

use crate::clauses::PASSES;
use crate::roof::Roof;

pub const PASSING: &str = "a pane is only given a glass that passes for it";
pub const STOCK: &str = "no glass is given to more panes than its stock";
pub const SPARE: &str = "where a pane has 0, every sheet of the glasses that pass for it is given";
pub const WANTED: &str = "wanted is the number of panes in the file";
pub const PLACED: &str = "placed is the number of nonzero answers";
pub const ALL_SERVED: &str = "placed is wanted exactly when every pane can be served";
pub const GREATEST: &str = "placed is the greatest number of panes that can be served";
pub const NO_GROUP: &str = "the group count is 0 where placed is wanted";
pub const GROUP: &str = "the short group is non-empty and has panes of the file, each once";
pub const SHORT: &str =
    "the sheets of the glasses that pass for the group are fewer than its panes";
pub const WHOLE: &str =
    "the panes of the short group less its sheets are exactly as many as cannot be served";
pub const LEFT: &str = "every pane that has 0 is in the short group";
pub const RISING: &str = "each id of the short group is above the one before it";

/// A rule that does not hold, and where.
#[derive(Clone, Debug, PartialEq, Eq)]
pub struct Broken {
    pub rule: &'static str,
    pub came: String,
}

impl Broken {
    pub fn new(rule: &'static str, came: String) -> Broken {
        Broken { rule, came }
    }
}

/// A placing of a roof, as the call or a text tells it: an answer for each pane, the counts, and
/// the ids of the short group.
pub struct Placing<'a> {
    pub answers: &'a [u32],
    pub placed: usize,
    pub wanted: usize,
    pub group: &'a [u32],
}

/// The broken rules of what a placing says.
pub fn check_placing(roof: &Roof, placing: &Placing) -> Vec<Broken> {
    let mut broken = Vec::new();
    let Placing {
        answers,
        placed,
        wanted,
        group,
    } = *placing;
    let panes = roof.job.panes().len();
    if wanted != panes {
        let came = format!("wanted {wanted} with {panes} panes");
        broken.push(Broken::new(WANTED, came));
    }
    let nonzero = answers.iter().filter(|&&answer| answer != 0).count();
    if placed != nonzero {
        let came = format!("placed {placed} with {nonzero} nonzero answers");
        broken.push(Broken::new(PLACED, came));
    }
    check_answers(roof, answers, &mut broken);

    let most = roof.flow.most_served;
    if (placed == wanted) != (most == panes) {
        let came = format!("placed {placed} of {wanted} where {most} can be served");
        broken.push(Broken::new(ALL_SERVED, came));
    }
    if placed.min(nonzero) < most {
        let came = format!("placed {placed} with {nonzero} nonzero answers, {most} possible");
        broken.push(Broken::new(GREATEST, came));
    }

    if placed != wanted {
        let members = members(roof, group, &mut broken);
        if !members.is_empty() {
            check_shortage(roof, &members, &mut broken);
            check_left(roof, answers, &members, &mut broken);
        }
        check_order(group, &mut broken);
    } else if !group.is_empty() {
        broken.push(Broken::new(NO_GROUP, format!("a group of {}", group.len())));
    }
    broken
}

/// The broken rules of the placing and the group of the max flow. If none is broken, the flow is right: its
/// placing shows that so many panes can be served, and its group that no more can.
pub fn check_flow(roof: &Roof) -> Vec<Broken> {
    let panes = roof.job.panes();
    let glass_id = |glass: usize| u32::from(roof.job.glasses()[glass].id);
    let glasses = roof.flow.glass_of.iter();
    let answers: Vec<u32> = glasses.map(|glass| glass.map_or(0, glass_id)).collect();
    let members = roof.flow.group.iter();
    let mut group: Vec<u32> = members.map(|&pane| panes[pane].id.into()).collect();
    group.sort();
    let placing = Placing {
        answers: &answers,
        placed: roof.flow.most_served,
        wanted: panes.len(),
        group: &group,
    };
    check_placing(roof, &placing)
}

fn check_answers(roof: &Roof, answers: &[u32], broken: &mut Vec<Broken>) {
    let panes = roof.job.panes();
    let glasses = roof.job.glasses();
    let mut given = vec![0; glasses.len()];
    for (pane, &answer) in answers.iter().enumerate() {
        if answer == 0 {
            continue;
        }
        let glass = roof.glass_of_id(answer);
        let clause = glass.map(|glass| roof.clauses[pane][glass]);
        if clause != Some(PASSES) {
            let reason = match clause {
                Some(clause) => format!("which fails by clause {clause}"),
                None => "which is no glass of the file".to_string(),
            };
            let came = format!("pane {} has {answer}, {reason}", panes[pane].id);
            broken.push(Broken::new(PASSING, came));
        }
        if let Some(glass) = glass {
            given[glass] += 1;
        }
    }
    for (glass, &count) in glasses.iter().zip(&given) {
        if count > glass.stock {
            let came = format!(
                "glass {} with {} sheets is given {count} times",
                glass.id, glass.stock
            );
            broken.push(Broken::new(STOCK, came));
        }
    }
    for pane in (0..panes.len()).filter(|&pane| answers[pane] == 0) {
        let mut passing = roof.passing(pane);
        if let Some(glass) = passing.find(|&glass| given[glass] < glasses[glass].stock) {
            let came = format!(
                "pane {} has 0, and glass {} passes and is given {} of {} times",
                panes[pane].id, glasses[glass].id, given[glass], glasses[glass].stock
            );
            broken.push(Broken::new(SPARE, came));
        }
    }
}

/// The panes of a group, each once.
fn members(roof: &Roof, group: &[u32], broken: &mut Vec<Broken>) -> Vec<usize> {
    if group.is_empty() {
        broken.push(Broken::new(GROUP, "an empty group".to_string()));
    }
    let mut members = Vec::new();
    for &id in group {
        match roof.pane_of_id(id) {
            None => {
                let came = format!("{id} in the group is no pane of the file");
                broken.push(Broken::new(GROUP, came));
            }
            Some(pane) if members.contains(&pane) => {
                let came = format!("pane {id} is in the group twice");
                broken.push(Broken::new(GROUP, came));
            }
            Some(pane) => members.push(pane),
        }
    }
    members
}

/// By how much a group is short. It is measured against the max flow, and not against the counts of the
/// placing, which have rules of their own. No group is short by more than there are panes that cannot be
/// served, for the others have a sheet each.
fn check_shortage(roof: &Roof, members: &[usize], broken: &mut Vec<Broken>) {
    let (panes, sheets) = (members.len(), roof.sheets(members));
    if sheets >= panes {
        let came = format!("a group of {panes} panes with {sheets} sheets");
        broken.push(Broken::new(SHORT, came));
    }
    let shortage = roof.shortage();
    if panes != sheets + shortage {
        let came =
            format!("{shortage} cannot be served, a group of {panes} panes with {sheets} sheets");
        broken.push(Broken::new(WHOLE, came));
    }
}

fn check_left(roof: &Roof, answers: &[u32], members: &[usize], broken: &mut Vec<Broken>) {
    let left = (0..answers.len()).filter(|pane| answers[*pane] == 0 && !members.contains(pane));
    let ids: Vec<u16> = left.map(|pane| roof.job.panes()[pane].id).collect();
    if !ids.is_empty() {
        let came = format!("panes that have 0 and are not in the group: {ids:?}");
        broken.push(Broken::new(LEFT, came));
    }
}

/// Tells of the first id that is not above the one before it. Often several groups are right, so that order
/// is a rule of its own. An id that is there twice breaks it as well.
fn check_order(group: &[u32], broken: &mut Vec<Broken>) {
    let mut neighbours = group.windows(2);
    if let Some(pair) = neighbours.find(|pair| pair[0] >= pair[1]) {
        let came = format!("{} and then {} in the group", pair[0], pair[1]);
        broken.push(Broken::new(RISING, came));
    }
}
