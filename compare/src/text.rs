//! The text of a job: document 01, "The program `canopy`", and for the line `short` document 02, 2026-04.
//! Since choices are open, a given text is read strictly and then held to the rules, 2026-05 included.

use crate::refusal::Refusal;
use crate::roof::Roof;
use crate::rules::{check_placing, Broken, Placing};

pub const REFUSAL: &str = "a refused file gives only the line of its refusal";
pub const FORM: &str = "lines of numbers, one space between fields, each line ended by a newline";
pub const PANES: &str = "one line for each pane in file order, then the line of placed and wanted";
pub const SHORT_LINE: &str = "a last line `short` exactly where placed and wanted differ";

/// The broken rules of the text on a file that is accepted or refused.
pub fn check_text(expected: Result<&Roof, Refusal>, text: &[u8]) -> Vec<Broken> {
    match expected {
        Ok(roof) => match Report::read(text) {
            Ok(report) => report.check(roof),
            Err(came) => vec![Broken::new(FORM, came)],
        },
        Err(Refusal { number, offset }) => {
            let line = format!("refused {number} {offset}\n");
            if text == line.as_bytes() {
                Vec::new()
            } else {
                let came = format!("{:?} for {line:?}", String::from_utf8_lossy(text));
                vec![Broken::new(REFUSAL, came)]
            }
        }
    }
}

/// The text on an accepted file, read.
#[derive(Debug, PartialEq, Eq)]
pub struct Report {
    /// Pane id and answer.
    pub panes: Vec<(u32, u32)>,
    pub placed: u32,
    pub wanted: u32,
    /// The ids of the line `short`, if there is one.
    pub short: Option<Vec<u32>>,
}

impl Report {
    /// Reads a text, or says what is wrong with its form.
    pub fn read(text: &[u8]) -> Result<Report, String> {
        let text = std::str::from_utf8(text).map_err(|_| "bytes that are no text".to_string())?;
        let lines = text.strip_suffix('\n').ok_or("no newline at the end")?;
        let mut lines: Vec<&str> = lines.split('\n').collect();

        let last = lines.last().and_then(|line| line.strip_prefix("short"));
        let short = last.map(ids).transpose()?;
        if short.is_some() {
            lines.pop();
        }
        let mut pairs: Vec<(u32, u32)> = lines.into_iter().map(pair).collect::<Result<_, _>>()?;
        let (placed, wanted) = pairs.pop().ok_or("no line of placed and wanted")?;
        Ok(Report {
            panes: pairs,
            placed,
            wanted,
            short,
        })
    }

    fn check(&self, roof: &Roof) -> Vec<Broken> {
        let ids = self.panes.iter().map(|&(id, _)| id);
        let panes = roof.job.panes().iter().map(|pane| u32::from(pane.id));
        if !ids.clone().eq(panes.clone()) {
            let ids: Vec<u32> = ids.collect();
            let panes: Vec<u32> = panes.collect();
            let came = format!("lines of panes {ids:?} for {panes:?}");
            return vec![Broken::new(PANES, came)];
        }
        let mut broken = Vec::new();
        if self.short.is_some() != (self.placed != self.wanted) {
            let came = format!("{:?} with {} {}", self.short, self.placed, self.wanted);
            broken.push(Broken::new(SHORT_LINE, came));
        }
        let answers: Vec<u32> = self.panes.iter().map(|&(_, answer)| answer).collect();
        let placing = Placing {
            answers: &answers,
            placed: self.placed as usize,
            wanted: self.wanted as usize,
            group: self.short.as_deref().unwrap_or_default(),
        };
        broken.extend(check_placing(roof, &placing));
        broken
    }
}

/// A line of two numbers.
fn pair(line: &str) -> Result<(u32, u32), String> {
    let two = line.split_once(' ');
    let two = two.and_then(|(first, second)| Some((number(first)?, number(second)?)));
    two.ok_or(format!("the line {line:?}"))
}

/// The rest of a line after `short`: a space before each id.
fn ids(rest: &str) -> Result<Vec<u32>, String> {
    let fields = rest.split(' ').collect::<Vec<_>>();
    let ids = match fields.split_first() {
        Some((&"", ids)) => ids.iter().map(|field| number(field)).collect(),
        _ => None,
    };
    ids.ok_or(format!("the line {:?}", format!("short{rest}")))
}

/// Decimal digits without a leading zero.
fn number(field: &str) -> Option<u32> {
    let digits = field.bytes().all(|byte| byte.is_ascii_digit());
    let leading_zero = field.len() > 1 && field.starts_with('0');
    if digits && !leading_zero {
        field.parse().ok()
    } else {
        None
    }
}
