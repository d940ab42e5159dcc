//! A row of a table: a call on a job of a shape and a size, and its times.

use std::fmt;

use crate::calls::Call;
use crate::shapes::Shape;
use crate::timing::Times;

/// How many glasses and panes a job has.
#[derive(Clone, Copy)]
pub struct Size {
    pub glasses: usize,
    pub panes: usize,
}

impl fmt::Display for Size {
    fn fmt(&self, f: &mut fmt::Formatter) -> fmt::Result {
        f.pad(&format!("{} x {}", self.glasses, self.panes))
    }
}

#[derive(Clone, Copy)]
pub struct Row {
    pub call: Call,
    pub shape: Shape,
    pub size: Size,
    pub times: Times,
}

impl Row {
    /// Times a call on a job, once both sides have given the same for it.
    pub fn measure(call: Call, shape: Shape, size: Size) -> Result<Row, String> {
        let label = format!("{}, {}, {size}", call.name(), shape.name());
        eprintln!("{label}");
        let file = shape.file(size.glasses, size.panes);
        match call.time(&file) {
            Ok(times) => Ok(Row {
                call,
                shape,
                size,
                times,
            }),
            Err(difference) => Err(format!("{label}: {difference}")),
        }
    }
}

impl fmt::Display for Row {
    fn fmt(&self, f: &mut fmt::Formatter) -> fmt::Result {
        let (call, shape) = (self.call.name(), self.shape.name());
        write!(
            f,
            "{:.2} ({call}, {shape}, {})",
            self.times.ratio(),
            self.size
        )
    }
}
