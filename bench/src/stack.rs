//! The stack that a call needs: the smallest stack of a thread that it returns on, over the largest
//! job of each shape. A thread whose stack is too small ends its process, so each try is a process.

use std::env::current_exe;
use std::hint::black_box;
use std::process::{Command, Stdio};
use std::thread;

use compare::bordavina;
use compare::job::MOST_PANES;
use compare::reader::read;

use crate::shapes::Shape;

const GLASSES: usize = 64;
const CALLS: [&str; 4] = ["check", "verdict", "place", "report"];

/// Stacks are tried in steps of a page, in units of 1024 bytes.
const STEP: usize = 4;
const LEAST: usize = 16;
const MOST: usize = 1024;

/// Prints for each call the smallest stack that it returns on.
pub fn print() -> Result<(), String> {
    println!("The smallest stack of a thread that a call returns on, in units of 1024 bytes,");
    println!("on the hardest of the five shapes with 64 glasses and 256 panes.");
    println!();
    println!("call     stack");
    for call in CALLS {
        let mut most = 0;
        for shape in 0..Shape::ALL.len() {
            most = most.max(smallest(call, shape)?);
        }
        println!("{call:<7}  {most:>5}");
    }
    Ok(())
}

/// The smallest stack that a call returns on: by halves between one that is too small and one that
/// is not.
fn smallest(call: &str, shape: usize) -> Result<usize, String> {
    let (mut low, mut high) = (LEAST / STEP, MOST / STEP);
    if !returns(call, shape, high * STEP)? {
        return Err(format!("{call} needs more than {MOST} units of stack"));
    }
    while low < high {
        let middle = (low + high) / 2;
        if returns(call, shape, middle * STEP)? {
            high = middle;
        } else {
            low = middle + 1;
        }
    }
    Ok(high * STEP)
}

/// Whether a call returns on a stack of this size, tried by a process of its own.
fn returns(call: &str, shape: usize, stack: usize) -> Result<bool, String> {
    let program = current_exe().map_err(|e| format!("no path of this program: {e}"))?;
    let tried = Command::new(program)
        .args(["stack", call, &shape.to_string(), &stack.to_string()])
        .stderr(Stdio::null())
        .status();
    match tried {
        Ok(status) => Ok(status.success()),
        Err(e) => Err(format!("a try was not started: {e}")),
    }
}

/// Makes one call on a thread with a stack of this size. What the call is lent is not on that stack.
pub fn attempt(call: &str, shape: &str, stack: &str) -> Result<(), String> {
    let number = |word: &str| {
        word.parse::<usize>()
            .map_err(|_| format!("{word} is no number"))
    };
    let shape = *Shape::ALL.get(number(shape)?).ok_or("no such shape")?;
    let stack = number(stack)? * 1024;
    let file = shape.file(GLASSES, MOST_PANES);
    let job = read(&file).map_err(|refusal| format!("safe Rust gives {refusal:?}"))?;
    let pane = u32::from(job.panes()[0].id);
    let glass = u32::from(job.glasses()[0].id);
    let mut answers = vec![0; MOST_PANES];
    let mut group = vec![0; MOST_PANES];
    let mut text = Box::new([0; bordavina::TEXT_SIZE]);
    let call: Box<dyn FnOnce() + Send> = match call {
        "check" => Box::new(move || spent(bordavina::check(&file))),
        "verdict" => Box::new(move || spent(bordavina::verdict(&file, pane, glass))),
        "place" => Box::new(move || spent(bordavina::place(&file, &mut answers, &mut group))),
        "report" => Box::new(move || spent(bordavina::report(&file, &mut text))),
        _ => return Err(format!("{call} is no call")),
    };
    let thread = thread::Builder::new().stack_size(stack).spawn(call);
    let thread = thread.map_err(|e| format!("no thread: {e}"))?;
    thread
        .join()
        .map_err(|_| "the call did not return".to_string())
}

/// The result of a call that was made for its stack alone.
fn spent<T>(result: T) {
    black_box(result);
}
