//! The proved circuit library: functions from the bytes of AIGER files to answers, and circuits that stay in memory (`Aig`).
//!
//! The functions of this crate call those of `aig.h`, whose promises are proved. This crate itself isn't proved. The functions on files
//! can be called from several threads. `Aig`, `AigEdge`, `AigLatch`, `AigNode` and `TernarySimulate` have the names and the calls of the
//! crate aig 0.4.6. `Unrolling` unrolls a circuit step by step.

use std::cell::Cell;
use std::fmt;

mod calls;
mod circuit;
mod edge;
// Edges in lists are joined by the calls for two.
#[allow(dead_code)]
mod handle_calls;
mod held;
mod logic;
mod made;
mod ternary;
mod unrolling;

/// Nothing: clauses are made by `Aig::cnf`, and the crate aig has this module, too.
pub mod cnf {}

pub use circuit::{Aig, Lists, PropList};
pub use edge::{AigEdge, AigLatch, AigNode, AigNodeType};
pub use logic::{DagCnf, Lbool, Lit, LitVvec, Var, VarVMap};
pub use made::*;
pub use ternary::TernarySimulate;
pub use unrolling::Unrolling;

/// The reason why a call has no answer: a status of `aig.h` above 1. It is printed as the message that the programs print.
#[derive(Clone, Copy, PartialEq, Eq)]
pub struct Status(pub u32);

/// The answer of a call, or the reason why there is none.
pub type Result<T> = std::result::Result<T, Status>;

impl fmt::Display for Status {
    fn fmt(&self, f: &mut fmt::Formatter<'_>) -> fmt::Result {
        // SAFETY: as in `given`.
        let text = given(128, |out, len, needed| unsafe { calls::aig_message(self.0, out, len, needed) });
        f.write_str(&String::from_utf8_lossy(&text.unwrap_or_default()))
    }
}

impl fmt::Debug for Status {
    fn fmt(&self, f: &mut fmt::Formatter<'_>) -> fmt::Result {
        write!(f, "Status({}): {self}", self.0)
    }
}

impl std::error::Error for Status {}

/// Clauses as DIMACS numbers, with a 0 after each clause, and the literals of inputs, latches and bad state properties, in the file's
/// order.
#[derive(Clone, Debug, PartialEq, Eq)]
pub struct Clauses {
    /// The largest variable of the clauses.
    pub variables: usize,
    /// The numbers.
    pub numbers: Vec<i32>,
    /// The literals of the inputs, step by step.
    pub inputs: Vec<Vec<i32>>,
    /// The literals of the latches at step 0.
    pub latches: Vec<i32>,
    /// The literals of the bad state properties at the last step.
    pub bads: Vec<i32>,
}

/// A bad state that a witness shows.
#[derive(Clone, Copy, Debug, PartialEq, Eq)]
pub struct Shown {
    /// The number of the bad state property, counted from 0.
    pub bad: usize,
    /// The step, counted from 0.
    pub step: usize,
}

/// A fair lasso that a witness shows.
#[derive(Clone, Copy, Debug, PartialEq, Eq)]
pub struct Lasso {
    /// The number of the justice property, counted from 0.
    pub justice: usize,
    /// The step at which the loop starts, counted from 0.
    pub start: usize,
    /// The last step. After it, the state is the same as before the first step of the loop.
    pub last: usize,
}

/// The initial size of the buffer for an answer.
const ROOM: usize = 1 << 16;

/// Makes a call, and returns the items of its answer. The call gets a buffer of `room` items, and a place for the number of items. If
/// they don't fit, the call is repeated with a larger buffer.
fn given<T: Copy + Default>(room: usize, call: impl Fn(*mut T, usize, *mut usize) -> u32) -> Result<Vec<T>> {
    let mut out = vec![T::default(); room];
    loop {
        let mut needed = 0;
        match call(out.as_mut_ptr(), out.len(), &mut needed) {
            0 => {
                out.truncate(needed);
                return Ok(out);
            }
            1 => out.resize(needed, T::default()),
            status => return Err(Status(status)),
        }
    }
}

/// Returns the result of a check with a given status.
fn held(status: u32) -> Result<()> {
    match status {
        0 => Ok(()),
        status => Err(Status(status)),
    }
}

/// Returns the numbers of inputs and latches of a file, from its header line, which has to be valid.
fn counts(file: &[u8]) -> (usize, usize) {
    let line = file.split(|byte| *byte == b'\n').next().unwrap_or_default();
    let text = String::from_utf8_lossy(line);
    let mut words = text.split(' ').skip(2).map(|word| word.parse().unwrap_or_default());
    (words.next().unwrap_or_default(), words.next().unwrap_or_default())
}

/// Returns the clauses of a file's query for step `k` as numbers, and the literals of inputs, latches and bad state properties. A file
/// without bad state properties is refused.
pub fn query_numbers(file: &[u8], k: u64, optimize: bool) -> Result<Clauses> {
    let (variables, clauses_len) = (Cell::new(0), Cell::new(0));
    let mut numbers = given(ROOM, |out, len, needed| unsafe {
        let (variables, clauses_len) = (variables.as_ptr(), clauses_len.as_ptr());
        calls::aig_query_numbers(file.as_ptr(), file.len(), k, optimize, out, len, needed, variables, clauses_len)
    })?;
    let (input_count, latch_count) = counts(file);
    let steps = k as usize + 1;
    let mut places = numbers.split_off(clauses_len.get());
    let mut latches = places.split_off(steps * input_count);
    let bads = latches.split_off(latch_count);
    let inputs = (0..steps).map(|t| places[t * input_count..][..input_count].to_vec()).collect();
    Ok(Clauses { variables: variables.get(), numbers, inputs, latches, bads })
}
