//! Simulations with three values, with the names of the crate aig.

use crate::circuit::{literal, Aig};
use crate::edge::AigEdge;
use crate::handle_calls as calls;
use crate::held::{taken, Held};
use crate::logic::Lbool;
use std::marker::PhantomData;
use std::panic::RefUnwindSafe;

/// A simulation of a circuit: the state in which its next step begins, and the values of the nodes in its last step.
pub struct TernarySimulate<'a> {
    held: Held,
    /// The circuit is borrowed, though the simulation has a copy.
    circuit: PhantomData<&'a ()>,
}

// A call that panics leaves the simulation as it was.
impl RefUnwindSafe for TernarySimulate<'_> {}

// SAFETY of each call: a pointer and a length are of a slice that is borrowed for the call, and what is written is apart from it.
impl<'a> TernarySimulate<'a> {
    fn empty() -> Self {
        TernarySimulate { held: Held::simulation(), circuit: PhantomData }
    }

    /// Returns the simulation of a circuit that begins in `state`, which has a value for each latch, in order.
    ///
    /// # Panics
    ///
    /// If the number of values isn't the number of latches (`latchs`).
    pub fn new(aig: &'a Aig, state: Vec<Lbool>) -> Self {
        let (made, state) = (Self::empty(), Lbool::numbers(&state));
        taken(aig.held().call_with(&made.held, |h, to| unsafe { calls::aig_simulation_new(h, state.as_ptr(), state.len(), to) }));
        made
    }

    /// Simulates one step with the given inputs, and replaces the state by the next state.
    ///
    /// # Panics
    ///
    /// If the number of values isn't the number of inputs (`inputs`).
    pub fn simulate(&mut self, input: Vec<Lbool>) {
        let input = Lbool::numbers(&input);
        taken(self.held.call(|h| unsafe { calls::aig_simulation_simulate(h, input.as_ptr(), input.len()) }))
    }

    /// Returns the value of an edge in the last step.
    ///
    /// # Panics
    ///
    /// If no step was simulated, or the edge doesn't belong to the circuit (`has_value`).
    pub fn value(&self, e: AigEdge) -> Lbool {
        let value = self.held.tell(|h, value| unsafe { calls::aig_simulation_value(h, literal(e), value) });
        Lbool::values(vec![taken(value)])[0]
    }

    /// Returns whether a step was simulated and the edge belongs to the circuit.
    pub fn has_value(&self, e: AigEdge) -> bool {
        e.node_id() < 1 << 31
            && taken(self.held.tell(|h, answer| unsafe { calls::aig_simulation_has_value(h, literal(e), answer) }))
    }

    /// Returns the state in which the next step begins.
    pub fn state(&self) -> Vec<Lbool> {
        Lbool::values(taken(self.held.list(1024, |h, out, len, needed| unsafe { calls::aig_simulation_state(h, out, len, needed) })))
    }

    /// Simulates a step for each list of inputs, and returns the value of an edge in each step.
    ///
    /// # Panics
    ///
    /// If the number of values in a list isn't the number of inputs, or the edge doesn't belong to the circuit.
    pub fn simulate_all(&mut self, inputs: &[Vec<Lbool>], e: AigEdge) -> Vec<Lbool> {
        let width = inputs.first().map_or(0, Vec::len);
        assert!(inputs.iter().all(|input| input.len() == width), "each step has the same number of inputs");
        let (steps, input) = (inputs.len(), Lbool::numbers(&inputs.concat()));
        Lbool::values(taken(self.held.list(steps, |h, out, len, needed| unsafe {
            calls::aig_simulation_simulate_all(h, input.as_ptr(), input.len(), steps, literal(e), out, len, needed)
        })))
    }
}

impl Clone for TernarySimulate<'_> {
    fn clone(&self) -> Self {
        let made = Self::empty();
        taken(self.held.call_with(&made.held, |h, to| unsafe { calls::aig_simulation_clone(h, to) }));
        made
    }
}
