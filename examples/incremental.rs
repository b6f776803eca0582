//! A bounded model checker with one incremental solver, whose answers it has checked: incremental FILE [BOUND]
//!
//! It is linked with the crate of lib/rust, and with Debian's libcadical.a: `-l cadical -l stdc++`.

use aig::{Aig, AigEdge, PropList, Unrolling};
use std::ffi::{c_char, c_int, c_void, CStr};

unsafe extern "C" {
    fn ccadical_init() -> *mut c_void;
    fn ccadical_set_option(solver: *mut c_void, name: *const c_char, value: c_int);
    fn ccadical_set_learn(solver: *mut c_void, state: *mut c_void, most: c_int, learn: extern "C" fn(*mut c_void, *const c_int));
    fn ccadical_add(solver: *mut c_void, literal: c_int);
    fn ccadical_assume(solver: *mut c_void, literal: c_int);
    fn ccadical_solve(solver: *mut c_void) -> c_int;
    fn ccadical_val(solver: *mut c_void, literal: c_int) -> c_int;
}

/// What could make clauses that aren't learned.
const OFF: [&CStr; 11] =
    [c"compact", c"decompose", c"elim", c"inprocessing", c"lucky", c"probe", c"subsume", c"ternary", c"transred", c"vivify", c"walk"];

/// Appends a clause that the solver learned to the proof, which is a text.
extern "C" fn learn(proof: *mut c_void, clause: *const c_int) {
    // SAFETY: `proof` is the text that was given with this function, and a 0 ends the clause.
    let literals = (0..).map(|place| unsafe { *clause.add(place) }).take_while(|literal| *literal != 0);
    unsafe { &mut *proof.cast::<String>() }.extend(literals.map(|literal| format!("{literal} ")).chain(["0\n".into()]));
}

fn literal(edge: AigEdge) -> c_int {
    (edge.node_id() as c_int + 1) * if edge.compl() { -1 } else { 1 }
}

/// Adds a last bad edge, which is true from the first step on at which a bad edge is true. So a proof about one step is about all before.
fn keep_bad(circuit: &mut Aig) {
    let no = AigEdge::constant(false);
    let latch = AigEdge::from(circuit.new_latch(no, Some(no)));
    let any = circuit.new_ors_node([latch].into_iter().chain(circuit.bads.clone()));
    circuit.set_next(circuit.latchs.len() - 1, any);
    circuit.push_edge(PropList::Bads, any);
}

fn main() -> aig::Result<()> {
    let words: Vec<String> = std::env::args().collect();
    let bound = words.get(2).map_or(10, |word| word.parse().expect("a bound"));
    let mut circuit = Aig::from_aiger(&std::fs::read(&words[1]).expect("a file"), 1 << 24)?;
    let latches: Vec<AigEdge> = circuit.latchs.iter().map(|latch| latch.input.into()).collect();
    keep_bad(&mut circuit);
    let (mut steps, mut inputs, mut proof) = (Unrolling::new(&circuit)?, vec![circuit.inputs.clone()], String::new());
    // SAFETY: the solver is used by this thread alone, and has the proof's text as long as it learns.
    let solver = unsafe { ccadical_init() };
    OFF.iter().for_each(|name| unsafe { ccadical_set_option(solver, name.as_ptr(), 0) });
    unsafe { ccadical_set_learn(solver, (&raw mut proof).cast(), c_int::MAX, learn) };
    let add = |numbers: &[c_int]| numbers.iter().for_each(|number| unsafe { ccadical_add(solver, *number) });
    let is_true = |edge: &AigEdge| (unsafe { ccadical_val(solver, edge.node_id() as c_int + 1) } > 0) != edge.compl();
    let row = |edges: &[AigEdge]| edges.iter().map(|edge| if is_true(edge) { '1' } else { '0' }).collect::<String>();
    add(&steps.initial_clauses()?);
    for k in 0..=bound {
        add(&steps.step_clauses(k)?);
        let bads = steps.bads(k)?;
        let bad = literal(bads[bads.len() - 1]);
        unsafe { ccadical_assume(solver, bad) };
        if unsafe { ccadical_solve(solver) } == 10 {
            println!("1\nb{}\n{}", row(&bads).find('1').unwrap_or(0), row(&latches));
            inputs.iter().for_each(|nodes| println!("{}", row(&nodes.iter().map(|node| AigEdge::from(*node)).collect::<Vec<_>>())));
            println!(".");
            std::process::exit(1);
        }
        add(&[-bad, 0]);
        proof += &format!("{} 0\n", -bad);
        // All checks together take about as long as the last two.
        if k & (k + 1) == 0 || k == bound {
            steps.check_refuted(k, format!("{proof}0\n").as_bytes())?;
            println!("no bad state up to step {k}");
        }
        steps.add_step()?;
        inputs.push(steps.added_inputs(k + 1)?);
    }
    Ok(())
}
