//! Asks about a machine with a bug and one without, by the packed crate alone.

/// A register that changes at each step, and is bad when it is true.
const TOGGLE: &[u8] = b"aag 1 0 1 0 0 1\n2 3\n2\n";
const RUN: &[u8] = b"1\nb0\n0\n\n\n.\n";
/// A register that stays false, and is bad when it is true; a conflict proves that it is never true.
const STUCK: &[u8] = b"aag 1 0 1 0 0 1\n2 2\n2\n";
const PROOF: &[u8] = b"4 0 2 3 0\n";

fn main() -> aig::Result<()> {
    let shown = aig::check_run(TOGGLE, RUN)?;
    println!("b{} is reached at step {}", shown.bad, shown.step);
    if let Err(why) = aig::check_refuted(TOGGLE, 1, true, PROOF) {
        println!("a proof about the other machine: {why:?}");
    }
    aig::check_refuted(STUCK, 0, true, PROOF)?;
    aig::check_inductive(STUCK, 0, false, true, PROOF)?;
    println!("no bad state is ever reached");
    Ok(())
}
