use aig::{Aig, AigEdge, PropList, Unrolling};

fn main() -> aig::Result<()> {
    let (mut circuit, start) = (Aig::new(), AigEdge::constant(false));
    let input = AigEdge::from(circuit.new_input());
    let latch = AigEdge::from(circuit.new_latch(start, Some(start)));
    let next = circuit.new_and_node(input, latch);
    circuit.set_next(0, next);
    circuit.push_edge(PropList::Bads, latch);
    let mut steps = Unrolling::new(&circuit)?;
    steps.add_step()?;
    steps.check_refuted(0, b"0\n")?;
    steps.check_inductive(0, b"0\n")?;
    println!("no bad state is ever reached");
    Ok(())
}
