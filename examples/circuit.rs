use aig::{Aig, AigEdge, PropList};

fn main() {
    let mut circuit = Aig::new();
    let (x, y) = (AigEdge::from(circuit.new_input()), AigEdge::from(circuit.new_input()));
    let both = circuit.new_and_node(x, !y);
    circuit.push_edge(PropList::Outputs, both);
    print!("{circuit}");
}
