//! Calls each item that tests/clients/surface.tsv lists, as a caller of the crate aig does, on circuits that are worked out by hand. Each panic
//! that the crate documents is caught once.

#[allow(unused_imports)]
use aig::cnf;
use aig::{Aig, AigEdge, AigLatch, AigNode, AigNodeType, Lbool, Lit, PropList, TernarySimulate, Var};
use std::cmp::Ordering;
use std::collections::{HashMap, HashSet};
use std::panic::{catch_unwind, AssertUnwindSafe, RefUnwindSafe};

fn edge(id: usize) -> AigEdge {
    AigEdge::from(id)
}

fn panics<T>(call: impl FnOnce() -> T) -> bool {
    catch_unwind(AssertUnwindSafe(call)).is_err()
}

fn edges() {
    let mut e = AigEdge::new(3, true);
    assert_eq!((e.node_id(), e.compl()), (3, true));
    assert_eq!(!e, AigEdge::new(3, false));
    assert_eq!(!e, edge(3));
    e.set_nodeid(4);
    e.set_compl(false);
    assert_eq!(e, edge(4));
    assert_eq!((e.not_if(true), e.not_if(false)), (!e, e));
    assert_eq!(AigEdge::constant(true), AigEdge::new(0, true));
    assert!(AigEdge::constant(false).is_const() && !e.is_const());
    assert!(AigEdge::constant(true).is_constant(true) && !AigEdge::constant(true).is_constant(false) && !e.is_constant(false));
    assert_eq!((AigEdge::constant(true).try_to_constant(), e.try_to_constant()), (Some(true), None));
    assert!(!AigEdge::constant(false).to_constant());
    assert!(panics(|| e.to_constant()));
    assert_eq!(AigEdge::from_lit(Lit::new(Var::new(4), true)), e);
    assert_eq!((!e).to_lit(), !Var::new(4).lit());
    assert_eq!(u32::from((!e).to_lit()), 9);
    assert!(panics(|| edge(1 << 31).to_lit()));
    assert_eq!((!e).map(&|id| id + 1), !edge(5));
    assert_eq!((edge(1).cmp(&!edge(1)), edge(1).partial_cmp(&edge(2))), (Ordering::Equal, Some(Ordering::Less)));
    assert_eq!(HashSet::from([e, e, !e]).len(), 2);
    let copy = e;
    assert_eq!(format!("{:?}", copy.clone()), "AigEdge { id: 4, complement: false }");
}

fn nodes() {
    let latch = AigLatch::new(1, edge(2), Some(AigEdge::constant(true)));
    let AigLatch { input, next, init } = latch;
    assert_eq!((input, next, init), (1, edge(2), Some(AigEdge::constant(true))));
    assert!(format!("{:?}", latch.clone()).starts_with("AigLatch { input: 1, next: AigEdge { id: 2,"));
    let (mut aig, _, _, gate) = gate();
    let mut node: AigNode = aig[3].clone();
    assert_eq!((node.node_id(), node.is_and(), node.is_leaf()), (3, true, false));
    assert_eq!((node.fanin0(), node.fanin1(), node.fanin()), (edge(1), !edge(2), (edge(1), !edge(2))));
    node.set_fanin0(!edge(1));
    node.set_fanin1(edge(2));
    assert_eq!(node.fanin(), (!edge(1), edge(2)));
    let mapped = node.map(&|id| id + 1);
    assert_eq!((mapped.node_id(), mapped.fanin()), (4, (!edge(2), edge(3))));
    assert!(aig[1].is_leaf() && !aig[0].is_leaf() && !aig[0].is_and());
    assert!(format!("{:?} {:?}", aig[0], aig[1]).contains("False } AigNode { id: 1, typ: Leaf"));
    assert!(matches!(aig[3].typ().clone(), AigNodeType::And(a, _) if a == edge(1)));
    assert!(matches!((aig[0].typ(), aig[1].typ()), (AigNodeType::False, AigNodeType::Leaf)));
    for call in [AigNode::fanin0, AigNode::fanin1] {
        assert!(panics(|| call(&aig[1])));
    }
    let mut leaf = aig[1].clone();
    assert!(panics(|| leaf.fanin()) && panics(|| leaf.set_fanin0(edge(0))) && panics(|| leaf.set_fanin1(edge(0))));
    assert!(panics(|| aig[4].clone()));
    assert!(aig.admits(3, &node));
    aig.set_node(3, node);
    assert_eq!((aig[3].fanin(), gate), ((!edge(1), edge(2)), edge(3)));
    assert!(panics(|| aig.set_node(1, aig[3].clone())));
}

/// A circuit with the inputs 1 and 2, and node 3, the and of 1 and the inverse of 2.
fn gate() -> (Aig, usize, usize, AigEdge) {
    let mut aig = Aig::new();
    let (x, y) = (aig.new_input(), aig.new_input());
    let gate = aig.new_and_node(!edge(y), edge(x));
    (aig, x, y, gate)
}

fn building() {
    let (mut aig, x, y, gate) = gate();
    assert_eq!((aig.nodes.len(), &aig.inputs, gate), (4, &vec![1, 2], edge(3)));
    let (x, y) = (edge(x), edge(y));
    assert_eq!(aig.new_and_node(x, AigEdge::constant(true)), x);
    assert_eq!(aig.new_or_node(x, !x), AigEdge::constant(true));
    assert_eq!(aig.trivial_new_and_node(x, x), edge(4));
    assert_eq!(aig.trivial_new_or_node(x, y), !edge(5));
    assert_eq!(aig[5].fanin(), (!x, !y));
    assert_eq!(aig.new_imply_node(x, x), AigEdge::constant(true));
    assert_eq!(aig.new_eq_node(x, y), !edge(8));
    assert_eq!(aig[8].fanin(), (!edge(6), !edge(7)));
    assert_eq!(aig.new_ands_node([]), AigEdge::constant(true));
    assert_eq!(aig.new_ands_node([x, y, gate]), edge(10));
    assert_eq!(aig.new_ors_node(vec![x]), x);
    assert_eq!(aig.trivial_new_ands_node([x, x]), edge(11));
    assert_eq!(aig.trivial_new_ors_node([]), AigEdge::constant(false));
    assert_eq!((aig.num_nodes(), aig.nodes_range(), aig.nodes_range_with_false()), (12, 1..12, 0..12));
    assert_eq!(aig.ands_iter().map(|node| node.node_id()).collect::<Vec<_>>(), [3, 4, 5, 6, 7, 8, 9, 10, 11]);
    assert_eq!(aig.new_leaf_node(), 12);
    assert!(aig.is_free_leaf(12) && !aig.is_closed() && aig.fits_lits());
    aig.add_input(12);
    assert_eq!((aig.inputs.last(), aig.nodes.len()), (Some(&12), 13));
    let free = aig.new_leaf_node();
    aig.add_latch(free, gate, None);
    assert_eq!(aig.new_latch(x, Some(AigEdge::constant(false))), 14);
    assert_eq!((aig.latchs[0].init, aig.latchs[1].input, aig.latchs[1].next), (None, 14, x));
    aig.set_next(0, y);
    aig.set_init(0, Some(AigEdge::constant(true)));
    assert_eq!((aig.latchs[0].next, aig.latchs[0].init), (y, Some(AigEdge::constant(true))));
    refusals(aig);
}

/// Each call that may panic because of what it is given, and leaves the circuit as it was.
fn refusals(mut aig: Aig) {
    let (missing, text) = (edge(99), aig.to_string());
    assert!(panics(|| aig.add_input(1)) && panics(|| aig.add_latch(1, edge(1), None)));
    assert!(panics(|| aig.new_latch(missing, None)));
    for call in [Aig::new_and_node, Aig::trivial_new_and_node, Aig::new_or_node, Aig::trivial_new_or_node, Aig::new_imply_node, Aig::new_eq_node] {
        assert!(panics(|| call(&mut aig, edge(1), missing)));
    }
    assert!(panics(|| aig.new_ands_node([edge(1), edge(2), missing])) && panics(|| aig.trivial_new_ands_node([missing])));
    assert!(panics(|| aig.new_ors_node([edge(1), missing])) && panics(|| aig.trivial_new_ors_node([missing])));
    assert!(panics(|| aig.set_symbol(99, "x")) && panics(|| aig.fanin_logic_cone(&[missing])) && panics(|| aig.coi(&[99])));
    assert!(panics(|| aig.push_edge(PropList::Bads, missing)) && panics(|| aig.set_edge(PropList::Bads, 0, edge(1))));
    assert!(panics(|| aig.push_justice(vec![missing])) && panics(|| aig.set_next(9, edge(1))) && panics(|| aig.set_init(9, None)));
    assert!(panics(|| aig.set_edges(PropList::Bads, &[missing])) && panics(|| aig.ternary_simulate(&[], &[])));
    assert!(panics(|| TernarySimulate::new(&aig, vec![])));
    let mut longer = Aig::new();
    assert!(panics(|| longer.unroll(&aig)));
    assert_eq!((aig.to_string(), longer.num_nodes()), (text, 1));
    longer.new_leaf_node();
    assert!(panics(|| longer.reencode()) && longer.write_text().is_err());
}

fn properties() {
    let (mut aig, x, y, gate) = gate();
    aig.push_edge(PropList::Outputs, gate);
    aig.push_edge(PropList::Bads, !gate);
    aig.push_edge(PropList::Bads, edge(x));
    aig.push_edge(PropList::Constraints, edge(y));
    aig.push_edge(PropList::Fairness, edge(x));
    aig.push_justice(vec![edge(x), gate]);
    aig.set_symbol(x, "x");
    assert_eq!((&aig.outputs, &aig.bads, &aig.constraints, &aig.fairness), (&vec![gate], &vec![!gate, edge(x)], &vec![edge(y)], &vec![edge(x)]));
    assert_eq!((&aig.justice, &aig.symbols), (&vec![vec![edge(x), gate]], &HashMap::from([(x, "x".to_string())])));
    assert_eq!((aig.get_symbol(x), aig.get_symbol(y)), (Some("x".to_string()), None));
    aig.set_edge(PropList::Bads, 1, edge(y));
    assert_eq!(aig.compress_property(), [!gate, edge(y)]);
    // The or of the two: the inverse of node 4, the and of node 3 and the inverse of 2.
    assert_eq!((&aig.bads, aig[4].fanin()), (&vec![!edge(4)], (!edge(2), edge(3))));
    let moved = aig.aig_move();
    // Leaf 5 is the new latch's, and node 6 the and of it and the constraint.
    assert_eq!((moved.constraints.len(), moved.latchs[0].input, moved.latchs[0].next), (0, 5, edge(6)));
    assert_eq!((moved.bads[0], moved.outputs[0]), (edge(7), edge(8)));
    aig.clear_edges(PropList::Outputs);
    aig.set_edges(PropList::Fairness, &[]);
    aig.clear_justice();
    assert!(aig.outputs.is_empty() && aig.fairness.is_empty() && aig.justice.is_empty());
    let text = "aag 4 2 0 0 2 1 1\n2\n4\n9\n4\n6 5 2\n8 6 5\ni0 x\n";
    assert_eq!((format!("{aig}"), aig.write_text().unwrap()), (text.to_string(), text.into()));
    let fields = "nodes: [AigNode { id: 0, typ: False }], inputs: [], latchs: [], outputs: [], bads: [], constraints: [], justice: [], fairness: []";
    assert_eq!(format!("{:?}", Aig::default()), format!("Aig {{ {fields}, symbols: {{}} }}"));
}

fn transforms() {
    let (mut aig, x, y, gate) = gate();
    aig.trivial_new_and_node(edge(y), edge(x));
    let again = aig.trivial_new_and_node(edge(x), !edge(y));
    aig.push_edge(PropList::Outputs, again);
    assert_eq!(aig.fanin_logic_cone(&[gate]), [false, true, true, true, false, false]);
    assert_eq!(aig.coi(&[3]), HashSet::from([0, 1, 2, 3]));
    let (refined, restore) = aig.coi_refine();
    assert_eq!((refined.num_nodes(), refined.outputs[0], restore.get(Var::new(3))), (4, edge(3), Some(Var::new(5))));
    let hashed = aig.strash();
    assert_eq!((hashed.num_nodes(), hashed.outputs[0]), (5, edge(3)));
    let mut merged = aig.clone();
    merged.merge(&refined);
    assert_eq!((merged.num_nodes(), &merged.inputs, &merged.outputs), (9, &vec![1, 2, 6, 7], &vec![edge(5), edge(8)]));
    // Three clauses for the output's gate, and that node 0 is false.
    let cnf = refined.cnf(true);
    assert_eq!((cnf.num_vars(), cnf.num_clauses(), cnf.clauses_of(Var::new(3)).count()), (4, 4, 3));
    let mut late = Aig::new();
    let (gate, leaf) = (late.trivial_new_and_node(AigEdge::constant(true), AigEdge::constant(true)), late.new_leaf_node());
    late.add_input(leaf);
    late.push_edge(PropList::Outputs, gate);
    assert_eq!((late.reencode().inputs.clone(), late.reencode().outputs[0]), (vec![1], edge(2)));
}

/// A counter of two bits, whose second bit begins where its input is.
fn counter() -> Aig {
    let mut aig = Aig::new();
    let (low, start) = (aig.new_leaf_node(), aig.new_input());
    let high = aig.new_latch(AigEdge::constant(false), Some(edge(start)));
    aig.add_latch(low, !edge(low), Some(AigEdge::constant(false)));
    let (sum, both) = (aig.new_eq_node(edge(low), edge(high)), aig.new_and_node(edge(low), edge(high)));
    aig.set_next(0, !sum);
    aig.push_edge(PropList::Bads, both);
    aig
}

fn machines() {
    let mut aig = counter();
    let mut two = aig.clone();
    two.unroll(&aig);
    assert_eq!((two.bads.len(), two.inputs.len(), format!("{two:?}")), (2, 2, format!("{:?}", aig.unroll_to(1))));
    assert!(two.begins_with(&aig) && !aig.begins_with(&two));
    let value = |bit| Lbool::from(bit);
    let values = aig.ternary_simulate(&[Lbool::NONE], &[value(true), value(true)]);
    assert_eq!((values[aig.bads[0].node_id()], values[2]), (Lbool::TRUE, Lbool::default()));
    let mut simulation = TernarySimulate::new(&aig, vec![value(false), value(false)]);
    // The state counts from 0 on, and both bits are true after three steps.
    let found: Vec<Lbool> = (0..4).map(|_| {
        simulation.simulate(vec![Lbool::NONE]);
        simulation.value(aig.bads[0])
    }).collect();
    assert_eq!(found, [false, false, false, true].map(value));
    assert!(panics(|| simulation.value(edge(99))) && panics(|| simulation.simulate(vec![])));
    // A simulation goes to another thread, and both types are what may be seen after a panic.
    fn is_sent<T: Send + RefUnwindSafe>(_: &T) {}
    is_sent(&simulation);
    is_sent(&aig);
    aig.gate_init_to_constraint();
    assert_eq!((aig.latchs.len(), aig.latchs[0].init, aig.constraints.len()), (3, None, 1));
}

fn files() {
    let path = std::env::temp_dir().join(format!("aig_drop_in_{}", std::process::id()));
    let (mut aig, _, _, gate) = gate();
    aig.push_edge(PropList::Outputs, gate);
    aig.to_file(&path, true);
    assert_eq!(std::fs::read_to_string(&path).unwrap(), "aag 3 2 0 1 1\n2\n4\n6\n6 5 2\n");
    aig.to_file(&path, false);
    assert_eq!(std::fs::read(&path).unwrap(), b"aig 3 2 0 1 1\n6\n\x01\x03");
    assert_eq!(Aig::from_file(&path).to_string(), aig.to_string());
    std::fs::remove_file(&path).unwrap();
    assert!(panics(|| Aig::from_file(&path)) && panics(|| aig.to_file(path.join("x"), true)));
    assert_eq!(Aig::from_aiger(b"aag 1 1 0 1 0\n2\n4\n", 9).unwrap_err().to_string(), "bad literal in outputs");
    std::thread::spawn(move || assert_eq!(aig.num_nodes(), 4)).join().unwrap();
}

fn main() {
    // What is caught isn't printed.
    let hook = std::panic::take_hook();
    std::panic::set_hook(Box::new(|_| ()));
    let parts: [fn(); 7] = [edges, nodes, building, properties, transforms, machines, files];
    let failed: Vec<usize> = (0..parts.len()).filter(|part| panics(parts[*part])).collect();
    std::panic::set_hook(hook);
    failed.iter().for_each(|part| parts[*part]());
    println!("each item was called");
}
