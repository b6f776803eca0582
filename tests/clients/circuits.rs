//! Makes the calls on circuits in memory that scripts on standard input say, through `Aig`, and prints how each ended.
//!
//! Scripts and what is printed are those of tests/circuits/driver.c; the room for an answer, which a line ends with, isn't looked at. A call
//! that would panic isn't made: its condition, as the crate documents it, gives the status. After every second line the fields of the circuits are
//! read anew from the library, and after the others they are those that the calls kept up.

use aig::{Aig, AigEdge, AigNodeType, Lbool, PropList, Status, TernarySimulate, Unrolling};
use std::io::BufRead;
use std::str::SplitAsciiWhitespace;

// ---- how a call ends

const EMPTY: u32 = 110;
const RANGE: u32 = 111;
const FREE_LEAF: u32 = 113;
const NOT_FREE: u32 = 116;
const NOT_UTF8: u32 = 117;
const NO_NAME: u32 = 118;
const NOT_ADMITTED: u32 = 119;
const NO_BEGINNING: u32 = 120;
const COUNT: u32 = 121;
const VALUE: u32 = 122;

/// What a call tells, or why it isn't made.
type Told = Result<String, Status>;

fn require(holds: bool, status: u32) -> Result<(), Status> {
    if holds { Ok(()) } else { Err(Status(status)) }
}

fn nothing() -> Told {
    Ok(String::new())
}

fn one(item: impl ToString) -> Told {
    Ok(format!(" {}", item.to_string()))
}

fn answer(holds: bool) -> Told {
    one(u32::from(holds))
}

fn list<T: ToString>(items: impl IntoIterator<Item = T>) -> Told {
    let words: Vec<String> = items.into_iter().map(|item| item.to_string()).collect();
    one(if words.is_empty() { "-".to_string() } else { words.join(",") })
}

fn hex(bytes: &[u8]) -> Told {
    one(if bytes.is_empty() { "-".to_string() } else { bytes.iter().map(|byte| format!("{byte:02x}")).collect() })
}

fn marks(marked: impl Iterator<Item = bool>) -> Told {
    one(marked.map(|mark| if mark { '1' } else { '0' }).collect::<String>())
}

// ---- what is held

fn literal(edge: AigEdge) -> u32 {
    edge.to_lit().into()
}

fn edge_of(literal: u32) -> AigEdge {
    AigEdge::from_lit(literal.into())
}

fn number(value: Lbool) -> u8 {
    [Lbool::FALSE, Lbool::TRUE, Lbool::NONE].iter().position(|it| *it == value).expect("a value") as u8
}

fn node_row(aig: &Aig, id: usize) -> [u32; 3] {
    assert_eq!(aig[id].node_id(), id);
    match aig[id].typ() {
        AigNodeType::False => [0, 0, 0],
        AigNodeType::Leaf => [1, 0, 0],
        AigNodeType::And(fanin0, fanin1) => [2, literal(*fanin0), literal(*fanin1)],
    }
}

fn latch_row(latch: &aig::AigLatch) -> [u64; 4] {
    [latch.input as u64, literal(latch.next).into(), latch.init.map_or(0, literal).into(), latch.init.is_some().into()]
}

struct Sum(u32);

impl Sum {
    fn add(&mut self, word: usize) {
        self.0 ^= word as u32;
        for _ in 0..32 {
            self.0 = self.0 >> 1 ^ if self.0 & 1 == 1 { 0xedb88320 } else { 0 };
        }
    }

    fn add_all(&mut self, items: impl ExactSizeIterator<Item = usize>) {
        self.add(items.len());
        items.for_each(|item| self.add(item));
    }

    fn add_edges(&mut self, edges: &[AigEdge]) {
        self.add_all(edges.iter().map(|edge| literal(*edge) as usize));
    }

    fn add_circuit(&mut self, aig: &Aig) {
        self.add(aig.nodes.len());
        (0..aig.nodes.len()).flat_map(|id| node_row(aig, id)).for_each(|word| self.add(word as usize));
        self.add_all(aig.inputs.iter().copied());
        self.add(aig.latchs.len());
        aig.latchs.iter().flat_map(latch_row).for_each(|word| self.add(word as usize));
        [&aig.outputs, &aig.bads, &aig.constraints, &aig.fairness].into_iter().for_each(|edges| self.add_edges(edges));
        self.add(aig.justice.len());
        aig.justice.iter().for_each(|edges| self.add_edges(edges));
        let mut names: Vec<_> = aig.symbols.iter().collect();
        names.sort();
        self.add(names.len());
        for (node, name) in names {
            self.add(*node);
            self.add_all(name.bytes().map(usize::from));
        }
    }

    fn add_numbers(&mut self, numbers: &[i32]) {
        self.add_all(numbers.iter().map(|number| *number as usize));
    }

    fn add_unrolling(&mut self, unrolling: &Unrolling) -> Result<(), Status> {
        self.add_numbers(&unrolling.initial_clauses()?);
        for step in 0..=unrolling.steps()? {
            self.add_numbers(&unrolling.step_clauses(step)?);
            self.add_edges(&unrolling.bads(step)?);
            self.add_all(if step > 0 { unrolling.added_inputs(step)? } else { Vec::new() }.into_iter());
        }
        Ok(())
    }

    fn add_values(&mut self, values: &[Lbool]) {
        self.add_all(values.iter().map(|value| number(*value).into()));
    }
}

/// A simulation, and the circuit that it borrows, which lives on.
#[derive(Clone)]
struct Running {
    aig: &'static Aig,
    simulation: TernarySimulate<'static>,
}

impl Running {
    /// Returns the values of the nodes in the last step, of which there are none before the first.
    fn values(&self) -> Vec<Lbool> {
        let edges = (0..).map(AigEdge::from).take_while(|edge| self.simulation.has_value(*edge));
        edges.map(|edge| self.simulation.value(edge)).collect()
    }
}

// ---- what a line says

struct Words<'a>(SplitAsciiWhitespace<'a>);

impl Words<'_> {
    fn word(&mut self) -> &str {
        self.0.next().filter(|word| *word != "-").unwrap_or_default()
    }

    fn number(&mut self) -> usize {
        self.word().parse().expect("a number")
    }

    fn edge(&mut self) -> AigEdge {
        edge_of(self.number() as u32)
    }

    fn numbers(&mut self) -> Vec<usize> {
        self.word().split(',').filter(|word| !word.is_empty()).map(|word| word.parse().expect("a number")).collect()
    }

    fn edges(&mut self) -> Vec<AigEdge> {
        self.numbers().into_iter().map(|number| edge_of(number as u32)).collect()
    }

    fn bytes(&mut self) -> Vec<u8> {
        let word = self.word();
        (0..word.len() / 2).map(|i| u8::from_str_radix(&word[2 * i..2 * i + 2], 16).expect("a byte")).collect()
    }

    fn list(&mut self) -> Result<PropList, Status> {
        let lists = [PropList::Outputs, PropList::Bads, PropList::Constraints, PropList::Fairness];
        lists.get(self.number()).copied().ok_or(Status(RANGE))
    }

    /// An edge that may be missing, as a word says that stands before it.
    fn option(&mut self) -> Option<AigEdge> {
        let (is_there, edge) = (self.number() == 1, self.edge());
        is_there.then_some(edge)
    }
}

/// So many values.
fn values(bytes: &[u8], count: usize) -> Result<Vec<Lbool>, Status> {
    require(bytes.len() == count, COUNT)?;
    let value = |byte: &u8| [Lbool::FALSE, Lbool::TRUE, Lbool::NONE].get(usize::from(*byte)).copied().ok_or(Status(VALUE));
    bytes.iter().map(value).collect()
}

fn require_edges(aig: &Aig, edges: &[AigEdge]) -> Result<(), Status> {
    require(edges.iter().all(|edge| aig.has_edge(*edge)), RANGE)
}

#[derive(Default)]
struct Script {
    circuits: [Option<Aig>; 3],
    running: [Option<Running>; 3],
    unrollings: [Option<Unrolling>; 3],
    lines: usize,
}

impl Script {
    fn circuit(&mut self, words: &mut Words) -> Result<&mut Aig, Status> {
        self.circuits[words.number()].as_mut().ok_or(Status(EMPTY))
    }

    /// Two circuits, of which the first may change.
    fn two(&mut self, words: &mut Words) -> Result<(&mut Aig, &Aig), Status> {
        let places = [words.number(), words.number()];
        let [first, other] = self.circuits.get_disjoint_mut(places).expect("two handles are two");
        Ok((first.as_mut().ok_or(Status(EMPTY))?, other.as_ref().ok_or(Status(EMPTY))?))
    }

    fn simulation(&mut self, words: &mut Words) -> Result<&mut Running, Status> {
        self.running[words.number()].as_mut().ok_or(Status(EMPTY))
    }

    fn unrolling(&mut self, words: &mut Words) -> Result<&mut Unrolling, Status> {
        self.unrollings[words.number()].as_mut().ok_or(Status(EMPTY))
    }

    /// Makes the call of a line on handles as wholes.
    fn run(&mut self, call: &str, words: &mut Words) -> Told {
        match call {
            "circuit_new" => self.circuits[words.number()] = Some(Aig::new()),
            "circuit_free" => self.circuits[words.number()] = None,
            "circuit_clone" => {
                let copy = self.circuit(words)?.clone();
                self.circuits[words.number()] = Some(copy);
            }
            "circuit_from_aiger" => {
                let place = words.number();
                self.circuits[place] = Some(Aig::from_aiger(&words.bytes(), words.number())?);
            }
            "circuit_begins_with" => {
                let (aig, from) = self.two(words)?;
                return answer(aig.begins_with(from));
            }
            "circuit_merge" => {
                let (aig, other) = self.two(words)?;
                aig.merge(other);
            }
            "circuit_unroll" => {
                let (aig, from) = self.two(words)?;
                require(aig.begins_with(from), NO_BEGINNING)?;
                aig.unroll(from);
            }
            "simulation_new" => {
                let aig = self.circuit(words)?;
                let state = values(&words.bytes(), aig.latchs.len())?;
                let aig: &'static Aig = Box::leak(Box::new(aig.clone()));
                self.running[words.number()] = Some(Running { aig, simulation: TernarySimulate::new(aig, state) });
            }
            "simulation_free" => self.running[words.number()] = None,
            "simulation_clone" => {
                let copy = self.simulation(words)?.clone();
                self.running[words.number()] = Some(copy);
            }
            "unrolling_new" => {
                let made = Unrolling::new(self.circuit(words)?)?;
                self.unrollings[words.number()] = Some(made);
            }
            "unrolling_free" => self.unrollings[words.number()] = None,
            _ if call.starts_with("unrolling") => return unroll(self.unrolling(words)?, call, words),
            _ if call.starts_with("simulation") => return simulate(self.simulation(words)?, call, words),
            _ => {
                let aig = self.circuit(words)?;
                return build(aig, call, words).or_else(|| change(aig, call, words)).or_else(|| replace(aig, call, words)).unwrap_or_else(|| ask(aig, call, words));
            }
        }
        nothing()
    }

    fn sum(&mut self) -> u32 {
        let mut sum = Sum(!0);
        let is_anew = self.lines % 2 == 0;
        for (place, circuit) in self.circuits.iter_mut().enumerate() {
            sum.add(place);
            if let Some(aig) = circuit {
                // Of no further step it is the same circuit, whose fields are read from the library.
                sum.add_circuit(&if is_anew { aig.unroll_to(0) } else { aig.clone() });
            }
        }
        for (place, running) in self.running.iter().enumerate() {
            sum.add(place);
            if let Some(running) = running {
                sum.add_values(&running.simulation.state());
                sum.add_values(&running.values());
            }
        }
        for (place, unrolling) in self.unrollings.iter().enumerate() {
            sum.add(place);
            if let Some(unrolling) = unrolling {
                sum.add_unrolling(unrolling).expect("each step is there");
            }
        }
        !sum.0
    }

    fn line(&mut self, line: &str) -> String {
        let mut words = Words(line.split_ascii_whitespace());
        let call = words.word().to_string();
        self.lines += 1;
        let told = match self.run(&call, &mut words) {
            Ok(told) => format!("0{told}"),
            Err(status) => status.0.to_string(),
        };
        format!("{told} #{:08x}", self.sum())
    }
}

// ---- calls, by what they do

/// Adds leaves and gates, if the call is one that does.
fn build(aig: &mut Aig, call: &str, words: &mut Words) -> Option<Told> {
    Some(match call {
        "circuit_new_leaf_node" => one(aig.new_leaf_node()),
        "circuit_new_input" => one(aig.new_input()),
        "circuit_add_input" => {
            let node = words.number();
            require(aig.is_free_leaf(node), NOT_FREE).and_then(|()| {
                aig.add_input(node);
                nothing()
            })
        }
        "circuit_new_latch" => {
            let (next, init) = (words.edge(), words.option());
            require_edges(aig, &[next, init.unwrap_or(next)]).and_then(|()| one(aig.new_latch(next, init)))
        }
        "circuit_add_latch" => {
            let (node, next, init) = (words.number(), words.edge(), words.option());
            let refused = require(aig.is_free_leaf(node), NOT_FREE).and_then(|()| require_edges(aig, &[next, init.unwrap_or(next)]));
            refused.and_then(|()| {
                aig.add_latch(node, next, init);
                nothing()
            })
        }
        _ => return join(aig, call, words),
    })
}

/// Joins edges, if the call is one that does.
fn join(aig: &mut Aig, call: &str, words: &mut Words) -> Option<Told> {
    type Two = fn(&mut Aig, AigEdge, AigEdge) -> AigEdge;
    type All = fn(&mut Aig, Vec<AigEdge>) -> AigEdge;
    let two: Option<Two> = match call {
        "circuit_trivial_new_and_node" => Some(Aig::trivial_new_and_node),
        "circuit_new_and_node" => Some(Aig::new_and_node),
        "circuit_trivial_new_or_node" => Some(Aig::trivial_new_or_node),
        "circuit_new_or_node" => Some(Aig::new_or_node),
        "circuit_new_imply_node" => Some(Aig::new_imply_node),
        "circuit_new_eq_node" => Some(Aig::new_eq_node),
        _ => None,
    };
    let all: Option<All> = match call {
        "circuit_trivial_new_ands_node" => Some(Aig::trivial_new_ands_node),
        "circuit_new_ands_node" => Some(Aig::new_ands_node),
        "circuit_trivial_new_ors_node" => Some(Aig::trivial_new_ors_node),
        "circuit_new_ors_node" => Some(Aig::new_ors_node),
        _ => None,
    };
    if let Some(two) = two {
        let (a, b) = (words.edge(), words.edge());
        return Some(require_edges(aig, &[a, b]).and_then(|()| one(literal(two(aig, a, b)))));
    }
    all.map(|all| {
        let edges = words.edges();
        require_edges(aig, &edges).and_then(|()| one(literal(all(aig, edges))))
    })
}

/// Changes single entries, if the call is one that does.
fn change(aig: &mut Aig, call: &str, words: &mut Words) -> Option<Told> {
    let done = match call {
        "circuit_set_next" => {
            let (i, next) = (words.number(), words.edge());
            require(i < aig.latchs.len() && aig.has_edge(next), RANGE).map(|()| aig.set_next(i, next))
        }
        "circuit_set_init" => {
            let (i, init) = (words.number(), words.option());
            let holds = i < aig.latchs.len() && init.is_none_or(|edge| aig.has_edge(edge));
            require(holds, RANGE).map(|()| aig.set_init(i, init))
        }
        "circuit_set_node" => set_node(aig, words),
        "circuit_push_edge" => words.list().and_then(|list| {
            let edge = words.edge();
            require_edges(aig, &[edge]).map(|()| aig.push_edge(list, edge))
        }),
        "circuit_set_edge" => words.list().and_then(|list| {
            let (i, edge) = (words.number(), words.edge());
            require(i < aig.edges(list).len() && aig.has_edge(edge), RANGE).map(|()| aig.set_edge(list, i, edge))
        }),
        "circuit_set_edges" => words.list().and_then(|list| {
            let edges = words.edges();
            require_edges(aig, &edges).map(|()| aig.set_edges(list, &edges))
        }),
        "circuit_clear_edges" => words.list().map(|list| aig.clear_edges(list)),
        "circuit_push_justice" => {
            let edges = words.edges();
            require_edges(aig, &edges).map(|()| aig.push_justice(edges))
        }
        "circuit_clear_justice" => {
            aig.clear_justice();
            Ok(())
        }
        "circuit_set_symbol" => {
            let (node, name) = (words.number(), words.bytes());
            let named = require(aig.has_node(node), RANGE).and_then(|()| String::from_utf8(name).map_err(|_| Status(NOT_UTF8)));
            named.map(|name| aig.set_symbol(node, &name))
        }
        _ => return None,
    };
    Some(done.and_then(|()| nothing()))
}

fn set_node(aig: &mut Aig, words: &mut Words) -> Result<(), Status> {
    let (id, a, b) = (words.number(), words.edge(), words.edge());
    require(aig.has_node(id) && aig[id].is_and(), NOT_ADMITTED)?;
    let mut node = aig[id].clone();
    node.set_fanin0(a);
    node.set_fanin1(b);
    require(aig.admits(id, &node), NOT_ADMITTED)?;
    aig.set_node(id, node);
    Ok(())
}

/// Puts another circuit in place of one, if the call is one that does.
fn replace(aig: &mut Aig, call: &str, words: &mut Words) -> Option<Told> {
    match call {
        "circuit_coi_refine" => {
            let (refined, restore) = aig.coi_refine();
            assert_eq!(restore.len(), refined.num_nodes());
            *aig = refined;
        }
        "circuit_aig_move" => *aig = aig.aig_move(),
        "circuit_compress_property" => {
            let old = aig.bads.clone();
            assert_eq!(old, aig.compress_property());
        }
        "circuit_gate_init_to_constraint" => aig.gate_init_to_constraint(),
        "circuit_reencode" if !aig.is_closed() => return Some(Err(Status(FREE_LEAF))),
        "circuit_reencode" => *aig = aig.reencode(),
        "circuit_unroll_to" => *aig = aig.unroll_to(words.number()),
        "circuit_strash" => *aig = aig.strash(),
        _ => return None,
    }
    Some(nothing())
}

/// Tells what a circuit has, or is worth.
fn ask(aig: &Aig, call: &str, words: &mut Words) -> Told {
    match call {
        "circuit_write_text" => hex(&aig.write_text()?),
        "circuit_write_binary" => hex(&aig.write_binary()?),
        "circuit_get_symbol" => hex(aig.get_symbol(words.number()).ok_or(Status(NO_NAME))?.as_bytes()),
        "circuit_num_nodes" => one(aig.num_nodes()),
        "circuit_nodes" => list((0..aig.nodes.len()).map(|id| node_row(aig, id).map(|word| word.to_string()).join(":"))),
        "circuit_inputs" => list(&aig.inputs),
        "circuit_latchs" => list(aig.latchs.iter().map(|latch| latch_row(latch).map(|word| word.to_string()).join(":"))),
        "circuit_edges" => list(aig.edges(words.list()?).iter().map(|edge| literal(*edge))),
        "circuit_num_justice" => one(aig.justice.len()),
        "circuit_justice" => list(aig.justice.get(words.number()).ok_or(Status(RANGE))?.iter().map(|edge| literal(*edge))),
        "circuit_ands" => list(aig.ands_iter().map(|node| node.node_id())),
        "circuit_symbols" => {
            let mut named: Vec<_> = aig.symbols.keys().collect();
            named.sort();
            list(named)
        }
        "circuit_has_node" => answer(aig.has_node(words.number())),
        "circuit_has_edge" => answer(aig.has_edge(words.edge())),
        "circuit_is_free_leaf" => answer(aig.is_free_leaf(words.number())),
        "circuit_is_closed" => answer(aig.is_closed()),
        "circuit_fits_lits" => answer(aig.fits_lits()),
        "circuit_admits" => {
            let (id, a, b) = (words.number(), words.edge(), words.edge());
            answer(aig.has_node(id) && aig[id].is_and() && {
                let mut node = aig[id].clone();
                node.set_fanin0(a);
                node.set_fanin1(b);
                aig.admits(id, &node)
            })
        }
        "circuit_fanin_logic_cone" => {
            let edges = words.edges();
            require_edges(aig, &edges)?;
            marks(aig.fanin_logic_cone(&edges).into_iter())
        }
        "circuit_coi" => {
            let roots = words.numbers();
            require(roots.iter().all(|root| aig.has_node(*root)), RANGE)?;
            let cone = aig.coi(&roots);
            marks(aig.nodes_range_with_false().map(|id| cone.contains(&id)))
        }
        _ => value(aig, call, words),
    }
}

/// Tells clauses, or values in a step.
fn value(aig: &Aig, call: &str, words: &mut Words) -> Told {
    match call {
        "circuit_cnf" => {
            let dimacs = |lit: &aig::Lit| (usize::from(lit.var()) as i64 + 1) * if lit.polarity() { 1 } else { -1 };
            let clauses = aig.cnf(words.number() == 1);
            list(clauses.iter().flat_map(|clause| clause.iter().map(dimacs).chain([0])))
        }
        "circuit_ternary_simulate" => {
            let (inputs, state) = (words.bytes(), words.bytes());
            require(state.len() == aig.latchs.len() || inputs.len() != aig.inputs.len(), COUNT)?;
            let (inputs, state) = (values(&inputs, aig.inputs.len())?, values(&state, aig.latchs.len())?);
            let found = aig.ternary_simulate(&inputs, &state);
            hex(&found.into_iter().map(number).collect::<Vec<u8>>())
        }
        "circuit_simulate" => {
            let (state, inputs) = (words.bytes(), words.bytes());
            require(inputs.len() == aig.inputs.len() || state.len() != aig.latchs.len(), COUNT)?;
            let (state, inputs) = (values(&state, aig.latchs.len())?, values(&inputs, aig.inputs.len())?);
            let mut simulation = TernarySimulate::new(aig, state);
            simulation.simulate(inputs);
            let found = aig.nodes_range_with_false().map(|id| number(simulation.value(id.into())));
            let after: Vec<u8> = simulation.state().into_iter().map(number).collect();
            Ok(hex(&after)? + &hex(&found.collect::<Vec<u8>>())?)
        }
        _ => panic!("{call} is a call"),
    }
}

/// Makes a call on a simulation.
fn simulate(running: &mut Running, call: &str, words: &mut Words) -> Told {
    let count = running.aig.inputs.len();
    match call {
        "simulation_simulate" => {
            running.simulation.simulate(values(&words.bytes(), count)?);
            nothing()
        }
        "simulation_has_value" => answer(running.simulation.has_value(words.edge())),
        "simulation_value" => {
            let edge = words.edge();
            require(running.simulation.has_value(edge), RANGE)?;
            hex(&[number(running.simulation.value(edge))])
        }
        "simulation_state" => hex(&running.simulation.state().into_iter().map(number).collect::<Vec<u8>>()),
        "simulation_simulate_all" => {
            let (inputs, steps, edge) = (words.bytes(), words.number(), words.edge());
            require(running.aig.has_edge(edge), RANGE)?;
            require(inputs.len() as u128 == steps as u128 * count as u128, COUNT)?;
            let inputs = values(&inputs, inputs.len())?;
            let each: Vec<Vec<Lbool>> = (0..steps).map(|step| inputs[step * count..][..count].to_vec()).collect();
            hex(&running.simulation.simulate_all(&each, edge).into_iter().map(number).collect::<Vec<u8>>())
        }
        _ => panic!("{call} is a call"),
    }
}

/// Makes a call on a circuit that is unrolled step by step.
fn unroll(unrolling: &mut Unrolling, call: &str, words: &mut Words) -> Told {
    match call {
        "unrolling_add_step" => unrolling.add_step().and_then(|()| nothing()),
        "unrolling_steps" => one(unrolling.steps()?),
        "unrolling_step_clauses" => list(unrolling.step_clauses(words.number())?),
        "unrolling_initial_clauses" => list(unrolling.initial_clauses()?),
        "unrolling_bads" => list(unrolling.bads(words.number())?.into_iter().map(literal)),
        "unrolling_added_inputs" => list(unrolling.added_inputs(words.number())?),
        "unrolling_check_refuted" => unrolling.check_refuted(words.number(), &words.bytes()).and_then(|()| nothing()),
        "unrolling_check_inductive" => unrolling.check_inductive(words.number(), &words.bytes()).and_then(|()| nothing()),
        _ => panic!("{call} is a call"),
    }
}

fn main() {
    let mut script = Script::default();
    for line in std::io::stdin().lock().lines().map(|line| line.expect("a line")) {
        if line == "script" {
            script = Script::default();
            println!("script 0");
        } else {
            println!("{}", script.line(&line));
        }
    }
}
