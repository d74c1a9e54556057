//! The least latches that any retiming of a cleaned circuit leaves (Leiserson and Saxe 1991), forward and backward, resets ignored:
//! what `fretime retime` and `fretime backward` leave is counted beside it (`bench/least`). Readers share latches. Inputs, properties,
//! free latches and rings of latches without a gate stay. With a bound on levels, constraints are made as paths would break it. Reading and
//! cleaning are those of `plain_retimer`: binary files with outputs, bad states and constraints alone.
//!
//! usage: least_retimer IN [LEVELS]
//!
//! The least count is that of a legal retiming, and also the value of a flow that no legal retiming is below. Each is added up by
//! itself, and both are printed. `shared` counts the latches if none moves, but those behind one source are shared, whatever their
//! resets.
#[allow(dead_code)]
#[path = "../plain_retimer/circuit.rs"]
mod circuit;
#[path = "../plain_retimer/cleaning.rs"]
mod cleaning;
mod flow;
mod graph;
mod levels;
#[allow(dead_code)]
#[path = "../plain_retimer/tidy.rs"]
mod tidy;

use circuit::Circuit;
use flow::{Network, Optimum};
use graph::Graph;

/// Finds the least retiming without a path of more than `bound` gates. The circuit as it was read has to be within it.
fn least(graph: &Graph, bound: usize) -> Optimum {
    let network = Network::of(graph.supplies(), graph.labels_as_read(), graph.constraints());
    network.optimum(&|labels| levels::broken(graph, labels, bound))
}

fn main() -> std::io::Result<()> {
    let words: Vec<String> = std::env::args().skip(1).collect();
    let circuit = cleaning::cleaned(&Circuit::read(&std::fs::read(&words[0])?));
    let graph = Graph::of(&circuit);
    let as_read = levels::longest(&graph, &graph.labels_as_read());
    let bound = words.get(1).map_or(usize::MAX, |it| it.parse().expect("a number of levels"));
    assert!(as_read <= bound, "the circuit itself is past the bound");
    let found = least(&graph, bound);
    let after = levels::longest(&graph, &found.labels);
    assert!(after <= bound, "a path is past the bound");
    println!("cleaned {}", circuit.next.len());
    println!("shared {}", graph.latches(&graph.labels_as_read()));
    println!("least {}", graph.latches(&found.labels));
    println!("flow {}", graph.held as i64 + found.value);
    println!("levels {as_read} to {after}");
    println!("rounds {}", found.rounds);
    Ok(())
}
