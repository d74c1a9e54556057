//! Paths of gates without a latch, under labels.
use crate::flow::Constraint;
use crate::graph::Graph;

/// By gate the gates of the longest path to it, itself among them, and the gate before it there.
struct Paths {
    lengths: Vec<usize>,
    before: Vec<usize>,
}

impl Paths {
    fn of(graph: &Graph, labels: &[i64]) -> Paths {
        let size = graph.variables();
        let (mut readers, mut waits) = (vec![Vec::new(); size], vec![0; size]);
        for edge in graph.edges.iter().filter(|it| graph.is_gate(it.source) && graph.is_gate(it.reader)) {
            if graph.between(edge, labels) == 0 {
                readers[edge.source].push(edge.reader);
                waits[edge.reader] += 1;
            }
        }
        let mut ready: Vec<usize> = (0..size).filter(|it| graph.is_gate(*it) && waits[*it] == 0).collect();
        let mut paths = Paths { lengths: vec![0; size], before: vec![0; size] };
        ready.iter().for_each(|it| paths.lengths[*it] = 1);
        while let Some(gate) = ready.pop() {
            for reader in &readers[gate] {
                if paths.lengths[gate] >= paths.lengths[*reader] {
                    paths.lengths[*reader] = paths.lengths[gate] + 1;
                    paths.before[*reader] = gate;
                }
                waits[*reader] -= 1;
                if waits[*reader] == 0 {
                    ready.push(*reader);
                }
            }
        }
        paths
    }
}

/// The gates of the longest path.
pub fn longest(graph: &Graph, labels: &[i64]) -> usize {
    Paths::of(graph, labels).lengths.into_iter().max().unwrap_or(0)
}

/// What each retiming within a bound on levels keeps and this one doesn't: a latch on a path of one gate more, to each gate past the
/// bound. None if this one is within the bound.
pub fn broken(graph: &Graph, labels: &[i64], bound: usize) -> Vec<Constraint> {
    let paths = Paths::of(graph, labels);
    let ends = (0..graph.variables()).filter(|gate| paths.lengths[*gate] > bound);
    let first = |gate| (0..bound).fold(gate, |at, _| paths.before[at]);
    ends.map(|to| (first(to), to)).map(|(from, to)| Constraint { from, to, least: 1 + labels[to] - labels[from] }).collect()
}
