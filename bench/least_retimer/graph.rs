//! The retiming graph. Its vertices are the variables of the circuit, of which gates have a label: how many latches move from
//! behind the gate to before it. All other variables stay, and so does what reads for properties and held latches: the host, whose
//! label is 0. An edge leads from a source to a reader, with the latches between both.
use crate::circuit::{Circuit, FREE};
use crate::flow::Constraint;

/// The node of all that stays.
pub const HOST: usize = 0;

pub struct Edge {
    pub source: usize,
    pub reader: usize,
    pub latches: i64,
}

pub struct Graph {
    variables: usize,
    first_gate: usize,
    pub edges: Vec<Edge>,
    /// The latches that stay where they are: free ones, and rings of latches without a gate.
    pub held: usize,
}

/// What a variable holds: the value of a source so many steps ago. The source of a held latch is the latch itself.
#[derive(Clone, Copy)]
struct Origin {
    source: usize,
    latches: i64,
}

/// The origin of each variable.
fn origins(circuit: &Circuit) -> Vec<Origin> {
    let (first, last) = (circuit.first_latch() as usize, circuit.first_gate() as usize);
    let mut origins: Vec<Option<Origin>> = vec![None; last + circuit.gates.len()];
    let itself = |source| Some(Origin { source, latches: 0 });
    for variable in (0..origins.len()).filter(|it| *it < first || *it >= last || circuit.reset[it - first] == FREE) {
        origins[variable] = itself(variable);
    }
    let mut is_on_way = vec![false; origins.len()];
    for latch in first..last {
        let (mut way, mut at) = (Vec::new(), latch);
        while origins[at].is_none() && !is_on_way[at] {
            is_on_way[at] = true;
            way.push(at);
            at = (circuit.next[at - first] >> 1) as usize;
        }
        if origins[at].is_none() {
            let ring = way.iter().position(|it| *it == at).expect("the way met itself");
            way.drain(ring..).for_each(|it| origins[it] = itself(it));
        }
        let mut behind = origins[at].expect("the way ends where the origin is known");
        for variable in way.into_iter().rev() {
            behind.latches += 1;
            origins[variable] = Some(behind);
        }
    }
    origins.into_iter().flatten().collect()
}

impl Graph {
    pub fn of(circuit: &Circuit) -> Graph {
        let (first_latch, first_gate) = (circuit.first_latch() as usize, circuit.first_gate() as usize);
        let origins = origins(circuit);
        let edge = |reader: usize, literal: u32| {
            let Origin { source, latches } = origins[(literal >> 1) as usize];
            Edge { source, reader, latches }
        };
        let held: Vec<usize> = (first_latch..first_gate).filter(|it| origins[*it].source == *it).collect();
        let mut edges: Vec<Edge> = circuit.properties.iter().map(|it| edge(HOST, *it)).collect();
        edges.extend(held.iter().map(|it| edge(HOST, circuit.next[it - first_latch])));
        for (k, fan_ins) in circuit.gates.iter().enumerate() {
            edges.extend(fan_ins.iter().map(|it| edge(first_gate + k, *it)));
        }
        Graph { variables: origins.len(), first_gate, edges, held: held.len() }
    }

    pub fn variables(&self) -> usize {
        self.variables
    }

    pub fn is_gate(&self, variable: usize) -> bool {
        variable >= self.first_gate
    }

    /// The node that has a variable's label.
    fn node(&self, variable: usize) -> usize {
        if self.is_gate(variable) {
            variable
        } else {
            HOST
        }
    }

    /// The node whose label is the most latches of an edge from a source, and the source's label more: the mirror of its readers.
    fn mirror(&self, source: usize) -> usize {
        self.variables + source
    }

    /// The latches on an edge under labels.
    pub fn between(&self, edge: &Edge, labels: &[i64]) -> i64 {
        edge.latches + labels[self.node(edge.reader)] - labels[self.node(edge.source)]
    }

    /// By source the most latches on an edge from it, which is what it needs if its readers share; none of what nothing reads.
    fn most(&self, labels: &[i64]) -> Vec<Option<i64>> {
        let mut most = vec![None; self.variables];
        for edge in &self.edges {
            most[edge.source] = most[edge.source].max(Some(self.between(edge, labels)));
        }
        most
    }

    /// The latches of a retiming, which has to be a legal one.
    pub fn latches(&self, labels: &[i64]) -> i64 {
        assert!(self.edges.iter().all(|edge| self.between(edge, labels) >= 0), "an edge has fewer than no latches");
        self.held as i64 + self.most(labels).into_iter().flatten().sum::<i64>()
    }

    /// No edge has fewer than no latches, and no mirror less than an edge needs.
    pub fn constraints(&self) -> Vec<Constraint> {
        let mut constraints = Vec::with_capacity(2 * self.edges.len());
        for edge in &self.edges {
            let (from, to) = (self.node(edge.source), self.node(edge.reader));
            if from != to {
                constraints.push(Constraint { from, to, least: -edge.latches });
            }
            constraints.push(Constraint { from: to, to: self.mirror(edge.source), least: edge.latches });
        }
        constraints.sort_unstable();
        constraints.dedup();
        constraints
    }

    /// What each node sends: a unit from each source that is read to its mirror.
    pub fn supplies(&self) -> Vec<i64> {
        let mut supplies = vec![0; 2 * self.variables];
        for (source, most) in self.most(&vec![0; self.variables]).into_iter().enumerate() {
            if most.is_some() {
                supplies[self.node(source)] += 1;
                supplies[self.mirror(source)] -= 1;
            }
        }
        supplies
    }

    /// The labels of the circuit as it was read: 0, and what the mirrors need.
    pub fn labels_as_read(&self) -> Vec<i64> {
        let mut labels = vec![0; self.variables];
        let mirrors = self.most(&labels).into_iter().map(|it| it.unwrap_or(0));
        labels.extend(mirrors);
        labels
    }
}
