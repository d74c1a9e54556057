//! Cleaning, pass after pass: latches that never leave their reset and twins of earlier ones go, gates come down to constants, literals
//! or earlier gates, and what no property rests on goes.
use crate::circuit::{ordered, Circuit, FREE};
use crate::tidy::PairTable;
use std::collections::HashMap;

/// What stands for each latch and gate, and the fan-ins of the gates after replacement.
struct Merged {
    first: u32,
    stands: Vec<u32>,
    pairs: Vec<[u32; 2]>,
}

impl Merged {
    fn literal(&self, literal: u32) -> u32 {
        match (literal >> 1).checked_sub(self.first) {
            Some(place) => self.stands[place as usize] ^ (literal & 1),
            None => literal,
        }
    }

    fn of(circuit: &Circuit) -> Merged {
        let (latches, gates) = (circuit.next.len(), circuit.gates.len());
        let first = circuit.first_latch();
        let mut merged = Merged { first, stands: Vec::with_capacity(latches + gates), pairs: Vec::with_capacity(gates) };
        let mut twins = HashMap::new();
        for (k, (next, reset)) in circuit.next.iter().zip(&circuit.reset).enumerate() {
            let own = 2 * (first + k as u32);
            let is_stuck = *next == own || *next == u32::from(*reset);
            merged.stands.push(match *reset {
                FREE => own,
                constant if is_stuck => u32::from(constant),
                _ => *twins.entry((*next, *reset)).or_insert(own),
            });
        }
        let mut table = PairTable::with_room(gates);
        for (k, [larger, smaller]) in circuit.gates.iter().enumerate() {
            let [a, b] = ordered(merged.literal(*larger), merged.literal(*smaller));
            merged.pairs.push([a, b]);
            let stand = if b == 1 || a == b {
                a
            } else if b == 0 || a >> 1 == b >> 1 {
                0
            } else {
                2 * (circuit.first_gate() + table.first_like(k as u32, &merged.pairs))
            };
            merged.stands.push(stand);
        }
        merged
    }
}

fn pass(circuit: &Circuit) -> Circuit {
    let merged = Merged::of(circuit);
    let (first, latches) = (circuit.first_latch(), circuit.next.len());
    let next: Vec<u32> = circuit.next.iter().map(|it| merged.literal(*it)).collect();
    let properties: Vec<u32> = circuit.properties.iter().map(|it| merged.literal(*it)).collect();
    let mut reached = vec![false; latches + circuit.gates.len()];
    let mut left = properties.clone();
    while let Some(literal) = left.pop() {
        let place = match (literal >> 1).checked_sub(first) {
            Some(place) => place as usize,
            None => continue,
        };
        if !std::mem::replace(&mut reached[place], true) {
            match place.checked_sub(latches) {
                None => left.push(next[place]),
                Some(gate) => left.extend(merged.pairs[gate]),
            }
        }
    }
    let mut numbers = Vec::with_capacity(reached.len());
    let mut count = first;
    for is_reached in &reached {
        numbers.push(count);
        count += u32::from(*is_reached);
    }
    let renamed = |literal: u32| match (literal >> 1).checked_sub(first) {
        Some(place) => 2 * numbers[place as usize] + (literal & 1),
        None => literal,
    };
    let mut left = circuit.like(latches, circuit.gates.len());
    for k in (0..latches).filter(|k| reached[*k]) {
        left.next.push(renamed(next[k]));
        left.reset.push(circuit.reset[k]);
    }
    for k in (0..circuit.gates.len()).filter(|k| reached[latches + k]) {
        left.gates.push(merged.pairs[k].map(renamed));
        left.flows.extend(circuit.flows.get(k));
    }
    left.properties = properties.into_iter().map(renamed).collect();
    left
}

/// The circuit after passes until one changes nothing.
pub fn cleaned(circuit: &Circuit) -> Circuit {
    let size = |it: &Circuit| it.next.len() + it.gates.len();
    let (mut before, mut left) = (size(circuit), pass(circuit));
    while size(&left) < before {
        before = size(&left);
        left = pass(&left);
    }
    left
}
