//! The latches that a move over a set leaves, and the circuit after it.
use crate::circuit::{ordered, Circuit, FREE};

/// By latch and gate whether it is a known latch or a gate of the set that is read from outside the set.
pub fn border(circuit: &Circuit, set: &[bool]) -> Vec<bool> {
    let (first, latches) = (circuit.first_latch(), circuit.next.len());
    let mut is_read = vec![false; latches + set.len()];
    let mut read = |literal: u32| {
        if let Some(place) = (literal >> 1).checked_sub(first).map(|it| it as usize) {
            is_read[place] |= if place < latches { circuit.reset[place] != FREE } else { set[place - latches] };
        }
    };
    circuit.next.iter().chain(&circuit.properties).for_each(|it| read(*it));
    for (gate, _) in circuit.gates.iter().zip(set).filter(|it| !it.1) {
        gate.iter().for_each(|it| read(*it));
    }
    is_read
}

/// The values at step 0 of the set's gates.
fn resets(circuit: &Circuit, set: &[bool]) -> Vec<u8> {
    let (first, latches) = (circuit.first_latch(), circuit.next.len());
    let mut resets = vec![FREE; set.len()];
    for k in (0..set.len()).filter(|k| set[*k]) {
        let value = |literal: u32| {
            let place = ((literal >> 1) - first) as usize;
            let reset = if place < latches { circuit.reset[place] } else { resets[place - latches] };
            reset ^ (literal & 1) as u8
        };
        resets[k] = value(circuit.gates[k][0]) & value(circuit.gates[k][1]);
    }
    resets
}

/// The circuit after its latches moved over a closed set with this border: latches that stay, then those of border gates; gates outside
/// the set, then copies of its members, which read what the latches before them read.
pub fn moved(circuit: &Circuit, set: &[bool], border: &[bool]) -> Circuit {
    let (first, latches, gates) = (circuit.first_latch(), circuit.next.len(), circuit.gates.len());
    let (mut variables, mut copies) = (vec![0; latches + gates], vec![0; gates]);
    let mut count = first;
    let mut number = |table: &mut [u32], place: usize| {
        table[place] = count;
        count += 1;
    };
    let stays = |k: usize| border[k] || circuit.reset[k] == FREE;
    (0..latches).filter(|k| stays(*k)).for_each(|k| number(&mut variables, k));
    (0..gates).filter(|k| border[latches + k]).for_each(|k| number(&mut variables, latches + k));
    (0..gates).filter(|k| !set[*k]).for_each(|k| number(&mut variables, latches + k));
    (0..gates).filter(|k| set[*k]).for_each(|k| number(&mut copies, k));
    let renamed = |literal: u32| match (literal >> 1).checked_sub(first) {
        Some(place) => 2 * variables[place as usize] + (literal & 1),
        None => literal,
    };
    let advanced = |literal: u32| {
        let place = ((literal >> 1) - first) as usize;
        let ahead = if place < latches { renamed(circuit.next[place]) } else { 2 * copies[place - latches] };
        ahead ^ (literal & 1)
    };
    let resets = resets(circuit, set);
    let mut after = circuit.like(latches, gates);
    for k in (0..latches).filter(|k| stays(*k)) {
        after.next.push(renamed(circuit.next[k]));
        after.reset.push(circuit.reset[k]);
    }
    for k in (0..gates).filter(|k| border[latches + k]) {
        after.next.push(2 * copies[k]);
        after.reset.push(resets[k]);
    }
    let mut push = |k: usize, first: u32, second: u32| {
        after.gates.push(ordered(first, second));
        after.flows.push(if first < second { circuit.flows[k].turned() } else { circuit.flows[k] });
    };
    for (k, gate) in circuit.gates.iter().enumerate().filter(|it| !set[it.0]) {
        push(k, renamed(gate[0]), renamed(gate[1]));
    }
    for (k, gate) in circuit.gates.iter().enumerate().filter(|it| set[it.0]) {
        push(k, advanced(gate[0]), advanced(gate[1]));
    }
    after.properties = circuit.properties.iter().map(|it| renamed(*it)).collect();
    after
}
