//! Forward retiming frame by frame in plain Rust, without proofs: what `fretime retime` is measured
//! beside (`bench/compare --plain`). It has the program's method (a start along what the last flow
//! did, pulses with exact labels, a check in place of a cleaning) or, in place of the pulses,
//! blocking flows; and it writes the same bytes. Binary files with outputs, bad states and
//! constraints alone.
//!
//! usage: plain_retimer pulses|blocking IN OUT
mod blocking;
mod circuit;
mod cleaning;
mod moving;
mod network;
mod preflow;
mod pulses;
mod tidy;

use circuit::{Circuit, GateFlow};
use network::Network;
use preflow::Preflow;
use std::time::Instant;

/// The seconds that each part took, in the order in which they ran first.
#[derive(Default)]
struct Times(Vec<(&'static str, f64)>);

impl Times {
    fn of<T>(&mut self, name: &'static str, part: impl FnOnce() -> T) -> T {
        let began = Instant::now();
        let made = part();
        let took = began.elapsed().as_secs_f64();
        match self.0.iter_mut().find(|it| it.0 == name) {
            Some(known) => known.1 += took,
            None => self.0.push((name, took)),
        }
        made
    }
}

/// The gates that don't reach the sink once as much has reached it as can.
fn set_of(network: &Network, preflow: &mut Preflow, by_pulses: bool, gates: usize) -> Vec<bool> {
    let reaches = if by_pulses { pulses::finish(network, preflow) } else { blocking::finish(network, preflow) };
    let mut set = vec![false; gates];
    for (k, reached) in reaches.into_iter().enumerate() {
        set[network.gate_of(k)] = !reached;
    }
    set
}

/// The circuit after one more frame, or none where no set needs fewer latches.
fn next(circuit: &mut Circuit, is_first: bool, by_pulses: bool, times: &mut Times) -> Option<Circuit> {
    let network = times.of("network", || Network::of(circuit));
    let mut preflow = times.of("start", || match (is_first, by_pulses) {
        (true, true) => Preflow::at_latches(&network),
        (true, false) => Preflow::greedy(&network, circuit),
        (false, _) => Preflow::along(&network, circuit),
    });
    let set = times.of("flow and cut", || set_of(&network, &mut preflow, by_pulses, circuit.gates.len()));
    let border = times.of("border", || moving::border(circuit, &set));
    if border.iter().filter(|it| **it).count() >= circuit.known_latches() {
        return None;
    }
    circuit.flows = times.of("notes", || preflow.gate_flows(&network, circuit));
    drop(network);
    let moved = times.of("move", || moving::moved(circuit, &set, &border));
    let copies = set.iter().filter(|it| **it).count();
    if times.of("check", || tidy::is_tidy(&moved, copies)) {
        return Some(moved);
    }
    Some(times.of("cleaning", || cleaning::cleaned(&moved)))
}

fn main() -> std::io::Result<()> {
    let words: Vec<String> = std::env::args().collect();
    let mut times = Times::default();
    let read = times.of("reading", || std::fs::read(&words[2]).map(|bytes| Circuit::read(&bytes)))?;
    let mut circuit = times.of("cleaning", || cleaning::cleaned(&read));
    drop(read);
    let mut frames = 0;
    circuit.flows = vec![GateFlow::default(); circuit.gates.len()];
    while let Some(after) = next(&mut circuit, frames == 0, words[1] == "pulses", &mut times) {
        circuit = after;
        frames += 1;
    }
    times.of("writing", || std::fs::write(&words[3], circuit.written()))?;
    println!("frames {frames}");
    for (name, seconds) in times.0 {
        println!("{name} {seconds:.3}");
    }
    Ok(())
}
