//! A preflow of the network, and its start along what the last flow did at each gate. Whatever the notes say, each step goes where there
//! is a residual, so what stands at the end is a preflow.
use crate::circuit::{Circuit, GateFlow};
use crate::network::{Network, NONE};

pub const SINK: u32 = u32::MAX - 1;

pub struct Preflow {
    /// Where the unit behind each holder went: a slot, `SINK` or `NONE`.
    pub went: Vec<u32>,
    /// Units from the place before a gate down to the gate in the slot.
    pub down: Vec<u32>,
    /// Units that came down to the place before each holder.
    pub above: Vec<u32>,
    pub through: Vec<bool>,
    pub value: usize,
    /// Where units stand: 2k behind holder k, 2k+1 before it; an entry a unit.
    pub excess: Vec<u32>,
}

impl Preflow {
    fn empty(network: &Network) -> Preflow {
        let size = network.holders();
        Preflow {
            went: vec![NONE; size],
            down: vec![0; network.fan_ins.len()],
            above: vec![0; size],
            through: vec![false; size],
            value: 0,
            excess: Vec::new(),
        }
    }

    /// A unit behind each latch.
    pub fn at_latches(network: &Network) -> Preflow {
        let excess = (0..network.latches as u32).map(|k| 2 * k).collect();
        Preflow { excess, ..Preflow::empty(network) }
    }

    /// A unit from each latch, as far as gates let one through each.
    pub fn greedy(network: &Network, circuit: &mut Circuit) -> Preflow {
        circuit.flows.fill(GateFlow { up: [true; 2], through: true, down: [0; 2] });
        Preflow::sent(network, circuit, true)
    }

    /// A unit from each latch, along what the last flow did.
    pub fn along(network: &Network, circuit: &mut Circuit) -> Preflow {
        Preflow::sent(network, circuit, false)
    }

    fn sent(network: &Network, circuit: &mut Circuit, is_greedy: bool) -> Preflow {
        let mut preflow = Preflow::empty(network);
        for latch in 0..network.latches {
            preflow.send(network, circuit, latch, is_greedy);
        }
        preflow
    }

    fn send(&mut self, network: &Network, circuit: &mut Circuit, latch: usize, is_greedy: bool) {
        let mut holder = latch;
        loop {
            if network.reaches_sink[holder] {
                self.went[holder] = SINK;
                self.value += 1;
                return;
            }
            let is_wished = |slot: &&u32| {
                let reader = network.reader(**slot);
                let flow = &circuit.flows[network.gate_of(reader - network.latches)];
                flow.up[(**slot & 1) as usize] && !(is_greedy && self.through[reader])
            };
            let Some(slot) = network.slots(holder).iter().find(is_wished).copied() else {
                self.excess.push(2 * holder as u32);
                return;
            };
            self.went[holder] = slot;
            match self.passed(network, circuit, network.reader(slot)) {
                Some(next) => holder = next,
                None => return,
            }
        }
    }

    /// From before a gate through it, or down until a gate lets the unit through.
    fn passed(&mut self, network: &Network, circuit: &mut Circuit, mut holder: usize) -> Option<usize> {
        loop {
            let gate = holder - network.latches;
            let flow = &mut circuit.flows[network.gate_of(gate)];
            if flow.through && !self.through[holder] {
                self.through[holder] = true;
                return Some(holder);
            }
            let leads_down = |slot: &usize| flow.down[*slot] > 0 && network.fan_ins[2 * gate + slot] as usize >= network.latches;
            let Some(slot) = (0..2).find(leads_down) else {
                self.excess.push(2 * holder as u32 + 1);
                return None;
            };
            flow.down[slot] -= 1;
            self.down[2 * gate + slot] += 1;
            holder = network.fan_ins[2 * gate + slot] as usize;
            self.above[holder] += 1;
        }
    }

    /// What the preflow did at each gate of the circuit.
    pub fn gate_flows(&self, network: &Network, circuit: &Circuit) -> Vec<GateFlow> {
        let mut flows = vec![GateFlow::default(); circuit.gates.len()];
        for gate in 0..network.gates {
            let slots = [2 * gate, 2 * gate + 1];
            flows[network.gate_of(gate)] = GateFlow {
                up: slots.map(|slot| self.went[network.fan_ins[slot] as usize] == slot as u32),
                through: self.through[network.latches + gate],
                down: slots.map(|slot| self.down[slot]),
            };
        }
        flows
    }
}
