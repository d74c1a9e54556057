//! Whether a moved circuit is clean already. Where latches of a clean circuit move over a closed set, only copies that read a latch's
//! next literal can break a rule: by a constant, by equal or opposite fan-ins, or as a second gate with a pair.
use crate::circuit::Circuit;

const NONE: u32 = u32::MAX;

/// The first gate of each pair of fan-ins, in a table with open addressing.
pub struct PairTable {
    places: Vec<u32>,
}

impl PairTable {
    pub fn with_room(pairs: usize) -> PairTable {
        PairTable { places: vec![NONE; (2 * pairs.max(1)).next_power_of_two()] }
    }

    /// The slot of a pair: that of the first gate with it, or an empty one.
    fn slot(&self, pair: &[u32; 2], pairs: &[[u32; 2]]) -> usize {
        let mask = self.places.len() - 1;
        let mixed = (u64::from(pair[0]) << 32 | u64::from(pair[1])).wrapping_mul(0x9E37_79B9_7F4A_7C15);
        let mut slot = (mixed ^ mixed >> 32) as usize & mask;
        while self.places[slot] != NONE && pairs[self.places[slot] as usize] != *pair {
            slot = (slot + 1) & mask;
        }
        slot
    }

    /// The first gate with the fan-ins of this one, which may be itself.
    pub fn first_like(&mut self, gate: u32, pairs: &[[u32; 2]]) -> u32 {
        let slot = self.slot(&pairs[gate as usize], pairs);
        if self.places[slot] == NONE {
            self.places[slot] = gate;
        }
        self.places[slot]
    }

    fn has(&self, pair: &[u32; 2], pairs: &[[u32; 2]]) -> bool {
        self.places[self.slot(pair, pairs)] != NONE
    }
}

/// Whether a circuit whose last gates are so many copies is clean, where the circuit before the move was.
pub fn is_tidy(circuit: &Circuit, copies: usize) -> bool {
    let outside = circuit.gates.len() - copies;
    let first_copy = circuit.first_gate() + outside as u32;
    let is_low = |gate: &[u32; 2]| gate[1] >> 1 < first_copy;
    let lows: Vec<usize> = (outside..circuit.gates.len()).filter(|k| is_low(&circuit.gates[*k])).collect();
    let mut table = PairTable::with_room(lows.len());
    let mut is_read = vec![false; first_copy as usize];
    for k in lows {
        let [a, b] = circuit.gates[k];
        if b < 2 || a >> 1 == b >> 1 || table.first_like(k as u32, &circuit.gates) != k as u32 {
            return false;
        }
        if a >> 1 < first_copy {
            is_read[(a >> 1) as usize] = true;
            is_read[(b >> 1) as usize] = true;
        }
    }
    let reads_both = |gate: &&[u32; 2]| is_read[(gate[0] >> 1) as usize] && is_read[(gate[1] >> 1) as usize];
    !circuit.gates[..outside].iter().filter(reads_both).any(|gate| table.has(gate, &circuit.gates))
}
