//! A circuit and its file in binary AIGER: variables are inputs from 1 on, then latches, then gates, each gate after its fan-ins.

pub const FREE: u8 = 2;

/// What the last flow did at a gate: whether a unit came from each fan-in, whether one went through, and how many went down to each
/// fan-in.
#[derive(Clone, Copy, Default)]
pub struct GateFlow {
    pub up: [bool; 2],
    pub through: bool,
    pub down: [u32; 2],
}

impl GateFlow {
    /// That of a gate whose fan-ins stand the other way round.
    pub fn turned(self) -> GateFlow {
        GateFlow { up: [self.up[1], self.up[0]], through: self.through, down: [self.down[1], self.down[0]] }
    }
}

/// `flows` has an entry for each gate.
pub struct Circuit {
    pub inputs: u32,
    pub outputs: u32,
    pub bad: u32,
    pub constraints: u32,
    pub next: Vec<u32>,
    pub reset: Vec<u8>,
    pub gates: Vec<[u32; 2]>,
    pub properties: Vec<u32>,
    pub flows: Vec<GateFlow>,
}

/// Two fan-ins with the larger literal first.
pub fn ordered(a: u32, b: u32) -> [u32; 2] {
    if a >= b {
        [a, b]
    } else {
        [b, a]
    }
}

fn line<'a>(bytes: &'a [u8], at: &mut usize) -> &'a str {
    let begin = *at;
    while bytes[*at] != b'\n' {
        *at += 1;
    }
    *at += 1;
    std::str::from_utf8(&bytes[begin..*at - 1]).expect("text")
}

fn numbers(line: &str) -> impl Iterator<Item = u32> + '_ {
    line.split(' ').map(|word| word.parse().expect("a number"))
}

fn delta(bytes: &[u8], at: &mut usize) -> u32 {
    let (mut value, mut shift) = (0, 0);
    loop {
        let byte = bytes[*at];
        *at += 1;
        value |= u32::from(byte & 127) << shift;
        if byte & 128 == 0 {
            return value;
        }
        shift += 7;
    }
}

fn put_delta(text: &mut Vec<u8>, mut value: u32) {
    while value >= 128 {
        text.push((value & 127) as u8 | 128);
        value >>= 7;
    }
    text.push(value as u8);
}

impl Circuit {
    #[inline(always)]
    pub fn first_latch(&self) -> u32 {
        self.inputs + 1
    }

    #[inline(always)]
    pub fn first_gate(&self) -> u32 {
        self.first_latch() + self.next.len() as u32
    }

    pub fn known_latches(&self) -> usize {
        self.reset.iter().filter(|it| **it != FREE).count()
    }

    /// A circuit of other latches and gates with as many inputs and properties of each kind.
    pub fn like(&self, latches: usize, gates: usize) -> Circuit {
        Circuit {
            next: Vec::with_capacity(latches),
            reset: Vec::with_capacity(latches),
            gates: Vec::with_capacity(gates),
            properties: Vec::with_capacity(self.properties.len()),
            flows: Vec::with_capacity(self.flows.len()),
            ..*self
        }
    }

    pub fn read(bytes: &[u8]) -> Circuit {
        let mut at = 0;
        let head = line(bytes, &mut at).strip_prefix("aig ").expect("a binary file");
        let counts: Vec<u32> = numbers(head).collect();
        let count = |place: usize| counts.get(place).copied().unwrap_or(0);
        assert!(count(7) == 0 && count(8) == 0, "justice and fairness aren't read");
        let [inputs, latches, outputs, gates, bad, constraints] = [1, 2, 3, 4, 5, 6].map(count);
        let mut circuit = Circuit {
            inputs,
            outputs,
            bad,
            constraints,
            next: Vec::with_capacity(latches as usize),
            reset: Vec::with_capacity(latches as usize),
            gates: Vec::with_capacity(gates as usize),
            properties: Vec::new(),
            flows: Vec::new(),
        };
        for _ in 0..latches {
            let words: Vec<u32> = numbers(line(bytes, &mut at)).collect();
            circuit.next.push(words[0]);
            circuit.reset.push(words.get(1).map_or(0, |reset| (*reset).min(2) as u8));
        }
        for _ in 0..outputs + bad + constraints {
            circuit.properties.extend(numbers(line(bytes, &mut at)));
        }
        for k in 0..gates {
            let larger = 2 * (circuit.first_gate() + k) - delta(bytes, &mut at);
            circuit.gates.push([larger, larger - delta(bytes, &mut at)]);
        }
        assert!(at == bytes.len(), "names aren't read");
        circuit
    }

    pub fn written(&self) -> Vec<u8> {
        let variables = self.first_gate() as usize - 1 + self.gates.len();
        let mut text = format!("aig {variables} {} {} {} {}", self.inputs, self.next.len(), self.outputs, self.gates.len());
        if self.bad + self.constraints > 0 {
            text += &format!(" {}", self.bad);
        }
        if self.constraints > 0 {
            text += &format!(" {}", self.constraints);
        }
        text += "\n";
        for (k, next) in self.next.iter().enumerate() {
            match self.reset[k] {
                0 => text += &format!("{next}\n"),
                1 => text += &format!("{next} 1\n"),
                _ => text += &format!("{next} {}\n", 2 * (self.first_latch() + k as u32)),
            }
        }
        for literal in &self.properties {
            text += &format!("{literal}\n");
        }
        let mut bytes = text.into_bytes();
        for (k, [larger, smaller]) in self.gates.iter().enumerate() {
            put_delta(&mut bytes, 2 * (self.first_gate() + k as u32) - larger);
            put_delta(&mut bytes, larger - smaller);
        }
        bytes
    }
}
