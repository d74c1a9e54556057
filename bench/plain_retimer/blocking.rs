//! Blocking flows over exact distances to the sink, with short detours, from any preflow (after Dinic 1970), on the network without arcs.
use crate::network::{Network, NONE};
use crate::preflow::{Preflow, SINK};

const FAR: u32 = u32::MAX;
/// How much longer than a shortest way a step may lead.
const DETOUR: u32 = 2;

/// A place: 2k behind holder k, 2k+1 before it. Tables have an entry for both places of each holder.
type Places = Vec<[u32; 2]>;

fn entry(table: &Places, place: u32) -> u32 {
    table[(place >> 1) as usize][(place & 1) as usize]
}

struct Search {
    distances: Places,
    /// The next step to try at each place, of all steps twice: first the shortest ways, then detours.
    tried: Places,
    /// In phase p: 2p where the place is on the way, 2p+1 where it leads nowhere.
    marks: Places,
    way: Vec<u32>,
    phase: u32,
}

/// The distance to the sink of each place, or `FAR`, by a walk backward.
fn distances(network: &Network, preflow: &Preflow, distances: &mut Places, queue: &mut Vec<u32>) {
    distances.fill([FAR, FAR]);
    queue.clear();
    for holder in (0..network.holders()).filter(|it| network.reaches_sink[*it]) {
        distances[holder][0] = 1;
        queue.push(2 * holder as u32);
    }
    let mut front = 0;
    while front < queue.len() {
        let place = queue[front];
        front += 1;
        let holder = (place >> 1) as usize;
        let distance = entry(distances, place) + 1;
        let mut see = |holder: usize, side: usize| {
            if distances[holder][side] == FAR {
                distances[holder][side] = distance;
                queue.push(2 * holder as u32 + side as u32);
            }
        };
        if place & 1 == 0 {
            if holder >= network.latches && !preflow.through[holder] {
                see(holder, 1);
            }
            if preflow.went[holder] < SINK {
                see(network.reader(preflow.went[holder]), 1);
            }
            continue;
        }
        let first = 2 * (holder - network.latches);
        for slot in first..first + 2 {
            let fan_in = network.fan_ins[slot] as usize;
            see(fan_in, 0);
            if preflow.down[slot] > 0 {
                see(fan_in, 1);
            }
        }
        for slot in network.slots(holder) {
            see(network.reader(*slot), 1);
        }
        if preflow.through[holder] {
            see(holder, 0);
        }
    }
}

/// A step from a place, by its number there.
#[derive(Clone, Copy)]
enum Step {
    /// Through the gate, or back through it.
    Through,
    /// Up to a reader.
    Up(u32),
    /// Down to the fan-in in a slot.
    Down(usize),
    /// Back down to the fan-in in a slot, whose unit came here.
    Undo(usize),
    /// Back up to a reader, whose unit came down here.
    Lift(u32),
}

fn steps(network: &Network, place: u32) -> usize {
    network.slots((place >> 1) as usize).len() + if place & 1 == 0 { 1 } else { 5 }
}

fn step(network: &Network, place: u32, number: usize) -> Step {
    let holder = (place >> 1) as usize;
    if place & 1 == 0 {
        return if number == 0 { Step::Through } else { Step::Up(network.slots(holder)[number - 1]) };
    }
    let first = 2 * (holder - network.latches);
    match number {
        0 => Step::Through,
        1 | 2 => Step::Down(first + number - 1),
        3 | 4 => Step::Undo(first + number - 3),
        _ => Step::Lift(network.slots(holder)[number - 5]),
    }
}

/// Where a step leads, if there is a residual.
fn led(network: &Network, preflow: &Preflow, place: u32, step: Step) -> Option<u32> {
    let holder = (place >> 1) as usize;
    let may = match step {
        Step::Through => holder >= network.latches && preflow.through[holder] == (place & 1 == 0),
        Step::Up(_) => true,
        Step::Down(slot) => network.fan_ins[slot] as usize >= network.latches,
        Step::Undo(slot) => preflow.went[network.fan_ins[slot] as usize] == slot as u32,
        Step::Lift(slot) => preflow.down[slot as usize] > 0,
    };
    let to = match step {
        Step::Through => place ^ 1,
        Step::Up(slot) | Step::Lift(slot) => 2 * network.reader(slot) as u32 + 1,
        Step::Down(slot) => 2 * network.fan_ins[slot] + 1,
        Step::Undo(slot) => 2 * network.fan_ins[slot],
    };
    may.then_some(to)
}

impl Search {
    fn mark(&mut self, place: u32, mark: u32) {
        self.marks[(place >> 1) as usize][(place & 1) as usize] = mark;
    }

    /// The next place on a way from this one, which is noted as the step tried there.
    fn next(&mut self, network: &Network, preflow: &Preflow, place: u32) -> Option<u32> {
        let all = steps(network, place);
        let distance = entry(&self.distances, place);
        let mut number = entry(&self.tried, place) as usize;
        let mut found = None;
        while number < 2 * all && found.is_none() {
            let (own, detour) = if number < all { (number, 0) } else { (number - all, DETOUR) };
            let fits =
                |to: &u32| entry(&self.distances, *to) <= distance - 1 + detour && entry(&self.marks, *to) < 2 * self.phase;
            found = led(network, preflow, place, step(network, place, own)).filter(fits);
            number += usize::from(found.is_none());
        }
        self.tried[(place >> 1) as usize][(place & 1) as usize] = number as u32;
        found
    }

    /// Sends a unit from a place to the sink, where a way is found.
    fn send(&mut self, network: &Network, preflow: &mut Preflow, from: u32) -> bool {
        if entry(&self.marks, from) >= 2 * self.phase {
            return false;
        }
        self.way.clear();
        let mut place = from;
        loop {
            self.mark(place, 2 * self.phase);
            if place & 1 == 0 && network.reaches_sink[(place >> 1) as usize] {
                self.way.push(place);
                self.book(network, preflow);
                return true;
            }
            match self.next(network, preflow, place) {
                Some(next) => {
                    self.way.push(place);
                    place = next;
                }
                None => {
                    self.mark(place, 2 * self.phase + 1);
                    let Some(back) = self.way.pop() else { return false };
                    self.tried[(back >> 1) as usize][(back & 1) as usize] += 1;
                    place = back;
                }
            }
        }
    }

    /// Books the unit along the way, whose places others may use again.
    fn book(&mut self, network: &Network, preflow: &mut Preflow) {
        let way = std::mem::take(&mut self.way);
        for place in &way {
            let holder = (place >> 1) as usize;
            self.marks[holder][(place & 1) as usize] = 0;
            if Some(place) == way.last() {
                preflow.went[holder] = SINK;
                break;
            }
            let all = steps(network, *place);
            match step(network, *place, entry(&self.tried, *place) as usize % all) {
                Step::Through => preflow.through[holder] = place & 1 == 1,
                Step::Up(slot) => preflow.went[holder] = slot,
                Step::Down(slot) => {
                    preflow.down[slot] += 1;
                    preflow.above[network.fan_ins[slot] as usize] += 1;
                }
                Step::Undo(slot) => preflow.went[network.fan_ins[slot] as usize] = NONE,
                Step::Lift(slot) => {
                    preflow.down[slot as usize] -= 1;
                    preflow.above[holder] -= 1;
                }
            }
        }
        self.way = way;
        preflow.value += 1;
    }
}

/// Makes a preflow a maximum one. By passable gate whether the place before it reaches the sink then.
pub fn finish(network: &Network, preflow: &mut Preflow) -> Vec<bool> {
    let size = network.holders();
    let table = |value: u32| vec![[value; 2]; size];
    let mut search = Search { distances: table(FAR), tried: table(0), marks: table(0), way: Vec::new(), phase: 0 };
    let mut queue = Vec::new();
    let mut left = std::mem::take(&mut preflow.excess);
    loop {
        distances(network, preflow, &mut search.distances, &mut queue);
        left.retain(|place| entry(&search.distances, *place) != FAR);
        if left.is_empty() {
            break;
        }
        search.phase += 1;
        search.tried.fill([0, 0]);
        left.retain(|place| !search.send(network, preflow, *place));
    }
    (0..network.gates).map(|gate| search.distances[network.latches + gate][1] != FAR).collect()
}
