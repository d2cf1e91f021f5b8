//! Three ways of finding places: looking through all of them, a hash index with a heap, and these with lists of partners.

use crate::chart::CAPACITY;
use crate::rules::{Edge, Place, Rule};
use std::cmp::Reverse;
use std::collections::BinaryHeap;

/// How a chart finds an edge, the lightest open edge, and the partners of an edge that was just finished.
pub trait Index: Default {
    /// The place of an edge.
    fn find(&self, places: &[Place], edge: Edge) -> Option<usize>;
    /// Notes that an edge takes the next free place.
    fn takes(&mut self, at: usize, edge: Edge);
    /// Notes the present key of an open place.
    fn weighs(&mut self, at: usize, key: u64);
    /// Notes that a place is finished.
    fn finishes(&mut self, at: usize, edge: Edge, rules: &[Rule]);
    /// The open place with the smallest key, the lowest among equals.
    fn lightest_open(&mut self, places: &[Place], key: impl Fn(u64) -> u64) -> Option<usize>;

    /// The finished active edges that end at a node and want a symbol next, in the order of places.
    fn finished_actives(
        &self,
        places: &[Place],
        rules: &[Rule],
        node: u8,
        symbol: u8,
        met: &mut Vec<u16>,
    ) {
        for (at, place) in places.iter().enumerate() {
            if let Edge::Active { rule, seen, to, .. } = place.edge
                && to == node
                && place.is_finished()
                && rules[usize::from(rule)].symbol(usize::from(seen)) == Some(symbol)
            {
                met.push(at as u16);
            }
        }
    }

    /// The finished passive edges of a symbol that start at a node, in the order of places.
    fn finished_passives(&self, places: &[Place], node: u8, wanted: u8, met: &mut Vec<u16>) {
        for (at, place) in places.iter().enumerate() {
            if let Edge::Passive { symbol, from, .. } = place.edge
                && from == node
                && symbol == wanted
                && place.is_finished()
            {
                met.push(at as u16);
            }
        }
    }
}

/// Looks through all places each time.
#[derive(Default)]
pub struct Scan;

impl Index for Scan {
    fn find(&self, places: &[Place], edge: Edge) -> Option<usize> {
        places.iter().position(|place| place.edge == edge)
    }

    fn takes(&mut self, _at: usize, _edge: Edge) {}

    fn weighs(&mut self, _at: usize, _key: u64) {}

    fn finishes(&mut self, _at: usize, _edge: Edge, _rules: &[Rule]) {}

    fn lightest_open(&mut self, places: &[Place], key: impl Fn(u64) -> u64) -> Option<usize> {
        let open = places
            .iter()
            .enumerate()
            .filter(|(_, place)| !place.is_finished());
        open.min_by_key(|(_, place)| key(place.weight))
            .map(|(at, _)| at)
    }
}

/// Twice as many slots as places, so that a free one is always near.
const SLOTS: usize = 2 * CAPACITY;

/// An edge as one number; never 0.
fn packed(edge: Edge) -> u32 {
    match edge {
        Edge::Passive { symbol, from, to } => {
            1 << 20 | u32::from(symbol) << 10 | u32::from(from) << 5 | u32::from(to)
        }
        Edge::Active {
            rule,
            seen,
            from,
            to,
        } => {
            2 << 20
                | u32::from(rule) << 13
                | u32::from(seen) << 10
                | u32::from(from) << 5
                | u32::from(to)
        }
    }
}

/// The slot at which the search for an edge begins.
fn first_slot(key: u32) -> usize {
    (key.wrapping_mul(0x9E37_79B1) >> 21) as usize
}

/// A hash index from edges to places, and a heap of the open places; what the heap says of a place may be out of date.
pub struct Hashed {
    keys: Box<[u32; SLOTS]>,
    places: Box<[u16; SLOTS]>,
    heap: BinaryHeap<Reverse<(u64, u16)>>,
}

impl Default for Hashed {
    fn default() -> Self {
        Hashed {
            keys: Box::new([0; SLOTS]),
            places: Box::new([0; SLOTS]),
            heap: BinaryHeap::with_capacity(CAPACITY),
        }
    }
}

impl Hashed {
    /// The slot of an edge, or the free one that it would take.
    fn slot(&self, key: u32) -> usize {
        let mut slot = first_slot(key);
        while self.keys[slot] != 0 && self.keys[slot] != key {
            slot = (slot + 1) % SLOTS;
        }
        slot
    }
}

impl Index for Hashed {
    fn find(&self, _places: &[Place], edge: Edge) -> Option<usize> {
        let slot = self.slot(packed(edge));
        (self.keys[slot] != 0).then(|| usize::from(self.places[slot]))
    }

    fn takes(&mut self, at: usize, edge: Edge) {
        let key = packed(edge);
        let slot = self.slot(key);
        self.keys[slot] = key;
        self.places[slot] = at as u16;
    }

    fn weighs(&mut self, at: usize, key: u64) {
        self.heap.push(Reverse((key, at as u16)));
    }

    fn finishes(&mut self, _at: usize, _edge: Edge, _rules: &[Rule]) {}

    fn lightest_open(&mut self, places: &[Place], _key: impl Fn(u64) -> u64) -> Option<usize> {
        while let Some(Reverse((_, at))) = self.heap.pop() {
            // A place that got lighter was finished by its later, lighter entry.
            if !places[usize::from(at)].is_finished() {
                return Some(usize::from(at));
            }
        }
        None
    }
}

const NODES: usize = 32;

/// The hash index and the heap, and at each node the finished edges that can be met there, in the order of places.
#[derive(Default)]
pub struct Partners {
    hashed: Hashed,
    /// Of each node the active edges that end there, each with the symbol that it wants.
    actives: [Vec<(u16, u8)>; NODES],
    /// Of each node the passive edges that start there, each with its symbol.
    passives: [Vec<(u16, u8)>; NODES],
}

/// Puts a place where it belongs in a list in the order of places.
fn insert(list: &mut Vec<(u16, u8)>, at: usize, symbol: u8) {
    let at = at as u16;
    let behind = list
        .iter()
        .rposition(|&(other, _)| other < at)
        .map_or(0, |n| n + 1);
    list.insert(behind, (at, symbol));
}

impl Index for Partners {
    fn find(&self, places: &[Place], edge: Edge) -> Option<usize> {
        self.hashed.find(places, edge)
    }

    fn takes(&mut self, at: usize, edge: Edge) {
        self.hashed.takes(at, edge);
    }

    fn weighs(&mut self, at: usize, key: u64) {
        self.hashed.weighs(at, key);
    }

    fn finishes(&mut self, at: usize, edge: Edge, rules: &[Rule]) {
        match edge {
            Edge::Passive { symbol, from, .. } => {
                insert(&mut self.passives[usize::from(from)], at, symbol)
            }
            Edge::Active { rule, seen, to, .. } => {
                if let Some(wanted) = rules[usize::from(rule)].symbol(usize::from(seen)) {
                    insert(&mut self.actives[usize::from(to)], at, wanted);
                }
            }
        }
    }

    fn lightest_open(&mut self, places: &[Place], key: impl Fn(u64) -> u64) -> Option<usize> {
        self.hashed.lightest_open(places, key)
    }

    fn finished_actives(
        &self,
        _places: &[Place],
        _rules: &[Rule],
        node: u8,
        symbol: u8,
        met: &mut Vec<u16>,
    ) {
        let wanting = self.actives[usize::from(node)]
            .iter()
            .filter(|&&(_, wanted)| wanted == symbol);
        met.extend(wanting.map(|&(at, _)| at));
    }

    fn finished_passives(&self, _places: &[Place], node: u8, wanted: u8, met: &mut Vec<u16>) {
        let having = self.passives[usize::from(node)]
            .iter()
            .filter(|&&(_, symbol)| symbol == wanted);
        met.extend(having.map(|&(at, _)| at));
    }
}
