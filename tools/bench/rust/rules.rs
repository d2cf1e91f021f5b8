//! What docs/RULES.md calls words, rules, weighings, edges and places.

/// A heard word; laid out as the export has it.
#[repr(C)]
#[derive(Clone, Copy)]
pub struct Word {
    pub from: u8,
    pub to: u8,
    pub symbol: u8,
    pub mark: u16,
}

/// A rule: its right symbols are the first `length` of four; laid out as the export has it.
#[repr(C)]
#[derive(Clone, Copy)]
pub struct Rule {
    pub left: u8,
    pub length: u8,
    pub right: [u8; 4],
    pub mark: u16,
}

impl Rule {
    pub fn new(left: u8, right: &[u8], mark: u16) -> Self {
        let mut symbols = [0; 4];
        symbols[..right.len()].copy_from_slice(right);
        Rule {
            left,
            length: right.len() as u8,
            right: symbols,
            mark,
        }
    }

    /// The right symbol at a place, from 0.
    pub fn symbol(&self, at: usize) -> Option<u8> {
        (at < usize::from(self.length)).then(|| self.right[at])
    }
}

/// A symbol over a span; laid out as the export has it.
#[repr(C)]
#[derive(Clone, Copy, PartialEq, Eq, Debug)]
pub struct Phrase {
    pub symbol: u8,
    pub from: u8,
    pub to: u8,
}

/// A node of a reading: a rule or a word by its number, over a span; laid out as the export has it.
#[repr(C)]
#[derive(Clone, Copy, PartialEq, Eq, Debug)]
pub struct Node {
    pub is_rule: bool,
    pub number: u8,
    pub from: u8,
    pub to: u8,
}

/// A reading: its weight, and how many nodes it has.
#[derive(Clone, Copy, PartialEq, Eq, Debug)]
pub struct Listed {
    pub weight: u64,
    pub nodes: usize,
}

/// How marks weigh, how weights are joined, and which is lighter: the one with the smaller key.
pub trait Weighing: Copy {
    fn weigh(self, mark: u16) -> u64;
    fn join(self, a: u64, b: u64) -> u64;
    fn key(self, weight: u64) -> u64;

    fn is_lighter(self, a: u64, b: u64) -> bool {
        self.key(a) < self.key(b)
    }
}

#[derive(Clone, Copy)]
pub struct Sum;

impl Weighing for Sum {
    fn weigh(self, mark: u16) -> u64 {
        u64::from(mark)
    }

    fn join(self, a: u64, b: u64) -> u64 {
        a.saturating_add(b)
    }

    fn key(self, weight: u64) -> u64 {
        weight
    }
}

#[derive(Clone, Copy)]
pub struct Worst;

impl Weighing for Worst {
    fn weigh(self, mark: u16) -> u64 {
        u64::from(mark)
    }

    fn join(self, a: u64, b: u64) -> u64 {
        a.max(b)
    }

    fn key(self, weight: u64) -> u64 {
        weight
    }
}

#[derive(Clone, Copy)]
pub struct Chance;

const CERTAIN: u64 = 1 << 31;

impl Weighing for Chance {
    fn weigh(self, mark: u16) -> u64 {
        (65_536 - u64::from(mark)) << 15
    }

    fn join(self, a: u64, b: u64) -> u64 {
        (a.min(CERTAIN) * b.min(CERTAIN)) >> 31
    }

    fn key(self, weight: u64) -> u64 {
        !weight
    }
}

#[derive(Clone, Copy, PartialEq, Eq, Debug)]
pub enum Edge {
    Passive {
        symbol: u8,
        from: u8,
        to: u8,
    },
    Active {
        rule: u8,
        seen: u8,
        from: u8,
        to: u8,
    },
}

/// The inference that a weight came from; places are named by their numbers.
#[derive(Clone, Copy, PartialEq, Eq, Debug)]
pub enum Origin {
    Word(u8),
    Empty(u8),
    First { rule: u8, child: u16 },
    Next { active: u16, child: u16 },
}

#[derive(Clone, Copy, PartialEq, Eq, Debug)]
pub struct Place {
    pub edge: Edge,
    pub weight: u64,
    pub origin: Origin,
    /// The number in the order of finishing, from 1; 0 where the edge is open.
    pub number: u16,
}

impl Place {
    pub fn is_finished(&self) -> bool {
        self.number != 0
    }
}
