//! The plain chart of docs/RULES.md, for any way of finding places.

use crate::index::Index;
use crate::rules::{Edge, Listed, Node, Origin, Phrase, Place, Rule, Weighing, Word};
use std::hint::black_box;

pub const CAPACITY: usize = 1_024;

pub const FULL: u8 = 10;
const NOTHING_OPEN: u8 = 11;
const NO_STRETCH: u8 = 7;
const NO_DERIVATION: u8 = 9;
pub const TOO_SHORT: u8 = 12;

pub struct Chart<'a, W, I> {
    rules: &'a [Rule],
    words: &'a [Word],
    last: u8,
    weighing: W,
    pub places: Vec<Place>,
    pub finished: u16,
    pub full: bool,
    index: I,
    met: Vec<u16>,
}

impl<'a, W: Weighing, I: Index> Chart<'a, W, I> {
    /// The axioms arrive: words, and then the empty rules at each node.
    pub fn open(rules: &'a [Rule], words: &'a [Word], weighing: W) -> Self {
        let last = words.iter().map(|word| word.to).max().unwrap_or(0);
        let places = Vec::with_capacity(CAPACITY);
        let mut chart = Chart {
            rules,
            words,
            last,
            weighing,
            places,
            finished: 0,
            full: false,
            index: I::default(),
            met: Vec::new(),
        };
        chart.words_arrive();
        chart.empty_rules_arrive();
        chart
    }

    fn words_arrive(&mut self) {
        for (n, word) in self.words.iter().enumerate() {
            let edge = Edge::Passive {
                symbol: word.symbol,
                from: word.from,
                to: word.to,
            };
            self.arrive(edge, self.weighing.weigh(word.mark), Origin::Word(n as u8));
        }
    }

    fn empty_rules_arrive(&mut self) {
        for node in 0..=self.last {
            for (n, rule) in self
                .rules
                .iter()
                .enumerate()
                .filter(|(_, rule)| rule.length == 0)
            {
                let edge = Edge::Passive {
                    symbol: rule.left,
                    from: node,
                    to: node,
                };
                self.arrive(edge, self.weighing.weigh(rule.mark), Origin::Empty(n as u8));
            }
        }
    }

    fn arrive(&mut self, edge: Edge, weight: u64, origin: Origin) {
        if self.full {
            return;
        }
        if let Some(at) = self.index.find(&self.places, edge) {
            let place = &mut self.places[at];
            if !place.is_finished() && self.weighing.is_lighter(weight, place.weight) {
                place.weight = weight;
                place.origin = origin;
                self.index.weighs(at, self.weighing.key(weight));
            }
        } else if self.places.len() < CAPACITY {
            let at = self.places.len();
            self.places.push(Place {
                edge,
                weight,
                origin,
                number: 0,
            });
            self.index.takes(at, edge);
            self.index.weighs(at, self.weighing.key(weight));
        } else {
            self.full = true;
        }
    }

    /// Pops the lightest open edge, in a tie the one with the lower place, and adds its conclusions.
    pub fn step(&mut self) -> Result<u16, u8> {
        if self.full {
            return Err(FULL);
        }
        let weighing = self.weighing;
        let at = self
            .index
            .lightest_open(&self.places, |weight| weighing.key(weight))
            .ok_or(NOTHING_OPEN)?;
        self.finished += 1;
        self.places[at].number = self.finished;
        let Place { edge, weight, .. } = self.places[at];
        self.index.finishes(at, edge, self.rules);
        match edge {
            Edge::Passive { symbol, from, to } => {
                self.rules_arrive(at, symbol, from, to, weight);
                self.actives_arrive(at, symbol, from, to, weight);
            }
            Edge::Active {
                rule,
                seen,
                from,
                to,
            } => self.passives_arrive(at, rule, seen, from, to, weight),
        }
        if self.full {
            Err(FULL)
        } else {
            Ok(self.finished)
        }
    }

    /// The edge of a rule with so many symbols.
    fn advanced(&self, rule: u8, seen: u8, from: u8, to: u8) -> Edge {
        let Rule { left, length, .. } = self.rules[usize::from(rule)];
        if seen == length {
            Edge::Passive {
                symbol: left,
                from,
                to,
            }
        } else {
            Edge::Active {
                rule,
                seen,
                from,
                to,
            }
        }
    }

    fn rules_arrive(&mut self, at: usize, symbol: u8, from: u8, to: u8, weight: u64) {
        for (n, rule) in self.rules.iter().enumerate() {
            if rule.symbol(0) == Some(symbol) {
                let n = n as u8;
                let joined = self.weighing.join(self.weighing.weigh(rule.mark), weight);
                self.arrive(
                    self.advanced(n, 1, from, to),
                    joined,
                    Origin::First {
                        rule: n,
                        child: at as u16,
                    },
                );
            }
        }
    }

    fn actives_arrive(&mut self, at: usize, symbol: u8, from: u8, to: u8, weight: u64) {
        let mut met = std::mem::take(&mut self.met);
        self.index
            .finished_actives(&self.places, self.rules, from, symbol, &mut met);
        for active in met.drain(..) {
            let place = self.places[usize::from(active)];
            if let Edge::Active {
                rule,
                seen,
                from: start,
                ..
            } = place.edge
            {
                let joined = self.weighing.join(place.weight, weight);
                self.arrive(
                    self.advanced(rule, seen + 1, start, to),
                    joined,
                    Origin::Next {
                        active,
                        child: at as u16,
                    },
                );
            }
        }
        self.met = met;
    }

    fn passives_arrive(&mut self, at: usize, rule: u8, seen: u8, from: u8, to: u8, weight: u64) {
        let Some(wanted) = self.rules[usize::from(rule)].symbol(usize::from(seen)) else {
            return;
        };
        let mut met = std::mem::take(&mut self.met);
        self.index
            .finished_passives(&self.places, to, wanted, &mut met);
        for child in met.drain(..) {
            let place = self.places[usize::from(child)];
            if let Edge::Passive { to: end, .. } = place.edge {
                let joined = self.weighing.join(weight, place.weight);
                self.arrive(
                    self.advanced(rule, seen + 1, from, end),
                    joined,
                    Origin::Next {
                        active: at as u16,
                        child,
                    },
                );
            }
        }
        self.met = met;
    }

    pub fn settle(&mut self) {
        while self.step().is_ok() {}
    }

    /// The place of a finished phrase, or the number of its refusal.
    fn finished_at(&self, phrase: Phrase) -> Result<usize, u8> {
        let Phrase { symbol, from, to } = phrase;
        if from > to || to > self.last {
            return Err(NO_STRETCH);
        }
        match self
            .index
            .find(&self.places, Edge::Passive { symbol, from, to })
        {
            Some(at) if self.places[at].is_finished() => Ok(at),
            _ if self.full => Err(FULL),
            _ => Err(NO_DERIVATION),
        }
    }

    /// What a settled chart answers.
    pub fn question(&self, phrase: Phrase) -> Result<u64, u8> {
        Ok(self.places[self.finished_at(phrase)?].weight)
    }

    /// The rule of an active edge.
    fn active_rule(&self, at: u16) -> u8 {
        match self.places[usize::from(at)].edge {
            Edge::Active { rule, .. } => rule,
            Edge::Passive { .. } => panic!("an origin goes on from a passive edge"),
        }
    }

    /// The node of a passive edge, by its origin.
    fn node(&self, place: &Place) -> Option<Node> {
        let Edge::Passive { from, to, .. } = place.edge else {
            return None;
        };
        let (is_rule, number) = match place.origin {
            Origin::Word(word) => (false, word),
            Origin::Empty(rule) | Origin::First { rule, .. } => (true, rule),
            Origin::Next { active, .. } => (true, self.active_rule(active)),
        };
        Some(Node {
            is_rule,
            number,
            from,
            to,
        })
    }

    /// Lists the derivation of a phrase by its origins, in pre-order.
    pub fn reading(&self, phrase: Phrase, list: &mut [Node]) -> Result<Listed, u8> {
        let at = self.finished_at(phrase)?;
        let weight = self.places[at].weight;
        let mut nodes = 0;
        let mut ahead = vec![at as u16];
        while let Some(at) = ahead.pop() {
            let place = &self.places[usize::from(at)];
            if let Some(node) = self.node(place) {
                *list.get_mut(nodes).ok_or(TOO_SHORT)? = node;
                nodes += 1;
            }
            match place.origin {
                Origin::Word(_) | Origin::Empty(_) => {}
                Origin::First { child, .. } => ahead.push(child),
                Origin::Next { active, child } => ahead.extend([child, active]),
            }
        }
        Ok(Listed { weight, nodes })
    }
}

/// From opening to an answer.
pub fn weigh<W: Weighing, I: Index>(
    rules: &[Rule],
    words: &[Word],
    weighing: W,
    phrase: Phrase,
) -> Result<u64, u8> {
    let mut chart = Chart::<W, I>::open(rules, words, weighing);
    chart.settle();
    chart.question(phrase)
}

/// So many readings of one settled chart; answers the last.
pub fn read<W: Weighing, I: Index>(
    rules: &[Rule],
    words: &[Word],
    weighing: W,
    phrase: Phrase,
    times: usize,
    list: &mut [Node],
) -> Result<Listed, u8> {
    let mut chart = Chart::<W, I>::open(rules, words, weighing);
    chart.settle();
    for _ in 1..times {
        let _ = black_box(chart.reading(black_box(phrase), list));
    }
    chart.reading(phrase, list)
}
