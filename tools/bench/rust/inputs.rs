//! What the charts are made over.

use crate::rules::{Phrase, Rule, Word};

#[derive(Clone, Copy, Debug)]
pub enum By {
    Sum,
    Worst,
    Chance,
}

pub struct Input {
    pub name: &'static str,
    /// Whether the rules are the stock counts, which are built into the proved crates.
    pub is_count: bool,
    pub rules: Vec<Rule>,
    pub words: Vec<Word>,
    pub by: By,
    pub phrase: Phrase,
}

const LINE: u8 = 1;
const PART: u8 = 2;
const NUM: u8 = 3;
const GAP: u8 = 4;
const ONE: u8 = 16;
const TWO: u8 = 17;
const THREE: u8 = 18;
const BOX: u8 = 19;
const OPEN: u8 = 20;
const UM: u8 = 21;

fn stock_counts() -> Vec<Rule> {
    vec![
        Rule::new(LINE, &[PART], 0),
        Rule::new(LINE, &[LINE, GAP, PART], 2),
        Rule::new(PART, &[NUM, BOX], 3),
        Rule::new(PART, &[OPEN, NUM], 4),
        Rule::new(PART, &[NUM, BOX, OPEN], 9),
        Rule::new(PART, &[NUM], 6),
        Rule::new(NUM, &[ONE], 0),
        Rule::new(NUM, &[TWO], 0),
        Rule::new(NUM, &[THREE], 0),
        Rule::new(GAP, &[], 0),
        Rule::new(GAP, &[UM], 1),
    ]
}

/// Words one after the other, each heard in the ways that are listed for its place, with these marks.
fn heard(ways: &[&[u8]], mark: impl Fn(usize, usize) -> u16) -> Vec<Word> {
    let mut words = Vec::new();
    for (node, symbols) in ways.iter().enumerate() {
        for (way, &symbol) in symbols.iter().enumerate() {
            words.push(Word {
                from: node as u8,
                to: node as u8 + 1,
                symbol,
                mark: mark(node, way),
            });
        }
    }
    words
}

/// A whole line by the stock counts.
fn line(name: &'static str, words: Vec<Word>, by: By) -> Input {
    let to = words.iter().map(|word| word.to).max().unwrap_or(0);
    Input {
        name,
        is_count: true,
        rules: stock_counts(),
        words,
        by,
        phrase: Phrase {
            symbol: LINE,
            from: 0,
            to,
        },
    }
}

/// "two box open one", as in examples/two-boxes-open-one.
fn two_boxes() -> Input {
    line(
        "two boxes, 4 words",
        heard(&[&[TWO], &[BOX], &[OPEN], &[ONE]], |node, _| {
            10 * (node as u16 + 1)
        }),
        By::Sum,
    )
}

/// Twelve words, each heard in two or three ways.
fn twelve() -> Input {
    let ways: [&[u8]; 12] = [
        &[TWO, ONE],
        &[BOX, OPEN, UM],
        &[OPEN, BOX],
        &[ONE, THREE, UM],
        &[BOX, UM],
        &[UM, TWO, OPEN],
        &[THREE, TWO],
        &[BOX, OPEN],
        &[ONE, OPEN, TWO],
        &[TWO, UM],
        &[BOX, ONE],
        &[OPEN, ONE, THREE],
    ];
    line(
        "12 words, 2 or 3 ways",
        heard(&ways, |node, way| (7 * node as u16 + 31 * way as u16) % 50),
        By::Sum,
    )
}

/// "two box, open one, um" six times, and "two": as long as a line can be, each word heard in one way.
fn long_line() -> Input {
    let said: [&[u8]; 5] = [&[TWO], &[BOX], &[OPEN], &[ONE], &[UM]];
    let ways: Vec<&[u8]> = said.into_iter().cycle().take(31).collect();
    line(
        "31 words, one way",
        heard(&ways, |node, _| (7 * node as u16) % 50),
        By::Sum,
    )
}

/// Thirty-one words, each heard in four ways: more edges have derivations than the chart has places.
fn over_full() -> Input {
    let ways: [&[u8]; 31] = [&[ONE, BOX, OPEN, UM]; 31];
    line(
        "31 words, 4 ways, fills",
        heard(&ways, |node, way| (7 * node as u16 + 31 * way as u16) % 50),
        By::Sum,
    )
}

/// Just as many edges as places, and nothing follows from any of them.
fn saturated() -> Input {
    let rules = (0..96).map(|n| Rule::new(n, &[], u16::from(n))).collect();
    let words = (0..64)
        .map(|n| Word {
            from: 0,
            to: 9,
            symbol: 100 + n,
            mark: u16::from(n),
        })
        .collect();
    let phrase = Phrase {
        symbol: 163,
        from: 0,
        to: 9,
    };
    Input {
        name: "saturated, 96 rules",
        is_count: false,
        rules,
        words,
        by: By::Sum,
        phrase,
    }
}

/// All binary trees over 31 words: every span is an S, in every way to cut it in two. 1,023 edges.
fn all_trees(name: &'static str, by: By) -> Input {
    const S: u8 = 200;
    const A: u8 = 201;
    let rules = vec![Rule::new(S, &[S, S], 1), Rule::new(S, &[A], 0)];
    let ways: [&[u8]; 31] = [&[A]; 31];
    let words = heard(&ways, |node, _| (node as u16 * 37) % 101);
    Input {
        name,
        is_count: false,
        rules,
        words,
        by,
        phrase: Phrase {
            symbol: S,
            from: 0,
            to: 31,
        },
    }
}

/// 96 rules of four symbols over 12 words, so that each passive edge is the beginning of many rules.
fn many_rules() -> Input {
    let symbol = |n: usize| 210 + (n % 6) as u8;
    let rules = (0..96)
        .map(|n| {
            let right = [symbol(n), symbol(n / 6), symbol(n / 3), symbol(n / 2)];
            Rule::new(symbol(n + n / 7), &right, (n as u16 * 13) % 40)
        })
        .collect();
    let ways: [&[u8]; 12] = [&[210, 211]; 12];
    let words = heard(&ways, |node, way| (5 * node as u16 + 17 * way as u16) % 60);
    let phrase = Phrase {
        symbol: 210,
        from: 0,
        to: 12,
    };
    Input {
        name: "96 rules of 4, 12 words",
        is_count: false,
        rules,
        words,
        by: By::Sum,
        phrase,
    }
}

/// The inputs that are timed.
pub fn timed() -> Vec<Input> {
    vec![
        two_boxes(),
        twelve(),
        long_line(),
        over_full(),
        saturated(),
        all_trees("all trees, 31 words", By::Sum),
        all_trees("all trees, by chance", By::Chance),
        many_rules(),
    ]
}

/// Numbers that look random, the same at each run.
pub struct Numbers(pub u64);

impl Numbers {
    pub fn below(&mut self, bound: u64) -> u64 {
        self.0 ^= self.0 << 13;
        self.0 ^= self.0 >> 7;
        self.0 ^= self.0 << 17;
        (self.0 >> 11) % bound
    }
}

fn random_rule(numbers: &mut Numbers, symbols: u64) -> Rule {
    let length = [0, 1, 1, 2, 2, 2, 3, 4][numbers.below(8) as usize];
    let right: Vec<u8> = (0..length).map(|_| numbers.below(symbols) as u8).collect();
    Rule::new(
        numbers.below(symbols) as u8,
        &right,
        numbers.below(20) as u16,
    )
}

fn random_word(numbers: &mut Numbers, symbols: u64, last: u64) -> Word {
    let from = numbers.below(last);
    let to = (from + 1 + numbers.below(3)).min(last);
    let most = if numbers.below(10) == 0 { 65_536 } else { 30 };
    Word {
        from: from as u8,
        to: to as u8,
        symbol: numbers.below(symbols) as u8,
        mark: numbers.below(most) as u16,
    }
}

/// Any rules over any words, many of which fill the chart.
pub fn random(numbers: &mut Numbers) -> Input {
    let symbols = 2 + numbers.below(12);
    let last = 1 + numbers.below(31);
    let rules = (0..numbers.below(30))
        .map(|_| random_rule(numbers, symbols))
        .collect();
    let words: Vec<Word> = (0..numbers.below(60))
        .map(|_| random_word(numbers, symbols, last))
        .collect();
    let by = [By::Sum, By::Worst, By::Chance][numbers.below(3) as usize];
    let to = words.iter().map(|word| word.to).max().unwrap_or(0);
    let phrase = Phrase {
        symbol: numbers.below(symbols) as u8,
        from: 0,
        to: to + numbers.below(12) as u8 / 11,
    };
    if numbers.below(4) == 0 {
        let words = words
            .iter()
            .map(|word| Word {
                symbol: 15 + word.symbol % 7,
                ..*word
            })
            .collect();
        return line("random line", words, by);
    }
    Input {
        name: "random",
        is_count: false,
        rules,
        words,
        by,
        phrase,
    }
}
