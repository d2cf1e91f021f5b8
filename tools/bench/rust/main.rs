//! Makes charts over the same inputs by the proved crates and by plain Rust, compares what they answer, and times them.
//!
//! `bench` compares and times all; `bench HOW INPUT TIMES` makes one kind of chart so many times, for a profiler.

mod chart;
mod clock;
mod compare;
mod index;
mod inputs;
mod ours;
mod rules;

use compare::{Found, MOST_NODES, Read, compare};
use index::{Hashed, Index, Partners, Scan};
use inputs::{By, Input, Numbers};
use rules::{Chance, Listed, Node, Sum, Worst};
use std::collections::BTreeMap;
use std::hint::black_box;
use std::process::ExitCode;
use std::time::Duration;

type Weigh = fn(&Input) -> Result<u64, u8>;

fn weigh_with<I: Index>(input: &Input) -> Result<u64, u8> {
    let Input {
        rules,
        words,
        phrase,
        ..
    } = input;
    match input.by {
        By::Sum => chart::weigh::<Sum, I>(rules, words, Sum, *phrase),
        By::Worst => chart::weigh::<Worst, I>(rules, words, Worst, *phrase),
        By::Chance => chart::weigh::<Chance, I>(rules, words, Chance, *phrase),
    }
}

/// From opening to a reading, in one call.
fn read(input: &Input) -> Result<u64, u8> {
    let mut list = [UNREAD; MOST_NODES];
    ours::read(input, input.phrase, 0, &mut list).map(|listed| listed.weight)
}

type ReadAgain = fn(&Input, usize, &mut [Node]) -> Result<Listed, u8>;

fn read_ours(input: &Input, times: usize, list: &mut [Node]) -> Result<Listed, u8> {
    ours::read(input, input.phrase, times, list)
}

fn read_plain(input: &Input, times: usize, list: &mut [Node]) -> Result<Listed, u8> {
    let Input {
        rules,
        words,
        phrase,
        ..
    } = input;
    match input.by {
        By::Sum => chart::read::<Sum, Partners>(rules, words, Sum, *phrase, times, list),
        By::Worst => chart::read::<Worst, Partners>(rules, words, Worst, *phrase, times, list),
        By::Chance => chart::read::<Chance, Partners>(rules, words, Chance, *phrase, times, list),
    }
}

/// What is timed; the lists alone make no chart.
const WAYS: [(&str, Weigh); 6] = [
    ("ours", ours::weigh),
    ("plain", weigh_with::<Scan>),
    ("index", weigh_with::<Hashed>),
    ("partners", weigh_with::<Partners>),
    ("lists", |input| Ok(u64::from(ours::take(input)))),
    ("read", read),
];

/// The nodes of a list that nothing has been written into.
const UNREAD: Node = Node {
    is_rule: false,
    number: 0,
    from: 0,
    to: 0,
};

/// How often a settled chart is read.
const READINGS: usize = 10_000;
const READING_ROUNDS: usize = 31;

const RANDOM: usize = 3_000;
const ROUNDS: usize = 101;
const ROUND: Duration = Duration::from_millis(10);

/// Nanoseconds of the processor's time to a chart.
fn nanoseconds(weigh: Weigh, input: &Input, times: u32) -> f64 {
    let begin = clock::now();
    for _ in 0..times {
        let _ = black_box(weigh(black_box(input)));
    }
    (clock::now() - begin).as_nanos() as f64 / f64::from(times)
}

/// Of each way the nanoseconds to a chart, in the best round and in the middle one; a round goes through all ways.
fn timed(input: &Input) -> [(f64, f64); WAYS.len()] {
    let times = WAYS.map(|(_, weigh)| {
        let one = nanoseconds(weigh, input, 3).max(1.0);
        (ROUND.as_nanos() as f64 / one).max(3.0) as u32
    });
    let mut rounds = WAYS.map(|_| Vec::with_capacity(ROUNDS));
    for _ in 0..ROUNDS {
        for ((figures, (_, weigh)), times) in rounds.iter_mut().zip(WAYS).zip(times) {
            figures.push(nanoseconds(weigh, input, times));
        }
    }
    rounds.map(|mut figures| {
        figures.sort_by(f64::total_cmp);
        (figures[0], figures[ROUNDS / 2])
    })
}

fn printed(answer: Result<u64, u8>) -> String {
    answer.map_or_else(
        |refusal| format!("refused {refusal}"),
        |weight| weight.to_string(),
    )
}

/// Nanoseconds of the processor's time to one more reading of a settled chart, in the best rounds.
fn reading_time(read: ReadAgain, input: &Input) -> f64 {
    let mut list = [UNREAD; MOST_NODES];
    let mut best = |times: usize| {
        let rounds = (0..READING_ROUNDS).map(|_| {
            let begin = clock::now();
            let _ = black_box(read(black_box(input), times, &mut list));
            clock::now() - begin
        });
        rounds.min().unwrap_or_default().as_nanos() as f64
    };
    (best(READINGS + 1) - best(1)) / READINGS as f64
}

/// How readings were answered: how many with nodes, how many of these there were, and how many were refused.
#[derive(Default)]
struct Readings {
    listed: usize,
    nodes: usize,
    refused: BTreeMap<u8, usize>,
}

impl Readings {
    fn count(&mut self, readings: &[Read]) {
        for read in readings {
            match read.answer {
                Ok(Listed { nodes, .. }) => {
                    self.listed += 1;
                    self.nodes += nodes;
                }
                Err(refusal) => *self.refused.entry(refusal).or_insert(0) += 1,
            }
        }
    }

    fn tell(&self, of: &str) {
        let Readings {
            listed,
            nodes,
            refused,
        } = self;
        println!("readings of {of}: {listed} with {nodes} nodes, refused by number {refused:?}");
    }
}

/// Compares the charts of an input, and prints each difference.
fn compared(input: &Input, all: bool) -> Found {
    let found = compare(input, all);
    for difference in &found.differences {
        println!("DIFFERENCE {}: {difference}", input.name);
    }
    found
}

/// Compares the inputs that are timed, and prints what each gave.
fn compare_timed() -> usize {
    let mut differences = 0;
    let mut readings = Readings::default();
    for input in inputs::timed() {
        let found = compared(&input, true);
        readings.count(&found.readings);
        let full = if found.full { "full" } else { "not full" };
        let Found {
            edges,
            finished,
            answer,
            ..
        } = found;
        println!(
            "{:24} {edges:>5} edges, {finished:>5} finished, {full}, {}",
            input.name,
            printed(answer)
        );
        differences += found.differences.len();
    }
    readings.tell("these");
    differences
}

/// Compares inputs that look random, and prints what they gave together.
fn compare_random(count: usize) -> usize {
    let mut numbers = Numbers(0x5EED);
    let (mut edges, mut differences) = (0, 0);
    let mut answers = BTreeMap::new();
    let mut readings = Readings::default();
    for _ in 0..count {
        let found = compared(&inputs::random(&mut numbers), false);
        readings.count(&found.readings);
        let answer = found.answer.map_or_else(
            |refusal| format!("refused {refusal}"),
            |_| "weight".to_string(),
        );
        *answers.entry(answer).or_insert(0) += 1;
        edges += found.edges;
        differences += found.differences.len();
    }
    println!("{count} random inputs with {edges} edges: {answers:?}");
    readings.tell("these");
    differences
}

/// The differences in all.
fn compare_all() -> usize {
    let differences = compare_timed() + compare_random(RANDOM);
    println!("{differences} differences");
    differences
}

fn time_all() {
    println!(
        "\nmicroseconds a chart, in the best of {ROUNDS} rounds (in the middle one); ratios of the best"
    );
    print!("{:24}", "");
    WAYS.iter().for_each(|(name, _)| print!("{name:>21}"));
    println!(
        "{:>12}{:>12}{:>14}",
        "ours/plain", "ours/index", "ours/partners"
    );
    for input in inputs::timed() {
        let figures = timed(&input);
        print!("{:24}", input.name);
        figures
            .iter()
            .for_each(|(best, middle)| print!("{:>10.2} ({:>8.2})", best / 1e3, middle / 1e3));
        let ratio = |way: usize| figures[0].0 / figures[way].0;
        println!("{:>12.2}{:>12.2}{:>14.2}", ratio(1), ratio(2), ratio(3));
    }
}

/// What one more reading of the phrase costs, where it has one.
fn time_readings() {
    println!("\nnanoseconds a reading of a settled chart: ours, plain Rust");
    for input in inputs::timed() {
        let mut list = [UNREAD; MOST_NODES];
        if let Ok(Listed { nodes, .. }) = read_ours(&input, 1, &mut list) {
            let ours = reading_time(read_ours, &input);
            let plain = reading_time(read_plain, &input);
            println!(
                "{:24} {nodes:>4} nodes {ours:>8.0} {plain:>8.0}",
                input.name
            );
        }
    }
}

/// One kind of chart, so many times.
fn repeat(how: &str, input: &str, times: u32) -> Option<()> {
    let (_, weigh) = WAYS.iter().find(|(name, _)| *name == how)?;
    let inputs = inputs::timed();
    let input = inputs.get(input.parse::<usize>().ok()?)?;
    println!(
        "{how}, {}: {:.0} ns a chart, {}",
        input.name,
        nanoseconds(*weigh, input, times),
        printed(weigh(input))
    );
    Some(())
}

fn main() -> ExitCode {
    let words: Vec<String> = std::env::args().skip(1).collect();
    if let [how, input, times] = &words[..] {
        return match times
            .parse()
            .ok()
            .and_then(|times| repeat(how, input, times))
        {
            Some(()) => ExitCode::SUCCESS,
            None => ExitCode::from(2),
        };
    }
    if compare_all() != 0 {
        return ExitCode::FAILURE;
    }
    time_all();
    time_readings();
    ExitCode::SUCCESS
}
