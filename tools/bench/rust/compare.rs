//! Whether all charts answer the same.

use crate::chart::Chart;
use crate::index::{Hashed, Index, Partners, Scan};
use crate::inputs::{By, Input};
use crate::ours;
use crate::rules::{Chance, Edge, Listed, Node, Phrase, Place, Sum, Weighing, Worst};

/// As many nodes as the export takes.
pub const MOST_NODES: usize = 256;

/// How many passive edges of a chart are read where not all are.
const FEW: usize = 3;

/// A reading, with the whole list that it was written into.
#[derive(PartialEq, Debug)]
pub struct Read {
    phrase: Phrase,
    /// Whether ours reads it in one call, and not of a settled chart.
    in_one_call: bool,
    pub answer: Result<Listed, u8>,
    list: Vec<Node>,
}

/// A settled chart as it is compared.
struct Settled {
    answer: Result<u64, u8>,
    finished: u16,
    full: bool,
    readings: Vec<Read>,
    places: Vec<Place>,
}

/// A list that shows by its nodes which of them were written over.
fn unread(room: usize) -> Vec<Node> {
    let node = |n: usize| Node {
        is_rule: n % 2 == 0,
        number: n as u8,
        from: 200,
        to: 100,
    };
    (0..room).map(node).collect()
}

/// What is read: the phrase asked for, passive edges of the chart, one that is not in it, and one over no span.
fn phrases(input: &Input, places: &[Place], all: bool) -> Vec<Phrase> {
    let asked = input.phrase;
    let none = Phrase {
        symbol: 255,
        from: 0,
        to: 0,
    };
    let back = Phrase {
        from: asked.to + 1,
        to: asked.from,
        ..asked
    };
    let passive: Vec<Phrase> = places
        .iter()
        .filter_map(|place| match place.edge {
            Edge::Passive { symbol, from, to } => Some(Phrase { symbol, from, to }),
            Edge::Active { .. } => None,
        })
        .collect();
    let mut phrases = vec![asked, none, back];
    if all || passive.len() < FEW {
        phrases.extend(passive);
    } else {
        phrases.extend((1..=FEW).map(|n| passive[passive.len() * n / FEW - 1]));
    }
    phrases
}

/// Readings of the n-th phrase: into a list with room, and into one that is too short by a node or by half.
fn readings<W: Weighing, I: Index>(chart: &Chart<W, I>, n: usize, phrase: Phrase) -> Vec<Read> {
    let read = |room: usize, in_one_call: bool| {
        let mut list = unread(room);
        Read {
            phrase,
            in_one_call,
            answer: chart.reading(phrase, &mut list),
            list,
        }
    };
    let whole = read(MOST_NODES, n % 2 == 0);
    match whole.answer {
        Ok(Listed { nodes, .. }) => {
            let room = if n / 2 % 2 == 0 { nodes - 1 } else { nodes / 2 };
            vec![whole, read(room, n % 2 == 1)]
        }
        Err(_) => vec![whole],
    }
}

fn settled<W: Weighing, I: Index>(input: &Input, weighing: W, all: bool) -> Settled {
    let mut chart = Chart::<W, I>::open(&input.rules, &input.words, weighing);
    chart.settle();
    Settled {
        answer: chart.question(input.phrase),
        finished: chart.finished,
        full: chart.full,
        readings: phrases(input, &chart.places, all)
            .into_iter()
            .enumerate()
            .flat_map(|(n, phrase)| readings(&chart, n, phrase))
            .collect(),
        places: chart.places,
    }
}

fn settled_by<I: Index>(input: &Input, all: bool) -> Settled {
    match input.by {
        By::Sum => settled::<Sum, I>(input, Sum, all),
        By::Worst => settled::<Worst, I>(input, Worst, all),
        By::Chance => settled::<Chance, I>(input, Chance, all),
    }
}

/// What was found, and what differs.
pub struct Found {
    pub answer: Result<u64, u8>,
    pub edges: usize,
    pub finished: u16,
    pub full: bool,
    pub readings: Vec<Read>,
    pub differences: Vec<String>,
}

/// Notes a difference, if there is one.
fn same<T: PartialEq + std::fmt::Debug>(
    differences: &mut Vec<String>,
    what: &str,
    ours: T,
    theirs: T,
) {
    if ours != theirs {
        differences.push(format!("{what}: ours {ours:?}, Rust {theirs:?}"));
    }
}

/// The edges of the proved chart, each with its weight if it is finished, against those of the plain one.
fn compare_ours(input: &Input, plain: &Settled, differences: &mut Vec<String>) {
    let edges: Vec<Edge> = plain.places.iter().map(|place| place.edge).collect();
    let left = ours::run(input, 0, true, &edges);
    same(
        differences,
        "answer of one call",
        ours::weigh(input),
        plain.answer,
    );
    same(differences, "answer of a run", left.answer, plain.answer);
    same(differences, "edges finished", left.finished, plain.finished);
    same(differences, "full", left.full, plain.full);
    for (place, weight) in plain.places.iter().zip(left.weights) {
        same(
            differences,
            &format!("{:?}", place.edge),
            weight,
            place.is_finished().then_some(place.weight),
        );
    }
}

/// The readings of the proved chart against those of the plain one: answers and lists.
fn compare_readings(input: &Input, plain: &Settled, differences: &mut Vec<String>) {
    for read in &plain.readings {
        let mut list = unread(read.list.len());
        let times = usize::from(!read.in_one_call);
        let answer = ours::read(input, read.phrase, times, &mut list);
        same(
            differences,
            &format!(
                "reading of {:?} into {} nodes",
                read.phrase,
                read.list.len()
            ),
            (answer, &list),
            (read.answer, &read.list),
        );
    }
}

/// The order in which edges are finished: after n steps the n-th is, and the next is not.
fn compare_order(input: &Input, plain: &Settled, differences: &mut Vec<String>) {
    let mut order: Vec<&Place> = plain
        .places
        .iter()
        .filter(|place| place.is_finished())
        .collect();
    order.sort_by_key(|place| place.number);
    for steps in 0..=order.len() {
        let around: Vec<Edge> = order[steps.saturating_sub(1)..(steps + 1).min(order.len())]
            .iter()
            .map(|place| place.edge)
            .collect();
        let left = ours::run(input, steps, false, &around);
        same(
            differences,
            &format!("finished after {steps} steps"),
            usize::from(left.finished),
            steps,
        );
        for (edge, weight) in around.iter().zip(left.weights) {
            let is_last = steps > 0 && *edge == order[steps - 1].edge;
            same(
                differences,
                &format!("{edge:?} is finished after {steps} steps"),
                weight.is_some(),
                is_last,
            );
        }
    }
}

/// All charts of an input side by side; with all, the order of finishing and the readings of all passive edges too.
pub fn compare(input: &Input, all: bool) -> Found {
    let plain = settled_by::<Scan>(input, all);
    let mut differences = Vec::new();
    for (name, other) in [
        ("index", settled_by::<Hashed>(input, all)),
        ("partners", settled_by::<Partners>(input, all)),
    ] {
        if (other.answer, other.finished, other.full) != (plain.answer, plain.finished, plain.full)
            || other.places != plain.places
            || other.readings != plain.readings
        {
            differences.push(format!("the chart with {name} is not the plain one"));
        }
    }
    compare_ours(input, &plain, &mut differences);
    compare_readings(input, &plain, &mut differences);
    if all {
        compare_order(input, &plain, &mut differences);
    }
    let Settled {
        answer,
        finished,
        full,
        readings,
        places,
    } = plain;
    Found {
        answer,
        edges: places.len(),
        finished,
        full,
        readings,
        differences,
    }
}
