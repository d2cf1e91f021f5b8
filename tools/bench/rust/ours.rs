//! The proved chart, linked as a static library; the declarations fit `exports.txt`.

use crate::inputs::{By, Input};
use crate::rules::{Edge, Listed, Node, Phrase, Rule, Word};

#[repr(C)]
#[derive(Clone, Copy)]
struct AskedEdge {
    is_active: bool,
    first: u8,
    seen: u8,
    from: u8,
    to: u8,
    is_finished: bool,
    weight: u64,
}

#[repr(C)]
#[derive(Clone, Copy)]
struct Answer {
    weight: u64,
    finished: u16,
    refusal: u8,
    is_full: bool,
}

#[repr(C)]
#[derive(Clone, Copy)]
struct Reading {
    weight: u64,
    nodes: usize,
    refusal: u8,
}

unsafe extern "C" {
    fn bench_chart_take(listed: *const Rule, rules: usize, heard: *const Word, words: usize) -> u8;
    fn bench_chart_weigh(
        is_count: bool,
        listed: *const Rule,
        rules: usize,
        heard: *const Word,
        words: usize,
        weighing: u8,
        asked: &Phrase,
    ) -> Answer;
    fn bench_chart_run(
        is_count: bool,
        listed: *const Rule,
        rules: usize,
        heard: *const Word,
        words: usize,
        weighing: u8,
        steps: usize,
        settles: bool,
        asked: &Phrase,
        edges: *mut AskedEdge,
        count: usize,
    ) -> Answer;
    fn bench_chart_read(
        is_count: bool,
        listed: *const Rule,
        rules: usize,
        heard: *const Word,
        words: usize,
        weighing: u8,
        asked: &Phrase,
        times: usize,
        nodes: *mut Node,
        room: usize,
    ) -> Reading;
}

/// What a run leaves: whether it is settled, how many edges are finished, and the weights of the edges asked about.
pub struct Left {
    pub answer: Result<u64, u8>,
    pub finished: u16,
    pub full: bool,
    pub weights: Vec<Option<u64>>,
}

fn number(by: By) -> u8 {
    match by {
        By::Sum => 0,
        By::Worst => 1,
        By::Chance => 2,
    }
}

fn result_of(answer: Answer) -> Result<u64, u8> {
    if answer.refusal == 0 {
        Ok(answer.weight)
    } else {
        Err(answer.refusal)
    }
}

fn asked(edge: Edge) -> AskedEdge {
    let (is_active, first, seen, from, to) = match edge {
        Edge::Passive { symbol, from, to } => (false, symbol, 0, from, to),
        Edge::Active {
            rule,
            seen,
            from,
            to,
        } => (true, rule, seen, from, to),
    };
    AskedEdge {
        is_active,
        first,
        seen,
        from,
        to,
        is_finished: false,
        weight: 0,
    }
}

/// Takes the lists over and makes no chart.
pub fn take(input: &Input) -> u8 {
    let Input { rules, words, .. } = input;
    // SAFETY: the exports ask nothing of their callers, and each pointer goes with the length of its slice; so below.
    unsafe { bench_chart_take(rules.as_ptr(), rules.len(), words.as_ptr(), words.len()) }
}

/// From opening to an answer.
pub fn weigh(input: &Input) -> Result<u64, u8> {
    let Input { rules, words, .. } = input;
    // SAFETY: as above.
    result_of(unsafe {
        bench_chart_weigh(
            input.is_count,
            rules.as_ptr(),
            rules.len(),
            words.as_ptr(),
            words.len(),
            number(input.by),
            &input.phrase,
        )
    })
}

/// Makes so many steps, settles or not, and looks at edges.
pub fn run(input: &Input, steps: usize, settles: bool, edges: &[Edge]) -> Left {
    let Input { rules, words, .. } = input;
    let mut edges: Vec<AskedEdge> = edges.iter().copied().map(asked).collect();
    // SAFETY: as above, and the edges are borrowed by this call alone.
    let answer = unsafe {
        bench_chart_run(
            input.is_count,
            rules.as_ptr(),
            rules.len(),
            words.as_ptr(),
            words.len(),
            number(input.by),
            steps,
            settles,
            &input.phrase,
            edges.as_mut_ptr(),
            edges.len(),
        )
    };
    let weights = edges
        .iter()
        .map(|edge| edge.is_finished.then_some(edge.weight))
        .collect();
    Left {
        answer: result_of(answer),
        finished: answer.finished,
        full: answer.is_full,
        weights,
    }
}

/// A reading from opening on: in one call if `times` is 0, else so many times from one settled chart.
pub fn read(input: &Input, phrase: Phrase, times: usize, list: &mut [Node]) -> Result<Listed, u8> {
    let Input { rules, words, .. } = input;
    // SAFETY: as above, and the list is borrowed by this call alone.
    let reading = unsafe {
        bench_chart_read(
            input.is_count,
            rules.as_ptr(),
            rules.len(),
            words.as_ptr(),
            words.len(),
            number(input.by),
            &phrase,
            times,
            list.as_mut_ptr(),
            list.len(),
        )
    };
    match reading {
        Reading {
            weight,
            nodes,
            refusal: 0,
        } => Ok(Listed { weight, nodes }),
        Reading { refusal, .. } => Err(refusal),
    }
}
