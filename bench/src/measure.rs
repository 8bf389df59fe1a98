//! Both sides timed in turns on the same input.

use crate::clock::processor_time;
use crate::input::Input;
use crate::side::Run;
use std::hint::black_box;
use std::time::{Duration, Instant};

/// What one side does in one cell of the table.
pub struct Case {
    /// What a round goes through in turn: more than one where a list is so short that the processor
    /// would learn by heart how its searches turn out.
    pub inputs: Vec<Input>,
    /// How often a round does its work on an input before the next, where there are many.
    pub turns: u32,
    /// How many operations a round has.
    pub operations: usize,
    pub base: Base,
}

/// The call whose time is subtracted, as no part of the work.
pub enum Base {
    /// One without rounds: it makes the containers.
    NoRounds,
    /// One without queries: it also does what a round does beside them.
    NoQueries,
}

/// Nanoseconds of processor time an operation, and the ratio of the two times: each the middle of
/// all samples, the ratio with its quartiles.
pub struct Measured {
    pub rust: f64,
    pub rattle: f64,
    pub ratio: f64,
    pub first_quartile: f64,
    pub last_quartile: f64,
}

/// How long a sample is to take at least, in seconds, and how many times what is subtracted.
const SAMPLE: f64 = 0.006;
const SHARE: f64 = 10.0;

/// After how long a case has enough samples where it has five, and where it has three.
const CASE: Duration = Duration::from_millis(900);
const SLOW_CASE: Duration = Duration::from_secs(4);
const MOST_SAMPLES: usize = 41;

/// After how long a time that is to be the shortest of three is not taken again.
const SLOW_CALL: Duration = Duration::from_millis(200);

impl Case {
    /// Times the first side beside the second. Stops where what they contain, or any two answers,
    /// differ.
    pub fn measure(&self, contents: [Run; 2], runs: [Run; 2]) -> Measured {
        self.compare_contents(contents);
        let rounds = runs.map(|run| self.rounds(run));
        let rounds = rounds[0].max(rounds[1]);
        let bases = runs.map(|run| self.base(run, rounds));
        let mut times = [vec![], vec![]];
        let begun = Instant::now();
        while !is_enough(times[0].len(), begun.elapsed()) {
            let first = times[0].len() % 2;
            let mut answers = [0, 0];
            for side in [first, 1 - first] {
                let (time, answer) = timed(|| self.work(runs[side], rounds));
                times[side].push((time - bases[side]) * 1e9 / self.all_operations(rounds));
                answers[side] = answer;
            }
            assert_eq!(answers[0], answers[1], "the two sides answer differently");
        }
        summary(times)
    }

    fn compare_contents(&self, contents: [Run; 2]) {
        for input in &self.inputs {
            let [rust, rattle] = contents.map(|run| run(&input.entries, &[], 1));
            assert_eq!(rust, rattle, "the containers of the same entries differ");
        }
    }

    fn all_operations(&self, rounds: u32) -> f64 {
        self.operations as f64 * f64::from(rounds)
    }

    // A call for each input where there are more than one, so that they come in turn.
    fn work(&self, run: Run, rounds: u32) -> u64 {
        if let [input] = &self.inputs[..] {
            return run(&input.entries, &input.queries, rounds);
        }
        (0..rounds).fold(0, |answers, _| self.pass(run, self.turns, answers))
    }

    // Each input once, with so many turns.
    fn pass(&self, run: Run, turns: u32, before: u64) -> u64 {
        self.inputs.iter().fold(before, |answers, input| {
            let answer = run(&input.entries, &input.queries, turns);
            answer.wrapping_add(answers.wrapping_mul(31))
        })
    }

    // So many that a sample is long enough, and what is subtracted a small part of it.
    fn rounds(&self, run: Run) -> u32 {
        let base = self.base(run, 1);
        let whole = shortest(|| self.work(run, 1));
        let round = (whole - base).max(whole / 20.0);
        let share = if self.inputs.len() == 1 { SHARE } else { 0.0 };
        (SAMPLE.max(share * base) / round).clamp(1.0, 1e6) as u32
    }

    // The time of what is no part of the work.
    fn base(&self, run: Run, rounds: u32) -> f64 {
        match (&self.base, &self.inputs[..]) {
            (Base::NoRounds, [input]) => shortest(|| run(&input.entries, &input.queries, 0)),
            (Base::NoQueries, [input]) => shortest(|| run(&input.entries, &[], rounds)),
            _ => shortest(|| self.pass(run, 0, 0)) * f64::from(rounds),
        }
    }
}

fn is_enough(samples: usize, time: Duration) -> bool {
    match samples {
        0..=2 => false,
        3..=4 => time > SLOW_CASE,
        _ => time > CASE || samples >= MOST_SAMPLES,
    }
}

fn timed(run: impl Fn() -> u64) -> (f64, u64) {
    let begun = processor_time();
    let answer = black_box(run());
    (processor_time() - begun, answer)
}

fn shortest(run: impl Fn() -> u64) -> f64 {
    let begun = Instant::now();
    let mut shortest = timed(&run).0;
    for _ in 0..2 {
        if begun.elapsed() < SLOW_CALL {
            shortest = shortest.min(timed(&run).0);
        }
    }
    shortest
}

fn summary(times: [Vec<f64>; 2]) -> Measured {
    let [rust, rattle] = &times;
    let ratios = rattle
        .iter()
        .zip(rust)
        .map(|(rattle, rust)| rattle / rust)
        .collect();
    let ratios = sorted(ratios);
    let part = |parts: usize| ratios[ratios.len() * parts / 4];
    let (first_quartile, ratio, last_quartile) = (part(1), part(2), part(3));
    let [rust, rattle] = times.map(|side| sorted(side)[ratios.len() / 2]);
    Measured {
        rust,
        rattle,
        ratio,
        first_quartile,
        last_quartile,
    }
}

fn sorted(mut numbers: Vec<f64>) -> Vec<f64> {
    numbers.sort_by(f64::total_cmp);
    numbers
}
