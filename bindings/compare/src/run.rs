//! Many inputs, counted and compared.

use crate::generate;
use crate::input::{call, Input, Job};
use crate::shrink::smallest;
use crate::tell;
use deruvain_model::random::Random;
use deruvain_model::{Answer, Jobs, Model};

/// What came of one job: how many inputs, and how many of each answer.
#[derive(Clone, Default)]
pub struct Tally {
    pub inputs: usize,
    pub kinds: [usize; 4],
    pub refusals: [usize; 13],
}

pub struct Outcome {
    pub inputs: usize,
    pub tallies: [Tally; Job::COUNT],
    /// How many inputs had each n; from 12 on in the last place.
    pub dimensions: [usize; 13],
    /// The inputs that showed a difference.
    pub differing: Vec<Input>,
}

/// Puts inputs through the library and the model: each byte through Class, the rest at random. Stops
/// early after `enough` differences.
pub fn compare(library: &dyn Jobs, count: usize, seed: u64, enough: usize) -> Outcome {
    let mut random = Random::new(seed);
    let mut outcome = Outcome { inputs: 0, tallies: Default::default(), dimensions: [0; 13], differing: Vec::new() };
    while outcome.inputs < count && outcome.differing.len() < enough {
        let input = match outcome.inputs {
            byte @ 0..=255 => generate::class_of(byte as u8),
            _ => generate::input(&mut random),
        };
        outcome.inputs += 1;
        if let Some(n) = input.dimension() {
            outcome.dimensions[n.min(12) as usize] += 1;
        }
        let expected = call(&Model, &input);
        outcome.tallies[input.job as usize].add(&expected.answer);
        if call(library, &input) != expected {
            outcome.differing.push(input);
        }
    }
    outcome
}

/// The smallest input found that shows the difference, as text.
pub fn explain(library: &dyn Jobs, input: &Input) -> String {
    let input = smallest(input.clone(), &|input| call(library, input) != call(&Model, input));
    tell::difference(&input, &call(library, &input), &call(&Model, &input))
}

impl Outcome {
    /// One line about the dimensions.
    pub fn dimensions_line(&self) -> String {
        let counts: Vec<String> = (0..12).map(|n| format!("{n}: {}", self.dimensions[n])).collect();
        format!("n       {}, over 11: {}", counts.join(", "), self.dimensions[12])
    }
}

impl Tally {
    fn add(&mut self, answer: &Answer) {
        self.inputs += 1;
        self.refusals[answer.refusal as usize] += 1;
        if answer.refusal == 0 && answer.kind < 4 {
            self.kinds[answer.kind as usize] += 1;
        }
    }

    /// One line about a job.
    pub fn line(&self, job: Job) -> String {
        let mut line = format!("{:8}{:7} inputs, accepted {}", job.name(), self.inputs, self.refusals[0]);
        let names: &[&str] = match job {
            Job::Hop => &tell::STEPS,
            Job::Decide | Job::Journey => &tell::KINDS,
            _ => &[],
        };
        let kinds: Vec<String> = names.iter().zip(self.kinds).map(|(name, times)| format!("{name} {times}")).collect();
        if !kinds.is_empty() {
            line += &format!(" ({})", kinds.join(", "));
        }
        let refused = self.refusals.iter().enumerate().skip(1).filter(|(_, times)| **times > 0);
        let refused: Vec<String> = refused.map(|(number, times)| format!("{number}: {times}")).collect();
        if !refused.is_empty() {
            line += &format!("; refused by {}", refused.join(", "));
        }
        line
    }
}
