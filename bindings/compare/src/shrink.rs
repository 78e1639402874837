//! The smallest input found that still shows a difference.

use crate::generate::{record, set_length};
use crate::input::{Input, Job, Memory};
use crate::logs;

/// Tries simpler and simpler inputs, and keeps each that still differs.
pub fn smallest(input: Input, differs: &dyn Fn(&Input) -> bool) -> Input {
    let mut shrinker = Shrinker { best: input, differs, tries_left: 200_000 };
    while shrinker.pass() {}
    shrinker.best
}

struct Shrinker<'a> {
    best: Input,
    differs: &'a dyn Fn(&Input) -> bool,
    tries_left: usize,
}

impl Shrinker<'_> {
    /// Every simplification once. True if one was kept.
    fn pass(&mut self) -> bool {
        let before = self.best.clone();
        while self.lower_n() {}
        self.shorten();
        self.plain_values();
        self.plain_ends();
        self.best != before && self.tries_left > 0
    }

    fn keep_if_differs(&mut self, change: impl FnOnce(&mut Input)) -> bool {
        if self.tries_left == 0 {
            return false;
        }
        self.tries_left -= 1;
        let mut next = self.best.clone();
        change(&mut next);
        let kept = next != self.best && (self.differs)(&next);
        if kept {
            self.best = next;
        }
        kept
    }

    fn lower_n(&mut self) -> bool {
        let lower = match self.best.job {
            Job::Class => return false,
            Job::Open | Job::Restate => half_of_record,
            Job::Refresh | Job::Update => half_of_log,
            _ => half,
        };
        let halves = (0..10).flat_map(|i| [(i, false), (i, true)]);
        halves.into_iter().any(|(i, upper)| self.keep_if_differs(|next| lower(next, i, upper)))
    }

    fn shorten(&mut self) {
        self.shorten_one(|memory| &mut memory.bytes);
        match self.best.job {
            Job::Open => self.shorten_record(),
            Job::Restate => self.shorten_record_and_status(),
            Job::Refresh | Job::Update => self.fewer_records(),
            _ => {}
        }
        self.shorten_one(|memory| &mut memory.status);
        self.shorten_one(|memory| &mut memory.links);
        self.shorten_one(|memory| &mut memory.vectors);
        self.shorten_one(|memory| &mut memory.picks);
        self.shorten_one(|memory| &mut memory.path);
    }

    fn shorten_one<T>(&mut self, slice: fn(&mut Memory) -> &mut Vec<T>) {
        let mut cut = slice(&mut self.best.memory).len();
        while cut > 0 {
            while self.keep_if_differs(|next| cut_off(slice(&mut next.memory), cut)) {}
            cut /= 2;
        }
    }

    /// As for any slice, but the record's length field follows.
    fn shorten_record(&mut self) {
        let mut cut = self.best.memory.bytes.len();
        while cut > 0 {
            while self.keep_if_differs(|next| {
                cut_off(&mut next.memory.bytes, cut);
                set_length(&mut next.memory.bytes);
            }) {}
            cut /= 2;
        }
    }

    /// The record and the status bytes by the same length, so that these go on to fit or not.
    fn shorten_record_and_status(&mut self) {
        let mut cut = self.best.memory.status.len();
        while cut > 0 {
            while self.keep_if_differs(|next| {
                if next.memory.status.len() >= cut {
                    cut_off(&mut next.memory.bytes, cut);
                    cut_off(&mut next.memory.status, cut);
                }
            }) {}
            cut /= 2;
        }
    }

    /// Takes runs of records out of a log; long runs first.
    fn fewer_records(&mut self) {
        let mut run = self.best.memory.bytes.len();
        while run >= 8 {
            run -= run % 8;
            let mut from = 0;
            while from < self.best.memory.bytes.len() {
                let kept = self.keep_if_differs(|next| {
                    let to = next.memory.bytes.len().min(from + run);
                    next.memory.bytes.drain(from..to);
                });
                from += if kept { 0 } else { run };
            }
            run /= 2;
        }
    }

    fn plain_values(&mut self) {
        self.plain_slice(|memory| &mut memory.status, &[1]);
        self.plain_slice(|memory| &mut memory.status, &[1, 254]);
        self.plain_slice(|memory| &mut memory.links, &[0]);
        self.plain_slice(|memory| &mut memory.vectors, &[0]);
        self.plain_slice(|memory| &mut memory.picks, &[0]);
        self.plain_slice(|memory| &mut memory.picks, &[0, 1]);
        self.plain_slice(|memory| &mut memory.path, &[0]);
        self.plain_slice(|memory| &mut memory.bytes, &[0]);
        self.plain_slice(|memory| &mut memory.bytes, &[0, 1]);
        self.fewer_bits(|memory| &mut memory.links);
        self.fewer_bits(|memory| &mut memory.vectors);
    }

    /// Sets runs of values to the last plain one, save those that are plain; long runs first.
    fn plain_slice<T: Copy + PartialEq>(&mut self, slice: fn(&mut Memory) -> &mut Vec<T>, plain: &[T]) {
        let mut run = slice(&mut self.best.memory).len();
        while run > 0 {
            for from in (0..slice(&mut self.best.memory).len()).step_by(run) {
                let odd = |value: &T| !plain.contains(value);
                if slice(&mut self.best.memory).iter().skip(from).take(run).any(odd) {
                    self.keep_if_differs(|next| {
                        let values = slice(&mut next.memory).iter_mut().skip(from).take(run);
                        values.filter(|value| odd(value)).for_each(|value| *value = plain[plain.len() - 1]);
                    });
                }
            }
            run /= 2;
        }
    }

    /// Clears single bits.
    fn fewer_bits(&mut self, slice: fn(&mut Memory) -> &mut Vec<u16>) {
        for at in 0..slice(&mut self.best.memory).len() {
            for bit in 0..16 {
                if slice(&mut self.best.memory)[at] >> bit & 1 == 1 {
                    self.keep_if_differs(|next| slice(&mut next.memory)[at] &= !(1 << bit));
                }
            }
        }
    }

    fn plain_ends(&mut self) {
        if self.best.job.has_log() {
            self.keep_if_differs(first_record_in_sweep_0);
        }
        for bit in (0..16).rev() {
            self.keep_if_differs(|next| {
                next.first &= !(1 << bit);
                next.second &= !(1 << bit);
            });
            self.keep_if_differs(|next| next.first &= !(1 << bit));
            self.keep_if_differs(|next| next.second &= !(1 << bit));
        }
        while self.keep_if_differs(|next| next.first = next.first.saturating_sub(1)) {}
    }
}

fn cut_off<T>(values: &mut Vec<T>, cut: usize) {
    values.truncate(values.len().saturating_sub(cut));
}

/// The nodes on one side of a dimension as a cube of their own; `i` counts from 0.
fn half(input: &mut Input, i: u32, upper: bool) {
    if !(2..=10).contains(&input.n) || i >= input.n {
        return;
    }
    half_of_slices(&mut input.memory, input.n, i, upper);
    input.memory.picks.pop();
    input.memory.path.pop();
    input.n -= 1;
    input.first = without_bit(input.first, i);
    input.second = without_bit(input.second, i);
}

/// As `half`, if the record is a whole one.
fn half_of_record(input: &mut Input, i: u32, upper: bool) {
    let bytes = &input.memory.bytes;
    let Some(n) = bytes.get(4).map(|&byte| byte as u32) else { return };
    if !(2..=10).contains(&n) || i >= n || bytes.len() != 5 + (3 << n) {
        return;
    }
    let (status, words) = bytes[5..].split_at(1 << n);
    let links = words.chunks(2).map(|pair| u16::from_le_bytes([pair[0], pair[1]])).collect();
    let mut report = Memory { status: status.to_vec(), links, ..Memory::default() };
    half_of_slices(&mut report, n, i, upper);
    input.memory.bytes = record(n as u8 - 1, &report);
    keep_half(&mut input.memory.status, n, i, upper);
    keep_half(&mut input.memory.links, n, i, upper);
}

/// As `half`, with the records of the nodes on that side and of those that the cube does not have.
fn half_of_log(input: &mut Input, i: u32, upper: bool) {
    let n = input.n;
    if !(2..=10).contains(&n) || i >= n {
        return;
    }
    let mut log = Vec::new();
    for record in input.memory.bytes.chunks_mut(8) {
        if record.len() == 8 {
            let node = logs::node(record);
            if node >> n == 0 && (node >> i & 1 == 1) != upper {
                continue;
            }
            logs::put_node(record, without_bit(node, i));
        }
        log.extend_from_slice(record);
    }
    input.memory.bytes = log;
    keep_half(&mut input.memory.status, n, i, upper);
    input.n -= 1;
}

/// The same ages, at sweeps of which the first record's is 0.
fn first_record_in_sweep_0(input: &mut Input) {
    let Some(first) = input.memory.bytes.chunks_exact(8).next().map(logs::sweep) else { return };
    for record in input.memory.bytes.chunks_exact_mut(8) {
        logs::put_sweep(record, logs::sweep(record).wrapping_sub(first));
    }
    input.first = input.first.wrapping_sub(first);
}

fn half_of_slices(memory: &mut Memory, n: u32, i: u32, upper: bool) {
    keep_half(&mut memory.status, n, i, upper);
    keep_half(&mut memory.links, n, i, upper);
    keep_half(&mut memory.vectors, n, i, upper);
    for word in &mut memory.links {
        *word = without_bit(*word, i);
    }
}

/// Keeps the places on one side of a dimension, and all places past 2^n.
fn keep_half<T>(values: &mut Vec<T>, n: u32, i: u32, upper: bool) {
    let mut at = 0;
    values.retain(|_| {
        let kept = at >> n != 0 || (at >> i & 1 == 1) == upper;
        at += 1;
        kept
    });
}

fn without_bit(word: u16, i: u32) -> u16 {
    let below = (1 << i) - 1;
    word & below | word >> 1 & !below
}
