//! Random inputs, whole and damaged.

use crate::input::{Input, Job, Memory};
use crate::logs;
use deruvain_model::model::{class, WORKING};
use deruvain_model::random::Random;
use deruvain_model::{Jobs, Model};

/// Status bytes at the edges of the classes.
const EDGES: [u8; 12] = [0, 1, 2, 3, 4, 5, 6, 128, 252, 253, 254, 255];

/// Dimensions that no cube has. Some would pass if they were cut to fewer bits.
const ODD_DIMENSIONS: [u32; 17] =
    [0, 0, 11, 11, 12, 13, 16, 17, 31, 33, 36, 67, 255, 260, 65_538, 0x8000_0001, u32::MAX];

/// How often each dimension is tried: small cubes much, the largest ones seldom.
const DIMENSIONS: [(u32, usize); 10] =
    [(1, 25), (2, 60), (3, 110), (4, 120), (5, 90), (6, 50), (7, 20), (8, 8), (9, 4), (10, 3)];

/// One call of one of the jobs.
pub fn input(random: &mut Random) -> Input {
    match random.below(28) {
        0..=3 => fill(random),
        4..=8 => decide(random),
        9..=12 => hop(random),
        13..=16 => journey(random),
        17..=19 => open(random),
        20..=23 => with_log(random, Job::Refresh),
        24..=26 => with_log(random, Job::Update),
        _ => restate(random),
    }
}

/// The call of Class for this byte.
pub fn class_of(byte: u8) -> Input {
    Input { job: Job::Class, n: 0, memory: Memory::default(), first: byte as u16, second: 0 }
}

fn fill(random: &mut Random) -> Input {
    let mut input = report(random, Job::Fill);
    input.memory.vectors = words(random, input.memory.status.len());
    damaged_lengths(random, input)
}

fn decide(random: &mut Random) -> Input {
    let mut input = report(random, Job::Decide);
    input.memory.vectors = vectors(random, &input);
    ends(random, &mut input);
    damaged_lengths(random, input)
}

fn hop(random: &mut Random) -> Input {
    let mut input = report(random, Job::Hop);
    input.memory.vectors = vectors(random, &input);
    ends(random, &mut input);
    input.second = match random.below(16) {
        0 => boundary(random, input.memory.status.len()),
        _ => input.first ^ input.second,
    };
    damaged_lengths(random, input)
}

fn journey(random: &mut Random) -> Input {
    let mut input = report(random, Job::Journey);
    let n = input.n.min(11) as usize;
    input.memory.vectors = words(random, input.memory.status.len());
    input.memory.picks = picks(random, n + 1);
    input.memory.path = words(random, n + 2);
    if random.once_in(4) {
        let more = random.below(20);
        input.memory.picks.extend((0..more).map(|_| 7));
        input.memory.path.extend((0..more).map(|_| 0x1234));
    }
    ends(random, &mut input);
    damaged_lengths(random, input)
}

/// Refresh, or Update with status bytes as earlier parts may have left them.
fn with_log(random: &mut Random, job: Job) -> Input {
    let n = dimension(random);
    let size = size(random, n);
    let sweep = match random.below(3) {
        0 => random.word(),
        1 => random.of(&[0, 1, 251, 252, 253, 254, 32_766, 32_767, 32_768, 65_534, 65_535]),
        _ => random.below(8) as u16,
    };
    let bytes = logs::log(random, size, sweep);
    let mut status = (0..size).map(|_| held(random)).collect();
    while random.once_in(12) {
        resize(random, &mut status, 1);
    }
    let memory = Memory { bytes, status, ..Memory::default() };
    Input { job, n, memory, first: sweep, second: 0 }
}

/// A status byte before a log is read.
fn held(random: &mut Random) -> u8 {
    match random.below(3) {
        0 => 0,
        1 => random.of(&EDGES),
        _ => random.byte(),
    }
}

/// 2^n, or what it is if n is cut to five bits, or something.
fn size(random: &mut Random, n: u32) -> usize {
    match n % 32 {
        low @ 0..=11 => 1 << low,
        _ => 1 << random.below(6),
    }
}

/// A report for a job, right in its lengths, and nothing else.
fn report(random: &mut Random, job: Job) -> Input {
    let n = dimension(random);
    let size = size(random, n);
    let memory = Memory { status: status(random, size), links: links(random, n, size), ..Memory::default() };
    Input { job, n, memory, first: 0, second: 0 }
}

fn dimension(random: &mut Random) -> u32 {
    if random.once_in(40) {
        return random.of(&ODD_DIMENSIONS);
    }
    let mut place = random.below(DIMENSIONS.iter().map(|(_, times)| times).sum());
    for (n, times) in DIMENSIONS {
        if place < times {
            return n;
        }
        place -= times;
    }
    1
}

fn status(random: &mut Random, size: usize) -> Vec<u8> {
    let lost_once_in = match random.below(10) {
        0 => return vec![1; size],
        1 => return (0..size).map(|_| random.of(&EDGES)).collect(),
        2 => return (0..size).map(|_| random.byte()).collect(),
        3 | 4 => size,
        5 | 6 => 8,
        7 | 8 => 4,
        _ => 2,
    };
    let lost = [0, 5, 100, 253, 254, 255];
    (0..size)
        .map(|_| if random.once_in(lost_once_in) { random.of(&lost) } else { random.of(&[1, 1, 2, 3, 4]) })
        .collect()
}

fn links(random: &mut Random, n: u32, size: usize) -> Vec<u16> {
    let dimensions = n.clamp(1, 16) as usize;
    let mut links = vec![0; size];
    let marks = match random.below(20) {
        0..=7 => 0,
        8..=12 => 1 + random.below(3),
        13 | 14 => 1 + random.below(size),
        15 | 16 => size * 2,
        17 => return links.iter().map(|_| random.word()).collect(),
        18 => return vec![((1u32 << dimensions.min(16)) - 1) as u16; size],
        _ => {
            links[random.below(size)] = 1u16.checked_shl(n.min(16) + random.below(6) as u32).unwrap_or(0x8000);
            random.below(3)
        }
    };
    for _ in 0..marks {
        links[random.below(size)] |= 1 << random.below(dimensions);
    }
    links
}

/// Vectors for Decide and Hop: right, nearly right, or wrong.
fn vectors(random: &mut Random, input: &Input) -> Vec<u16> {
    let size = input.memory.status.len();
    match random.below(12) {
        0 => words(random, size),
        1 => words(random, size).iter().map(|word| word & random.word()).collect(),
        2 => vec![0xffff; size],
        3 => vec![0; size],
        4 | 5 => {
            let mut vectors = right_vectors(random, input);
            for _ in 0..1 + random.below(size) {
                vectors[random.below(size)] ^= 1 << random.below(16);
            }
            vectors
        }
        6 => {
            let high = !((1u32 << input.n.min(16)) - 1) as u16;
            right_vectors(random, input).iter().map(|word| word | random.word() & high).collect()
        }
        _ => right_vectors(random, input),
    }
}

/// What Fill writes for the report without its too high marks.
fn right_vectors(random: &mut Random, input: &Input) -> Vec<u16> {
    let low = ((1u32 << input.n.min(16)) - 1) as u16;
    let links: Vec<u16> = input.memory.links.iter().map(|word| word & low).collect();
    let mut vectors = words(random, links.len());
    Model.fill(input.n, &input.memory.status, &links, &mut vectors);
    vectors
}

fn words(random: &mut Random, size: usize) -> Vec<u16> {
    (0..size).map(|_| random.word()).collect()
}

fn picks(random: &mut Random, size: usize) -> Vec<u8> {
    match random.below(4) {
        0 => vec![0; size],
        1 => vec![255; size],
        _ => (0..size).map(|_| random.byte()).collect(),
    }
}

/// Source and destination: mostly working boards.
fn ends(random: &mut Random, input: &mut Input) {
    input.first = node(random, &input.memory.status);
    input.second = match random.below(12) {
        0 => input.first,
        1 => input.first ^ 1 << random.below(16),
        _ => node(random, &input.memory.status),
    };
}

fn node(random: &mut Random, status: &[u8]) -> u16 {
    match random.below(24) {
        0 => boundary(random, status.len()),
        1 => random.below(status.len()) as u16,
        _ => working_node(random, status),
    }
}

/// A working board if a few tries find one.
fn working_node(random: &mut Random, status: &[u8]) -> u16 {
    let tries: Vec<usize> = (0..6).map(|_| random.below(status.len())).collect();
    let found = tries.iter().find(|&&a| class(status[a]) == WORKING);
    *found.unwrap_or(&tries[0]) as u16
}

fn boundary(random: &mut Random, size: usize) -> u16 {
    let word = random.word();
    random.of(&[0, (size - 1) as u16, size as u16, (size + 1) as u16, 65535, word])
}

/// Now and then one of the slices gets a wrong length.
fn damaged_lengths(random: &mut Random, mut input: Input) -> Input {
    while random.once_in(12) {
        let memory = &mut input.memory;
        match (input.job, random.below(5)) {
            (Job::Journey, 0) => resize(random, &mut memory.picks, 0),
            (Job::Journey, 1) => resize(random, &mut memory.path, 0),
            (_, 2) => resize(random, &mut memory.status, 1),
            (_, 3) => resize(random, &mut memory.links, 0),
            _ => resize(random, &mut memory.vectors, 0),
        }
    }
    input
}

fn resize<T: Clone>(random: &mut Random, values: &mut Vec<T>, filler: T) {
    let size = values.len();
    let other = if random.once_in(4) { size + 65_536 } else { random.below(2 * size + 2) };
    let length = random.of(&[0, 1, size / 2, size.saturating_sub(1), size + 1, 2 * size, other]);
    values.resize(length, filler);
}

fn open(random: &mut Random) -> Input {
    let mut input = report(random, Job::Open);
    if random.once_in(2) {
        mask_links(&mut input);
    }
    input.n = input.n.min(255);
    let mut bytes = record(input.n as u8, &input.memory);
    damage(random, &mut bytes);
    let size = input.memory.status.len();
    input.memory.bytes = bytes;
    input.memory.status = (0..lent_length(random, size)).map(|_| random.byte()).collect();
    input.memory.links = (0..lent_length(random, size)).map(|_| random.word()).collect();
    input.n = 0;
    input
}

fn restate(random: &mut Random) -> Input {
    let mut input = open(random);
    input.job = Job::Restate;
    input.memory.links.clear();
    if random.once_in(4) {
        let most = input.memory.bytes.len();
        let fitting = most.saturating_sub(5);
        let length = random.of(&[0, fitting.saturating_sub(1), fitting, fitting + 1, most, most + 1]);
        input.memory.status.resize(length, 3);
    }
    if random.once_in(50) {
        resize(random, &mut input.memory.status, 2);
    }
    input
}

fn mask_links(input: &mut Input) {
    let low = ((1u32 << input.n.min(16)) - 1) as u16;
    for word in &mut input.memory.links {
        *word &= low;
    }
}

fn lent_length(random: &mut Random, size: usize) -> usize {
    match random.below(16) {
        0 => random.below(size),
        1 => size - 1,
        2 | 3 => size + 1 + random.below(9),
        4 => 1024.max(size),
        _ => size,
    }
}

/// The record of a report.
pub fn record(n: u8, memory: &Memory) -> Vec<u8> {
    let body = 3 + memory.status.len() + 2 * memory.links.len();
    let mut bytes = (body as u16).to_le_bytes().to_vec();
    bytes.extend_from_slice(&[1, 0, n]);
    bytes.extend_from_slice(&memory.status);
    bytes.extend(memory.links.iter().flat_map(|word| word.to_le_bytes()));
    bytes
}

fn damage(random: &mut Random, bytes: &mut Vec<u8>) {
    match random.below(24) {
        0 => drop(bytes.pop()),
        1 => bytes.push(0),
        2 => {
            bytes.pop();
            set_length(bytes);
        }
        3 => {
            bytes.push(random.byte());
            set_length(bytes);
        }
        4 => bytes[2] = random.of(&[0, 2, 3, 255]),
        5 => bytes[3] = random.of(&[1, 128, 255]),
        6 | 7 => bytes[4] = random.of(&[0, 1, 2, 3, 9, 10, 11, 12, 16, 32, 64, 128, 255]),
        8 => bytes[4] = bytes[4].wrapping_add(random.of(&[1, 255])),
        9 => bytes[random.below(2)] ^= 1 << random.below(8),
        10 => bytes.truncate(random.below(8)),
        11 => {
            bytes.truncate(random.below(6000));
            set_length(bytes);
        }
        12 if random.once_in(20) => bytes.resize(bytes.len() + 65_536, 0),
        12 => *bytes = (0..random.below(40)).map(|_| random.byte()).collect(),
        13 => noise(random, bytes),
        14 => {
            let at = random.below(bytes.len());
            bytes[at] = random.byte();
        }
        15 => {
            let last = bytes.len() - 1;
            bytes[last] |= 1 << random.below(8);
        }
        _ => {}
    }
}

/// Random bytes, 0 to 5000, with a right header more often than chance has it.
fn noise(random: &mut Random, bytes: &mut Vec<u8>) {
    *bytes = (0..random.below(5001)).map(|_| random.byte()).collect();
    if bytes.len() >= 5 && random.once_in(2) {
        bytes[2] = 1;
        bytes[3] = 0;
        bytes[4] = random.below(12) as u8;
        set_length(bytes);
    }
}

/// Makes the length field right, if there is one.
pub fn set_length(bytes: &mut [u8]) {
    if bytes.len() >= 2 {
        let length = ((bytes.len() - 2) as u16).to_le_bytes();
        bytes[..2].copy_from_slice(&length);
    }
}
