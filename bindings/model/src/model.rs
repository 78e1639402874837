//! The rules of document 01 and Wu's Definition 1, and of Asks 1 and 2 of document 02, as plain Rust.
//!
//! Dimensions and bits count from 1, as in the paper. Nothing here is meant to be fast.

use crate::{Answer, Opened, Refreshed};

pub const SILENT: u32 = 0;
pub const WORKING: u32 = 1;
pub const LATE: u32 = 2;
pub const DOWN: u32 = 3;
pub const EMPTY: u32 = 4;

pub const HOME: u32 = 0;
pub const ASSURED: u32 = 1;
pub const LENT: u32 = 2;
pub const DETOUR: u32 = 3;

pub const ARRIVED: u32 = 0;
pub const OFFERED: u32 = 1;

/// The class of a status byte.
pub fn class(byte: u8) -> u32 {
    match byte {
        0 => SILENT,
        1..=4 => WORKING,
        5..=253 => LATE,
        254 => DOWN,
        255 => EMPTY,
    }
}

/// 2^(i−1): what dimension i adds to a node number, and bit i to a word.
fn weight(i: u32) -> usize {
    1 << (i - 1)
}

/// Bit i of a word.
fn bit(word: usize, i: u32) -> bool {
    word >> (i - 1) & 1 == 1
}

/// How many of the dimensions 1 to n are in a relative address: its distance.
fn distance(n: u32, relative: usize) -> u32 {
    (1..=n).filter(|&i| bit(relative, i)).count() as u32
}

/// The word whose bits are these dimensions.
fn mask(dimensions: &[u32]) -> u32 {
    dimensions.iter().map(|&i| weight(i) as u32).sum()
}

/// A report of the right lengths, read as the rules read it.
struct Cube<'a> {
    n: u32,
    status: &'a [u8],
    links: &'a [u16],
}

impl Cube<'_> {
    fn works(&self, a: usize) -> bool {
        class(self.status[a]) == WORKING
    }

    fn neighbour(&self, a: usize, i: u32) -> usize {
        if bit(a, i) {
            a - weight(i)
        } else {
            a + weight(i)
        }
    }

    /// Whether the link of a along i counts as faulty: a's word marks it, or its neighbour's does.
    fn faulty(&self, a: usize, i: u32) -> bool {
        let marked_by = |end: usize| bit(self.links[end] as usize, i);
        marked_by(a) || marked_by(self.neighbour(a, i))
    }

    /// The first bits of all nodes.
    fn first_bits(&self) -> Vec<bool> {
        let first = |a| self.works(a) && !(1..=self.n).any(|i| self.faulty(a, i));
        (0..self.status.len()).map(first).collect()
    }

    /// The bits k of all nodes, from the bits k−1 of all nodes.
    fn next_bits(&self, k: u32, before: &[bool]) -> Vec<bool> {
        let registered = |a, i| !self.faulty(a, i) && before[self.neighbour(a, i)];
        let sum = |a| (1..=self.n).filter(|&i| registered(a, i)).count() as u32;
        let next = |a| self.works(a) && sum(a) > self.n - k;
        (0..self.status.len()).map(next).collect()
    }

    /// The vectors of all nodes, as words.
    fn vectors(&self) -> Vec<u16> {
        let mut bits = self.first_bits();
        let mut words: Vec<u16> = bits.iter().map(|&b| b as u16).collect();
        for k in 2..=self.n {
            bits = self.next_bits(k, &bits);
            for (word, _) in words.iter_mut().zip(&bits).filter(|(_, &b)| b) {
                *word += weight(k) as u16;
            }
        }
        words
    }

    /// Bit k of a's neighbour along i as registered at a, over lent vectors.
    fn registered(&self, vectors: &[u16], a: usize, i: u32, k: u32) -> bool {
        let own = |b: usize| k == 0 || bit(vectors[b] as usize, k);
        !self.faulty(a, i) && own(self.neighbour(a, i))
    }

    /// P: the preferred dimensions whose neighbour has registered bit H−1.
    fn preferred(&self, vectors: &[u16], a: usize, relative: usize) -> Vec<u32> {
        let h = distance(self.n, relative);
        (1..=self.n).filter(|&i| bit(relative, i)).filter(|&i| self.registered(vectors, a, i, h - 1)).collect()
    }

    /// Q: the spare dimensions whose neighbour has registered bit H+1.
    fn spare(&self, vectors: &[u16], a: usize, relative: usize) -> Vec<u32> {
        let h = distance(self.n, relative);
        (1..=self.n).filter(|&i| !bit(relative, i)).filter(|&i| self.registered(vectors, a, i, h + 1)).collect()
    }

    /// The rule at the source.
    fn decide(&self, vectors: &[u16], s: usize, d: usize) -> Answer {
        let relative = s ^ d;
        let h = distance(self.n, relative);
        if h == 0 {
            return Answer::accepted(HOME, 0, 0);
        }
        let own = bit(vectors[s] as usize, h);
        let p = self.preferred(vectors, s, relative);
        if own && p.is_empty() {
            return Answer::refused(8);
        }
        if own {
            return Answer::accepted(ASSURED, mask(&p), h);
        }
        if !p.is_empty() {
            return Answer::accepted(LENT, mask(&p), h);
        }
        let q = self.spare(vectors, s, relative);
        if !q.is_empty() {
            return Answer::accepted(DETOUR, mask(&q), h + 2);
        }
        Answer::refused(7)
    }

    /// The rule at a later node.
    fn hop(&self, vectors: &[u16], a: usize, relative: usize) -> Answer {
        if relative == 0 {
            return Answer::accepted(ARRIVED, 0, 0);
        }
        let p = self.preferred(vectors, a, relative);
        if p.is_empty() {
            return Answer::refused(9);
        }
        Answer::accepted(OFFERED, mask(&p), 0)
    }

    /// The nodes from s on, by the source's offer and then by the hops, over filled vectors.
    fn walk(&self, vectors: &[u16], picks: &[u8], s: usize, d: usize, offer: u32) -> Vec<u16> {
        let mut path = vec![s as u16];
        let mut offer = offer;
        let mut a = s;
        for pick in picks {
            if offer == 0 {
                break;
            }
            a = self.neighbour(a, picked(self.n, offer, *pick));
            path.push(a as u16);
            let answer = self.hop(vectors, a, a ^ d);
            assert_eq!(answer.refusal, 0, "a board on the way refuses");
            offer = answer.mask;
        }
        path
    }
}

/// The offered dimension of rank (pick mod how many are offered), rank 0 the lowest.
fn picked(n: u32, offer: u32, pick: u8) -> u32 {
    let offered: Vec<u32> = (1..=n).filter(|&i| bit(offer as usize, i)).collect();
    offered[pick as usize % offered.len()]
}

fn dimension_fits(n: u32) -> bool {
    (1..=10).contains(&n)
}

/// Whether some link word has a bit at weight 2^n or above.
fn marks_too_high(n: u32, links: &[u16]) -> bool {
    links.iter().any(|&word| word as u32 >= 2u32.pow(n))
}

/// Fill: the refusal number, 0 for done.
pub fn fill(n: u32, status: &[u8], links: &[u16], vectors: &mut [u16]) -> u32 {
    if !dimension_fits(n) {
        return 1;
    }
    let size = 2usize.pow(n);
    if status.len() != size || links.len() != size || vectors.len() != size {
        return 2;
    }
    if marks_too_high(n, links) {
        return 3;
    }
    vectors.copy_from_slice(&Cube { n, status, links }.vectors());
    0
}

/// Decide, over vectors as lent.
pub fn decide(n: u32, status: &[u8], links: &[u16], vectors: &[u16], source: u16, destination: u16) -> Answer {
    if !dimension_fits(n) {
        return Answer::refused(1);
    }
    let size = 2usize.pow(n);
    if status.len() != size || links.len() != size || vectors.len() != size {
        return Answer::refused(2);
    }
    let (s, d) = (source as usize, destination as usize);
    if s >= size || d >= size {
        return Answer::refused(4);
    }
    let cube = Cube { n, status, links };
    if !cube.works(s) {
        return Answer::refused(5);
    }
    if !cube.works(d) {
        return Answer::refused(6);
    }
    cube.decide(vectors, s, d)
}

/// Hop, over vectors as lent.
pub fn hop(n: u32, status: &[u8], links: &[u16], vectors: &[u16], node: u16, relative: u16) -> Answer {
    if !dimension_fits(n) {
        return Answer::refused(1);
    }
    let size = 2usize.pow(n);
    if status.len() != size || links.len() != size || vectors.len() != size {
        return Answer::refused(2);
    }
    let (a, relative) = (node as usize, relative as usize);
    if a >= size || relative >= size {
        return Answer::refused(4);
    }
    let cube = Cube { n, status, links };
    if !cube.works(a) {
        return Answer::refused(5);
    }
    if !cube.works(a ^ relative) {
        return Answer::refused(6);
    }
    cube.hop(vectors, a, relative)
}

/// Journey: fills, decides and hops to the end.
#[allow(clippy::too_many_arguments)]
pub fn journey(
    n: u32,
    status: &[u8],
    links: &[u16],
    vectors: &mut [u16],
    picks: &[u8],
    path: &mut [u16],
    source: u16,
    destination: u16,
) -> Answer {
    if !dimension_fits(n) {
        return Answer::refused(1);
    }
    let size = 2usize.pow(n);
    if status.len() != size || links.len() != size || vectors.len() != size {
        return Answer::refused(2);
    }
    if picks.len() < n as usize + 1 || path.len() < n as usize + 2 {
        return Answer::refused(2);
    }
    if marks_too_high(n, links) {
        return Answer::refused(3);
    }
    let (s, d) = (source as usize, destination as usize);
    if s >= size || d >= size {
        return Answer::refused(4);
    }
    let cube = Cube { n, status, links };
    if !cube.works(s) {
        return Answer::refused(5);
    }
    if !cube.works(d) {
        return Answer::refused(6);
    }
    vectors.copy_from_slice(&cube.vectors());
    let decision = cube.decide(vectors, s, d);
    assert!(decision.refusal == 0 || decision.refusal == 7, "filled vectors break a promise");
    if decision.refusal != 0 {
        return decision;
    }
    let nodes = cube.walk(vectors, picks, s, d, decision.mask);
    path[..nodes.len()].copy_from_slice(&nodes);
    Answer { hops: nodes.len() as u32 - 1, ..decision }
}

fn little_endian(bytes: &[u8]) -> usize {
    bytes[0] as usize + 256 * bytes[1] as usize
}

/// Open: reads one record into the first 2^n places of two lent slices.
pub fn open(bytes: &[u8], status: &mut [u8], links: &mut [u16]) -> Opened {
    if bytes.len() < 5 || little_endian(&bytes[0..2]) != bytes.len() - 2 || little_endian(&bytes[2..4]) != 1 {
        return Opened::refused(10);
    }
    let n = bytes[4] as u32;
    if !dimension_fits(n) {
        return Opened::refused(1);
    }
    let size = 2usize.pow(n);
    if bytes.len() - 2 != 3 + 3 * size {
        return Opened::refused(10);
    }
    if status.len() < size || links.len() < size {
        return Opened::refused(2);
    }
    let words: Vec<u16> = bytes[5 + size..].chunks(2).map(|pair| little_endian(pair) as u16).collect();
    if marks_too_high(n, &words) {
        return Opened::refused(3);
    }
    status[..size].copy_from_slice(&bytes[5..5 + size]);
    links[..size].copy_from_slice(&words);
    Opened { refusal: 0, n }
}

/// The age of a log's record: the present sweep less its own, wrapping.
fn age(sweep: u16, record: &[u8]) -> usize {
    (65_536 + sweep as usize - little_endian(&record[4..6])) % 65_536
}

fn from_the_future(age: usize) -> bool {
    age >= 32_768
}

/// The status byte of a node, from the age of its youngest usable record.
fn heard(youngest: Option<usize>) -> u8 {
    match youngest {
        None => 0,
        Some(age) if age <= 252 => age as u8 + 1,
        Some(_) => 253,
    }
}

/// Refresh: the status bytes from a status log.
pub fn refresh(n: u32, sweep: u16, log: &[u8], status: &mut [u8]) -> Refreshed {
    if !dimension_fits(n) {
        return Refreshed::refused(1);
    }
    let size = 2usize.pow(n);
    if status.len() != size {
        return Refreshed::refused(2);
    }
    for record in log.chunks(8) {
        if record.len() < 8 || little_endian(&record[0..2]) != 6 || little_endian(&record[2..4]) != 2 {
            return Refreshed::refused(11);
        }
        if little_endian(&record[6..8]) >= size {
            return Refreshed::refused(12);
        }
    }
    for (a, byte) in status.iter_mut().enumerate() {
        let own = log.chunks(8).filter(|record| little_endian(&record[6..8]) == a);
        let usable = own.map(|record| age(sweep, record)).filter(|&age| !from_the_future(age));
        *byte = heard(usable.min());
    }
    let skipped = log.chunks(8).filter(|record| from_the_future(age(sweep, record))).count();
    Refreshed { refusal: 0, skipped }
}

/// Update: the status bytes from one more part of a status log, where each node keeps the younger of what it had and
/// what the part says.
pub fn update(n: u32, sweep: u16, part: &[u8], status: &mut [u8]) -> Refreshed {
    let mut said = status.to_vec();
    let refreshed = refresh(n, sweep, part, &mut said);
    if refreshed.refusal == 0 {
        for (byte, said) in status.iter_mut().zip(said) {
            *byte = match (*byte, said) {
                (0, said) => said,
                (held, 0) => held,
                (held, said) => held.min(said),
            };
        }
    }
    refreshed
}

/// Restate: puts status bytes over those of a record, from its sixth byte on. Refuses by 2 if they do not fit.
pub fn restate(bytes: &mut [u8], status: &[u8]) -> u32 {
    if bytes.len() < 5 + status.len() {
        return 2;
    }
    for (a, byte) in status.iter().enumerate() {
        bytes[5 + a] = *byte;
    }
    0
}

/// What the program `listing` prints for a record.
pub fn listing(record: &[u8]) -> String {
    let (mut status, mut links) = ([0; 1024], [0; 1024]);
    let opened = if record.len() > 4096 { Opened::refused(10) } else { open(record, &mut status, &mut links) };
    if opened.refusal != 0 {
        return format!("refused {}\n", opened.refusal);
    }
    let n = opened.n;
    let size = 2usize.pow(n);
    let words = Cube { n, status: &status[..size], links: &links[..size] }.vectors();
    let mut text = format!("cube {n}\n");
    for (a, &word) in words.iter().enumerate() {
        let row: String = (1..=n).map(|k| if bit(word as usize, k) { '1' } else { '0' }).collect();
        text += &format!("{a} {} {row}\n", class_name(class(status[a])));
    }
    text
}

/// The class as case N names it.
pub fn class_name(class: u32) -> &'static str {
    ["silent", "working", "late", "down", "empty"][class as usize]
}
