//! The jobs as fast, safe, plain Rust: the same rounds over the same slices.

use crate::{Answer, Opened, Refreshed};

pub fn class(byte: u8) -> u32 {
    match byte {
        0 => 0,
        1..=4 => 1,
        5..=253 => 2,
        254 => 3,
        255 => 4,
    }
}

fn working(byte: u8) -> bool {
    matches!(byte, 1..=4)
}

/// The number of nodes, if n and the three lengths are right.
fn size_of(n: u32, status: &[u8], links: &[u16], vectors: &[u16]) -> Result<usize, u32> {
    if !(1..=10).contains(&n) {
        return Err(1);
    }
    let size = 1 << n;
    if status.len() != size || links.len() != size || vectors.len() != size {
        return Err(2);
    }
    Ok(size)
}

fn check_links(n: u32, links: &[u16]) -> Result<(), u32> {
    let union = links.iter().fold(0, |all, word| all | word);
    if union >> n == 0 {
        Ok(())
    } else {
        Err(3)
    }
}

fn check_ends(size: usize, status: &[u8], source: usize, destination: usize) -> Result<(), u32> {
    if source >= size || destination >= size {
        Err(4)
    } else if !working(status[source]) {
        Err(5)
    } else if !working(status[destination]) {
        Err(6)
    } else {
        Ok(())
    }
}

/// Whether the link of `node` along the dimension of this weight is sound: neither end marks it.
fn sound(links: &[u16], node: usize, weight: usize) -> bool {
    (links[node] | links[node ^ weight]) as usize & weight == 0
}

fn first_round(n: u32, status: &[u8], links: &[u16], vectors: &mut [u16]) {
    for node in 0..vectors.len() {
        let first = working(status[node]) && (0..n).all(|i| sound(links, node, 1 << i));
        vectors[node] = first as u16;
    }
}

/// Writes bit k, where `before` is the weight of bit k−1.
fn next_round(n: u32, k: u32, before: u16, status: &[u8], links: &[u16], vectors: &mut [u16]) {
    for node in 0..vectors.len() {
        if working(status[node]) {
            let mut sum = 0;
            for i in 0..n {
                let weight = 1 << i;
                if sound(links, node, weight) && vectors[node ^ weight] & before != 0 {
                    sum += 1;
                }
            }
            if sum > n - k {
                vectors[node] |= before << 1;
            }
        }
    }
}

fn all_rounds(n: u32, status: &[u8], links: &[u16], vectors: &mut [u16]) {
    first_round(n, status, links, vectors);
    for k in 2..=n {
        next_round(n, k, 1 << (k - 2), status, links, vectors);
    }
}

fn try_fill(n: u32, status: &[u8], links: &[u16], vectors: &mut [u16]) -> Result<(), u32> {
    size_of(n, status, links, vectors)?;
    check_links(n, links)?;
    all_rounds(n, status, links, vectors);
    Ok(())
}

pub fn fill(n: u32, status: &[u8], links: &[u16], vectors: &mut [u16]) -> u32 {
    try_fill(n, status, links, vectors).err().unwrap_or(0)
}

/// The dimensions of `among` whose neighbour has the registered bit k.
fn offered(links: &[u16], vectors: &[u16], node: usize, among: u32, k: u32) -> u32 {
    let mut mask = 0;
    let mut left = among;
    while left != 0 {
        let weight = 1 << left.trailing_zeros();
        left &= left - 1;
        let own = k == 0 || vectors[node ^ weight] >> (k - 1) & 1 == 1;
        if own && sound(links, node, weight) {
            mask |= weight as u32;
        }
    }
    mask
}

fn decide_at(n: u32, links: &[u16], vectors: &[u16], source: usize, destination: usize) -> Result<Answer, u32> {
    let relative = (source ^ destination) as u32;
    if relative == 0 {
        return Ok(Answer::accepted(0, 0, 0));
    }
    let h = relative.count_ones();
    let own = vectors[source] >> (h - 1) & 1 == 1;
    let preferred = offered(links, vectors, source, relative, h - 1);
    if preferred != 0 {
        let kind = if own { 1 } else { 2 };
        return Ok(Answer::accepted(kind, preferred, h));
    }
    if own {
        return Err(8);
    }
    let spare = offered(links, vectors, source, !relative & ((1 << n) - 1), h + 1);
    if spare == 0 {
        return Err(7);
    }
    Ok(Answer::accepted(3, spare, h + 2))
}

fn hop_at(links: &[u16], vectors: &[u16], node: usize, relative: u32) -> Result<u32, u32> {
    if relative == 0 {
        return Ok(0);
    }
    match offered(links, vectors, node, relative, relative.count_ones() - 1) {
        0 => Err(9),
        mask => Ok(mask),
    }
}

fn or_refused(answer: Result<Answer, u32>) -> Answer {
    answer.unwrap_or_else(Answer::refused)
}

pub fn decide(n: u32, status: &[u8], links: &[u16], vectors: &[u16], source: u16, destination: u16) -> Answer {
    or_refused(try_decide(n, status, links, vectors, source as usize, destination as usize))
}

fn try_decide(n: u32, status: &[u8], links: &[u16], vectors: &[u16], s: usize, d: usize) -> Result<Answer, u32> {
    let size = size_of(n, status, links, vectors)?;
    check_ends(size, status, s, d)?;
    decide_at(n, links, vectors, s, d)
}

pub fn hop(n: u32, status: &[u8], links: &[u16], vectors: &[u16], node: u16, relative: u16) -> Answer {
    or_refused(try_hop(n, status, links, vectors, node as usize, relative as usize))
}

fn try_hop(n: u32, status: &[u8], links: &[u16], vectors: &[u16], node: usize, relative: usize) -> Result<Answer, u32> {
    let size = size_of(n, status, links, vectors)?;
    check_ends(size, status, node, node ^ relative)?;
    let mask = hop_at(links, vectors, node, relative as u32)?;
    Ok(Answer::accepted((mask != 0) as u32, mask, 0))
}

/// The dimension of the given rank in a mask, counted from the lowest, from 0.
fn ranked(mut mask: u32, rank: u32) -> u32 {
    for _ in 0..rank {
        mask &= mask - 1;
    }
    mask.trailing_zeros()
}

/// Writes the walk over filled vectors into `path` and gives its number of hops.
fn walk(
    links: &[u16],
    vectors: &[u16],
    picks: &[u8],
    path: &mut [u16],
    ends: (usize, usize),
    mut offer: u32,
) -> usize {
    let (mut node, destination) = ends;
    let mut hops = 0;
    path[0] = node as u16;
    while offer != 0 {
        node ^= 1 << ranked(offer, picks[hops] as u32 % offer.count_ones());
        hops += 1;
        path[hops] = node as u16;
        offer = hop_at(links, vectors, node, (node ^ destination) as u32).expect("a board on the way has an offer");
    }
    hops
}

#[allow(clippy::too_many_arguments)]
pub fn journey(
    n: u32,
    status: &[u8],
    links: &[u16],
    vectors: &mut [u16],
    picks: &[u8],
    path: &mut [u16],
    source: u16,
    destination: u16,
) -> Answer {
    or_refused(try_journey(n, status, links, vectors, picks, path, (source as usize, destination as usize)))
}

fn try_journey(
    n: u32,
    status: &[u8],
    links: &[u16],
    vectors: &mut [u16],
    picks: &[u8],
    path: &mut [u16],
    ends: (usize, usize),
) -> Result<Answer, u32> {
    let size = size_of(n, status, links, vectors)?;
    if picks.len() < n as usize + 1 || path.len() < n as usize + 2 {
        return Err(2);
    }
    check_links(n, links)?;
    check_ends(size, status, ends.0, ends.1)?;
    all_rounds(n, status, links, vectors);
    let decision = decide_at(n, links, vectors, ends.0, ends.1)?;
    let hops = walk(links, vectors, picks, path, ends, decision.mask);
    Ok(Answer { hops: hops as u32, ..decision })
}

pub fn open(bytes: &[u8], status: &mut [u8], links: &mut [u16]) -> Opened {
    match try_open(bytes, status, links) {
        Ok(n) => Opened { refusal: 0, n },
        Err(refusal) => Opened::refused(refusal),
    }
}

fn try_open(bytes: &[u8], status: &mut [u8], links: &mut [u16]) -> Result<u32, u32> {
    let [l0, l1, k0, k1, n, body @ ..] = bytes else {
        return Err(10);
    };
    let length = u16::from_le_bytes([*l0, *l1]) as usize;
    if length != bytes.len() - 2 || u16::from_le_bytes([*k0, *k1]) != 1 {
        return Err(10);
    }
    let n = *n as u32;
    if !(1..=10).contains(&n) {
        return Err(1);
    }
    let size = 1 << n;
    if length != 3 + 3 * size {
        return Err(10);
    }
    if status.len() < size || links.len() < size {
        return Err(2);
    }
    let (statuses, words) = body.split_at(size);
    let word = |pair: &[u8]| u16::from_le_bytes([pair[0], pair[1]]);
    if words.chunks_exact(2).fold(0, |all, pair| all | word(pair)) >> n != 0 {
        return Err(3);
    }
    status[..size].copy_from_slice(statuses);
    for (link, pair) in links.iter_mut().zip(words.chunks_exact(2)) {
        *link = word(pair);
    }
    Ok(n)
}

pub fn refresh(n: u32, sweep: u16, log: &[u8], status: &mut [u8]) -> Refreshed {
    if let Err(refusal) = check_log(n, log, status) {
        return Refreshed::refused(refusal);
    }
    status.fill(0);
    Refreshed { refusal: 0, skipped: take_in(sweep, log, status) }
}

pub fn update(n: u32, sweep: u16, part: &[u8], status: &mut [u8]) -> Refreshed {
    if let Err(refusal) = check_log(n, part, status) {
        return Refreshed::refused(refusal);
    }
    Refreshed { refusal: 0, skipped: take_in(sweep, part, status) }
}

pub fn restate(bytes: &mut [u8], status: &[u8]) -> u32 {
    match bytes.get_mut(5..5 + status.len()) {
        Some(place) => place.copy_from_slice(status),
        None => return 2,
    }
    0
}

fn check_log(n: u32, log: &[u8], status: &[u8]) -> Result<(), u32> {
    if !(1..=10).contains(&n) {
        return Err(1);
    }
    if status.len() != 1 << n {
        return Err(2);
    }
    let records = log.chunks_exact(8);
    let cut = records.remainder();
    for record in records {
        if record[..4] != [6, 0, 2, 0] {
            return Err(11);
        }
        if u16::from_le_bytes([record[6], record[7]]) >> n != 0 {
            return Err(12);
        }
    }
    if cut.is_empty() {
        Ok(())
    } else {
        Err(11)
    }
}

/// Lets the records of a log that was checked speak for their nodes, and gives how many it skipped.
fn take_in(sweep: u16, log: &[u8], status: &mut [u8]) -> usize {
    let mut skipped = 0;
    for record in log.chunks_exact(8) {
        let age = sweep.wrapping_sub(u16::from_le_bytes([record[4], record[5]]));
        if age >= 32_768 {
            skipped += 1;
            continue;
        }
        let byte = age.min(252) as u8 + 1;
        let held = &mut status[u16::from_le_bytes([record[6], record[7]]) as usize];
        if *held == 0 || byte < *held {
            *held = byte;
        }
    }
    skipped
}
