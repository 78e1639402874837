//! Random status logs, whole and damaged.

use deruvain_model::random::Random;

/// Ages at the edges of what a record can say.
const AGES: [u16; 16] = [0, 1, 2, 3, 4, 5, 250, 251, 252, 253, 254, 255, 256, 32_767, 32_768, 65_535];

/// The record of a node heard in a sweep.
pub fn record(sweep: u16, node: u16) -> [u8; 8] {
    let mut bytes = [6, 0, 2, 0, 0, 0, 0, 0];
    put_sweep(&mut bytes, sweep);
    put_node(&mut bytes, node);
    bytes
}

/// A log for a cube of so many nodes, mostly whole.
pub fn log(random: &mut Random, size: usize, sweep: u16) -> Vec<u8> {
    let mut bytes = good_log(random, size, sweep);
    damage(random, size, &mut bytes);
    bytes
}

/// Records of all nodes or of a few, in no order.
fn good_log(random: &mut Random, size: usize, sweep: u16) -> Vec<u8> {
    let nodes = match random.below(3) {
        0 => 1 + random.below(size.min(4)),
        _ => size,
    };
    let from = random.below(size - nodes + 1);
    let heard = |random: &mut Random| record(sweep.wrapping_sub(age(random)), (from + random.below(nodes)) as u16);
    (0..records(random, nodes)).flat_map(|_| heard(random)).collect()
}

/// How many records: none, a few, or several for each node.
fn records(random: &mut Random, nodes: usize) -> usize {
    match random.below(12) {
        0 => 0,
        1 | 2 => 1,
        3..=5 => 1 + random.below(6),
        6..=8 => 1 + random.below(nodes),
        9 if random.once_in(20) => 8192 + random.below(4),
        _ => 1 + random.below(4 * nodes),
    }
}

fn age(random: &mut Random) -> u16 {
    match random.below(8) {
        0 => random.word(),
        1 | 2 => random.below(300) as u16,
        3 => random.below(6) as u16,
        _ => random.of(&AGES),
    }
}

fn damage(random: &mut Random, size: usize, bytes: &mut Vec<u8>) {
    match random.below(28) {
        0 => bytes.truncate(bytes.len().saturating_sub(1 + random.below(7))),
        1 => bytes.truncate(random.below(bytes.len() + 1)),
        2 => bytes.push(6),
        3 => bytes.extend((0..1 + random.below(8)).map(|_| random.byte())),
        4..=7 => (0..1 + random.below(2)).for_each(|_| damage_record(random, size, bytes)),
        8 => *bytes = (0..random.below(40)).map(|_| random.byte()).collect(),
        _ => {}
    }
}

/// Makes one of the records wrong in one place or in two, if there is a record.
fn damage_record(random: &mut Random, size: usize, bytes: &mut [u8]) {
    if bytes.len() < 8 {
        return;
    }
    let at = 8 * random.below(bytes.len() / 8);
    let wrong = &mut bytes[at..at + 8];
    match random.below(8) {
        0 => wrong[random.below(8)] = random.byte(),
        1 => wrong[0] = random.of(&[0, 5, 7, 8, 255]),
        2 => wrong[2] = random.of(&[0, 1, 3, 255]),
        3 => wrong[random.of(&[1, 3])] = random.of(&[1, 128, 255]),
        4 => {
            wrong[random.of(&[0, 2])] ^= 1 << random.below(8);
            put_node(wrong, outside(random, size));
        }
        _ => put_node(wrong, outside(random, size)),
    }
}

/// A node that the cube does not have. Some would pass if they were cut to fewer bits.
fn outside(random: &mut Random, size: usize) -> u16 {
    random.of(&[size as u16, size as u16 + 1, 2 * size as u16, 1 << 12, 1 << 15, 65_535])
}

/// The node of a record.
pub fn node(record: &[u8]) -> u16 {
    u16::from_le_bytes([record[6], record[7]])
}

pub fn put_node(record: &mut [u8], node: u16) {
    record[6..8].copy_from_slice(&node.to_le_bytes());
}

/// The sweep of a record.
pub fn sweep(record: &[u8]) -> u16 {
    u16::from_le_bytes([record[4], record[5]])
}

pub fn put_sweep(record: &mut [u8], sweep: u16) {
    record[4..6].copy_from_slice(&sweep.to_le_bytes());
}
