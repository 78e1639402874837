//! Plain Rust answers as the model does: on every cabinet of up to four boards, and on chosen larger ones.

use deruvain_model::random::Random;
use deruvain_model::{Jobs, Model, Plain};

/// All vectors, decisions, hops and journeys of one report, on both.
fn agree_everywhere(n: u32, status: &[u8], links: &[u16], pairs: impl Iterator<Item = (u16, u16)>, pick: u8) {
    let size = status.len();
    let (mut ours, mut theirs) = (vec![0xffff; size], vec![0xffff; size]);
    assert_eq!(Plain.fill(n, status, links, &mut ours), Model.fill(n, status, links, &mut theirs));
    assert_eq!(ours, theirs, "{n} {status:?} {links:?}");
    for (a, b) in pairs {
        assert_eq!(Plain.decide(n, status, links, &ours, a, b), Model.decide(n, status, links, &ours, a, b));
        assert_eq!(Plain.hop(n, status, links, &ours, a, b), Model.hop(n, status, links, &ours, a, b));
        let journey = |library: &dyn Jobs| {
            let (mut vectors, mut path) = (vec![7; size], [9; 12]);
            let answer = library.journey(n, status, links, &mut vectors, &[pick; 11], &mut path, a, b);
            (answer, vectors, path)
        };
        assert_eq!(journey(&Plain), journey(&Model), "{n} {status:?} {links:?} {a} {b}");
    }
}

#[test]
fn on_every_cabinet_of_one_or_two_dimensions() {
    for n in 1..=2u32 {
        let size = 1usize << n;
        for health in 0..1u32 << size {
            for marks in 0..1u32 << (n as usize * size) {
                let status: Vec<u8> = (0..size).map(|a| if health >> a & 1 == 1 { 4 } else { 5 }).collect();
                let links: Vec<u16> = (0..size).map(|a| (marks >> (a * n as usize)) as u16 & ((1 << n) - 1)).collect();
                let pairs = (0..size * size).map(|p| ((p / size) as u16, (p % size) as u16));
                agree_everywhere(n, &status, &links, pairs, (marks % 3) as u8);
            }
        }
    }
}

#[test]
fn on_chosen_cabinets_of_three_to_ten_dimensions() {
    let mut random = Random::new(1);
    for n in 3..=10u32 {
        let size = 1usize << n;
        for round in 0..40 {
            let lost = 2 + random.below(12);
            let status: Vec<u8> = (0..size).map(|_| if random.once_in(lost) { random.byte() } else { 1 }).collect();
            let marked = size / (1 + round % 4) + 1;
            let links: Vec<u16> =
                (0..size).map(|_| if random.once_in(marked) { 1 << random.below(n as usize) } else { 0 }).collect();
            let pairs: Vec<(u16, u16)> =
                (0..8).map(|_| (random.below(size) as u16, random.below(size) as u16)).collect();
            agree_everywhere(n, &status, &links, pairs.into_iter(), random.byte());
        }
    }
}

#[test]
fn every_byte_has_the_same_class() {
    for byte in 0..=255 {
        assert_eq!(Plain.class(byte), Model.class(byte));
    }
}
