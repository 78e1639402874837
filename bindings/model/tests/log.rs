//! The status log, asked of the model and of plain Rust.

use deruvain_model::random::Random;
use deruvain_model::{Jobs, Model, Plain, Refreshed};

const BOTH: [(&str, &dyn Jobs); 2] = [("model", &Model), ("plain", &Plain)];

/// A log of these sweeps and nodes.
fn log(heard: &[(u16, u16)]) -> Vec<u8> {
    heard.iter().flat_map(|&(sweep, node)| [6, 2, sweep, node]).flat_map(u16::to_le_bytes).collect()
}

/// The status bytes and the number of skipped records of a log that is not refused.
fn taken(library: &dyn Jobs, n: u32, sweep: u16, log: &[u8]) -> (Vec<u8>, usize) {
    let mut status = vec![77; 1 << n];
    let Refreshed { refusal, skipped } = library.refresh(n, sweep, log, &mut status);
    assert_eq!(refusal, 0, "{n} {sweep} {log:?}");
    (status, skipped)
}

/// The refusal of a log, after which nothing is written and nothing counted.
fn refusal(library: &dyn Jobs, n: u32, log: &[u8], length: usize) -> u32 {
    let mut status = vec![77; length];
    let Refreshed { refusal, skipped } = library.refresh(n, 1, log, &mut status);
    assert_ne!(refusal, 0, "{n} {log:?}");
    assert_eq!((status, skipped), (vec![77; length], 0), "{n} {log:?}");
    refusal
}

#[test]
fn the_byte_of_each_age() {
    let ages = [
        (0, 1, 0),
        (3, 4, 0),
        (4, 5, 0),
        (251, 252, 0),
        (252, 253, 0),
        (253, 253, 0),
        (32_767, 253, 0),
        (32_768, 0, 1),
        (65_535, 0, 1),
    ];
    for (name, library) in BOTH {
        for sweep in [0, 1, 2, 252, 253, 32_767, 32_768, 65_535] {
            for (age, byte, skipped) in ages {
                let heard = log(&[(u16::wrapping_sub(sweep, age), 1)]);
                assert_eq!(taken(library, 1, sweep, &heard), (vec![0, byte], skipped), "{name} {sweep} {age}");
            }
        }
    }
}

#[test]
fn sweeps_around_the_wrap() {
    for (name, library) in BOTH {
        let heard = log(&[(65_534, 0), (65_535, 1), (0, 2), (2, 3)]);
        assert_eq!(taken(library, 2, 2, &heard), (vec![5, 4, 3, 1], 0), "{name}");
        assert_eq!(taken(library, 2, 1, &heard), (vec![4, 3, 2, 0], 1), "{name}");
        assert_eq!(taken(library, 2, 65_535, &heard), (vec![2, 1, 0, 0], 2), "{name}");
    }
}

#[test]
fn the_youngest_record_wins_in_either_order() {
    let pairs = [((9, 1), (7, 1)), ((9, 1), (65_535, 1)), ((9, 1), (11, 1)), ((9, 1), (9, 1))];
    for (name, library) in BOTH {
        for (one, other) in pairs {
            let skipped = (other == (11, 1)) as usize;
            assert_eq!(taken(library, 1, 10, &log(&[one, other])), (vec![0, 2], skipped), "{name} {other:?}");
            assert_eq!(taken(library, 1, 10, &log(&[other, one])), (vec![0, 2], skipped), "{name} {other:?}");
        }
        assert_eq!(taken(library, 1, 10, &log(&[(11, 1), (12, 1)])), (vec![0, 0], 2), "{name}");
    }
}

#[test]
fn an_empty_log_silences_all() {
    for (name, library) in BOTH {
        for n in 1..=10 {
            assert_eq!(taken(library, n, 5, &[]), (vec![0; 1 << n], 0), "{name}");
        }
    }
}

#[test]
fn the_last_node_and_the_one_after() {
    for (name, library) in BOTH {
        for n in 1..=10 {
            let last = (1 << n) - 1;
            let (status, _) = taken(library, n, 1, &log(&[(1, last)]));
            assert_eq!((status[last as usize], status[0]), (1, 0), "{name}");
            assert_eq!(refusal(library, n, &log(&[(1, last + 1)]), 1 << n), 12, "{name}");
        }
        assert_eq!(refusal(library, 1, &log(&[(1, 65_535)]), 2), 12, "{name}");
    }
}

#[test]
fn a_log_cut_at_each_byte() {
    let heard = log(&[(1, 0), (1, 1)]);
    for (name, library) in BOTH {
        for cut in 1..=7 {
            assert_eq!(refusal(library, 1, &heard[..cut], 2), 11, "{name} {cut}");
            assert_eq!(refusal(library, 1, &heard[..8 + cut], 2), 11, "{name} {cut}");
        }
        assert_eq!(taken(library, 1, 1, &heard[..8]), (vec![1, 0], 0), "{name}");
        assert_eq!(taken(library, 1, 1, &heard), (vec![1, 1], 0), "{name}");
    }
}

#[test]
fn other_lengths_and_kinds() {
    for (name, library) in BOTH {
        for (at, byte) in [(0, 5), (0, 7), (0, 0), (1, 1), (1, 128), (2, 1), (2, 3), (2, 0), (3, 1), (3, 128)] {
            let mut heard = log(&[(1, 0), (1, 1)]);
            heard[8 + at] = byte;
            assert_eq!(refusal(library, 1, &heard, 2), 11, "{name} {at} {byte}");
        }
    }
}

#[test]
fn refusals_in_their_order() {
    let other_kind = [6, 0, 1, 0, 1, 0, 0, 0];
    let other_kind_outside = [6, 0, 1, 0, 1, 0, 2, 0];
    let outside = [6, 0, 2, 0, 1, 0, 2, 0];
    let from_the_future = [6, 0, 2, 0, 2, 0, 0, 0];
    let future_outside = [6, 0, 2, 0, 2, 0, 2, 0];
    for (name, library) in BOTH {
        assert_eq!(refusal(library, 1, &other_kind_outside, 2), 11, "{name}");
        assert_eq!(refusal(library, 1, &[outside, other_kind].concat(), 2), 12, "{name}");
        assert_eq!(refusal(library, 1, &[other_kind, outside].concat(), 2), 11, "{name}");
        assert_eq!(refusal(library, 1, &[&outside[..], &other_kind[..3]].concat(), 2), 12, "{name}");
        assert_eq!(refusal(library, 1, &[from_the_future, outside].concat(), 2), 12, "{name}");
        assert_eq!(refusal(library, 1, &future_outside, 2), 12, "{name}");
        assert_eq!(refusal(library, 1, &other_kind, 3), 2, "{name}");
        assert_eq!(refusal(library, 0, &other_kind, 3), 1, "{name}");
    }
}

#[test]
fn dimensions_and_lengths() {
    for (name, library) in BOTH {
        for (n, length) in [(0, 1), (11, 2048), (33, 2), (u32::MAX, 0)] {
            assert_eq!(refusal(library, n, &[], length), 1, "{name} {n}");
        }
        for length in [0, 1, 3, 5, 8, 65_540] {
            assert_eq!(refusal(library, 2, &[], length), 2, "{name} {length}");
        }
    }
}

/// A log with good records alone, most of them of a few ages.
fn good_log(random: &mut Random, size: usize) -> Vec<[u8; 8]> {
    let records = random.below(3 * size);
    let record = |random: &mut Random| {
        let sweep = if random.once_in(4) { random.word() } else { u16::wrapping_sub(305, random.below(320) as u16) };
        log(&[(sweep, random.below(size) as u16)]).try_into().unwrap()
    };
    (0..records).map(|_| record(random)).collect()
}

#[test]
fn plain_rust_answers_as_the_model_does() {
    let mut random = Random::new(1);
    for round in 0..400 {
        let n = 1 + round % 6;
        let mut records = good_log(&mut random, 1 << n);
        let expected = taken(&Model, n, 300, &records.concat());
        assert_eq!(taken(&Plain, n, 300, &records.concat()), expected);
        for _ in 0..3 * records.len() {
            let (a, b) = (random.below(records.len()), random.below(records.len()));
            records.swap(a, b);
        }
        assert_eq!(taken(&Model, n, 300, &records.concat()), expected, "in another order");
        assert_eq!(taken(&Plain, n, 300, &records.concat()), expected, "in another order");
    }
}

#[test]
fn a_log_in_parts_is_the_log() {
    let mut random = Random::new(2);
    for round in 0..400 {
        let n = 1 + round % 6;
        let records = good_log(&mut random, 1 << n);
        let expected = taken(&Model, n, 300, &records.concat());
        let cut = random.below(records.len() + 1);
        for (name, library) in BOTH {
            let (mut status, mut skipped) = (vec![0; 1 << n], 0);
            for part in [&records[..cut], &records[cut..], &[]] {
                let updated = library.update(n, 300, &part.concat(), &mut status);
                assert_eq!(updated.refusal, 0, "{name}");
                skipped += updated.skipped;
            }
            assert_eq!((status, skipped), expected, "{name}");
        }
    }
}

#[test]
fn of_two_parts_the_younger_wins_and_silence_never() {
    for (name, library) in BOTH {
        for (held, sweep, byte) in
            [(0, 9, 2), (7, 9, 2), (1, 9, 1), (254, 9, 2), (7, 11, 7), (0, 11, 0), (255, 11, 255)]
        {
            let mut status = [held, 77];
            library.update(1, 10, &log(&[(sweep, 0)]), &mut status);
            assert_eq!(status, [byte, 77], "{name} {held} {sweep}");
        }
    }
}

#[test]
fn a_refused_part_leaves_the_status_bytes() {
    let parts: [(u32, Vec<u8>, u32); 4] =
        [(1, log(&[(1, 0), (1, 2)]), 12), (1, log(&[(1, 0)])[..7].to_vec(), 11), (2, vec![], 2), (11, vec![], 1)];
    for (name, library) in BOTH {
        for (n, part, refusal) in &parts {
            let mut status = [9, 77];
            let updated = library.update(*n, 1, part, &mut status);
            assert_eq!((updated, status), (Refreshed { refusal: *refusal, skipped: 0 }, [9, 77]), "{name} {part:?}");
        }
    }
}
