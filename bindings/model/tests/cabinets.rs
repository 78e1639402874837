//! The cabinets and cases of document 01, and Ask 2's two boards, asked of the model and of plain Rust.

use deruvain_model::model::{class_name, listing, ASSURED, DETOUR, HOME, LENT};
use deruvain_model::{Answer, Jobs, Model, Opened, Plain};

const BOTH: [(&str, &dyn Jobs); 2] = [("model", &Model), ("plain", &Plain)];

struct Cabinet {
    n: u32,
    status: Vec<u8>,
    links: Vec<u16>,
}

fn cabinet(n: u32, down: &[usize], words: &[(usize, u16)]) -> Cabinet {
    let size = 1 << n;
    let mut c = Cabinet { n, status: vec![1; size], links: vec![0; size] };
    for &a in down {
        c.status[a] = 254;
    }
    for &(a, word) in words {
        c.links[a] = word;
    }
    c
}

fn f() -> Cabinet {
    cabinet(4, &[3, 4, 6, 9], &[])
}

fn l() -> Cabinet {
    cabinet(4, &[11], &[(12, 1), (0, 2)])
}

impl Cabinet {
    fn vectors(&self, library: &dyn Jobs) -> Vec<u16> {
        let mut vectors = vec![0xffff; 1 << self.n];
        assert_eq!(library.fill(self.n, &self.status, &self.links, &mut vectors), 0);
        vectors
    }

    fn decide(&self, library: &dyn Jobs, s: u16, d: u16) -> Answer {
        library.decide(self.n, &self.status, &self.links, &self.vectors(library), s, d)
    }

    /// The answer and the path, picks all 0.
    fn journey(&self, library: &dyn Jobs, s: u16, d: u16) -> (Answer, Vec<u16>) {
        let mut vectors = vec![0xffff; 1 << self.n];
        let mut path = vec![0xffff; self.n as usize + 2];
        let picks = vec![0; self.n as usize + 1];
        let answer = library.journey(self.n, &self.status, &self.links, &mut vectors, &picks, &mut path, s, d);
        let written = if answer.refusal == 0 { answer.hops as usize + 1 } else { 0 };
        assert!(path[written..].iter().all(|&word| word == 0xffff));
        let filled = [0, 7].contains(&answer.refusal);
        assert_eq!(vectors, if filled { self.vectors(library) } else { vec![0xffff; 1 << self.n] });
        (answer, path[..written].to_vec())
    }
}

#[test]
fn case_a_vectors_of_f() {
    for (name, library) in BOTH {
        let words = [11, 5, 13, 0, 0, 11, 0, 13, 15, 0, 15, 13, 15, 15, 15, 15];
        assert_eq!(f().vectors(library), words, "{name}");
    }
}

#[test]
fn cases_b_to_k_journeys() {
    let cases = [
        ("B", f(), 1, 12, ASSURED, Some(5), 3, Some(vec![1, 0, 8, 12])),
        ("C", f(), 0, 11, LENT, Some(8), 3, None),
        ("D", f(), 2, 7, DETOUR, Some(8), 4, Some(vec![2, 10, 14, 15, 7])),
        ("E", f(), 0, 7, DETOUR, None, 5, Some(vec![0, 8, 10, 14, 15, 7])),
        ("H", f(), 0, 0, HOME, Some(0), 0, Some(vec![0])),
        ("I", f(), 15, 2, ASSURED, Some(1), 3, Some(vec![15, 14, 10, 2])),
        ("J", l(), 14, 9, ASSURED, Some(2), 3, Some(vec![14, 12, 8, 9])),
        ("K", l(), 12, 13, DETOUR, None, 3, Some(vec![12, 14, 15, 13])),
    ];
    for (name, library) in BOTH {
        for (case, cabinet, s, d, kind, mask, hops, path) in &cases {
            let (answer, walked) = cabinet.journey(library, *s, *d);
            let expected = Answer::accepted(*kind, mask.unwrap_or(answer.mask), *hops);
            assert_eq!(answer, expected, "{name} {case}");
            assert_eq!(cabinet.decide(library, *s, *d), expected, "{name} {case}");
            assert_eq!(&walked, path.as_ref().unwrap_or(&walked), "{name} {case}");
        }
    }
}

/// Decide and Journey answer the same, and the path is this.
fn answers(cabinet: &Cabinet, s: u16, d: u16, answer: Answer, path: &[u16]) {
    for (name, library) in BOTH {
        assert_eq!(cabinet.decide(library, s, d), answer, "{name}, {s} to {d}");
        assert_eq!(cabinet.journey(library, s, d), (answer, path.to_vec()), "{name}, {s} to {d}");
    }
}

#[test]
fn cases_g_and_h_refusals() {
    for (s, d, refusal) in [(1, 11, 7), (3, 0, 5), (0, 3, 6)] {
        answers(&f(), s, d, Answer::refused(refusal), &[]);
    }
}

#[test]
fn case_m_and_ask_2_one_end_is_enough() {
    let lower_end_only = cabinet(1, &[], &[(0, 1)]);
    let upper_end_only = cabinet(1, &[], &[(1, 1)]);
    let both_ends = cabinet(1, &[], &[(0, 1), (1, 1)]);
    for (s, d) in [(0, 1), (1, 0)] {
        for marked in [&lower_end_only, &upper_end_only, &both_ends] {
            answers(marked, s, d, Answer::refused(7), &[]);
        }
        answers(&cabinet(1, &[], &[]), s, d, Answer::accepted(ASSURED, 1, 1), &[s, d]);
    }
}

#[test]
fn the_word_of_a_board_that_is_down_counts() {
    for (name, library) in BOTH {
        let vectors = cabinet(2, &[3], &[(3, 2)]).vectors(library);
        assert_eq!(vectors, [3, 2, 3, 0], "{name}");
    }
}

#[test]
fn case_n_classes() {
    for (name, library) in BOTH {
        let named = [0, 1, 4, 5, 253, 254, 255].map(|byte| class_name(library.class(byte)));
        assert_eq!(named, ["silent", "working", "working", "late", "late", "down", "empty"], "{name}");
    }
}

#[test]
fn the_five_cube() {
    let five = cabinet(5, &[13, 14, 17, 20, 21, 24, 25], &[]);
    for (name, library) in BOTH {
        assert_eq!(five.vectors(library)[0], 23, "{name}");
    }
}

#[test]
fn vectors_of_l_around_the_bad_links() {
    for (name, library) in BOTH {
        let words = l().vectors(library);
        let firsts: Vec<usize> = (0..16).filter(|&a| words[a] & 1 == 0).collect();
        assert_eq!(firsts, [0, 2, 11, 12, 13], "{name}");
        assert_eq!(words[14], 15, "{name}");
        assert_eq!(words[10] & 2, 0, "{name}");
    }
}

#[test]
fn a_hop_at_a_later_node() {
    for (name, library) in BOTH {
        let (c, v) = (f(), f().vectors(library));
        let hop = |node, relative| library.hop(c.n, &c.status, &c.links, &v, node, relative);
        assert_eq!(hop(0, 12), Answer::accepted(1, 8, 0), "{name}");
        assert_eq!(hop(8, 4), Answer::accepted(1, 4, 0), "{name}");
        assert_eq!(hop(12, 0), Answer::accepted(0, 0, 0), "{name}");
        assert_eq!(hop(12, 16), Answer::refused(4), "{name}");
        assert_eq!(hop(3, 0), Answer::refused(5), "{name}");
        assert_eq!(hop(2, 1), Answer::refused(6), "{name}");
        assert_eq!(hop(1, 10), Answer::refused(9), "{name}");
    }
}

#[test]
fn wrong_vectors_are_answered_by_the_rules() {
    for (name, library) in BOTH {
        let c = cabinet(2, &[], &[]);
        let decide = |vectors: &[u16]| library.decide(2, &c.status, &c.links, vectors, 0, 3);
        assert_eq!(decide(&[2, 0, 0, 0]), Answer::refused(8), "{name}");
        assert_eq!(decide(&[0, 0, 0, 0]), Answer::refused(7), "{name}");
        assert_eq!(decide(&[0, 0, 1, 0]), Answer::accepted(LENT, 2, 2), "{name}");
        assert_eq!(decide(&[0xfffe, 0xfffc, 1, 0xffff]), Answer::accepted(ASSURED, 2, 2), "{name}");
    }
}

const RECORD: [u8; 17] = [0x0f, 0, 1, 0, 2, 1, 1, 0, 1, 0, 0, 0, 0, 0, 0, 0, 0];

#[test]
fn the_record_of_the_listing() {
    for (name, library) in BOTH {
        let (mut status, mut links) = ([9; 6], [7; 5]);
        assert_eq!(library.open(&RECORD, &mut status, &mut links), Opened { refusal: 0, n: 2 }, "{name}");
        assert_eq!((status, links), ([1, 1, 0, 1, 9, 9], [0, 0, 0, 0, 7]), "{name}");
    }
    assert_eq!(listing(&RECORD), "cube 2\n0 working 11\n1 working 11\n2 silent 00\n3 working 11\n");
    assert_eq!(listing(&RECORD[..16]), "refused 10\n");
    assert_eq!(listing(&[0; 5000]), "refused 10\n");
}

#[test]
fn refusals_of_open_in_their_order() {
    let with = |at: usize, byte: u8| {
        let mut record = RECORD.to_vec();
        record[at] = byte;
        record
    };
    let cases = [
        (RECORD[..4].to_vec(), 4, 10),
        (with(0, 14), 4, 10),
        (with(2, 2), 4, 10),
        (with(3, 1), 4, 10),
        (with(4, 0), 0, 1),
        (with(4, 11), 0, 1),
        (with(4, 3), 0, 10),
        (with(9, 4), 3, 2),
        (with(9, 4), 4, 3),
        (with(16, 1), 4, 3),
        (with(9, 3), 4, 0),
    ];
    for (name, library) in BOTH {
        for (record, lent, refusal) in &cases {
            let (mut status, mut links) = (vec![9; *lent], vec![7; 4]);
            let opened = library.open(record, &mut status, &mut links);
            assert_eq!(opened.refusal, *refusal, "{name} {record:?}");
            assert_eq!(links == [7; 4], *refusal != 0, "{name} {record:?}");
        }
    }
}

#[test]
fn a_restated_record_reads_back() {
    for (name, library) in BOTH {
        let (mut record, mut status, mut links) = (RECORD, [9; 4], [7; 4]);
        record[9] = 3;
        assert_eq!(library.restate(&mut record, &[254, 0, 1, 255]), 0, "{name}");
        assert_eq!(library.open(&record, &mut status, &mut links), Opened { refusal: 0, n: 2 }, "{name}");
        assert_eq!((status, links), ([254, 0, 1, 255], [3, 0, 0, 0]), "{name}");
    }
}

#[test]
fn status_bytes_that_do_not_fit_are_refused() {
    for (name, library) in BOTH {
        for (room, boards, refusal) in [(0, 0, 2), (4, 0, 2), (5, 0, 0), (5, 1, 2), (8, 4, 2), (9, 4, 0), (10, 4, 0)] {
            let mut bytes = vec![7; room];
            assert_eq!(library.restate(&mut bytes, &vec![9; boards]), refusal, "{name} {room} {boards}");
            let written = if refusal == 0 { boards } else { 0 };
            let expected: Vec<u8> = (0..room).map(|at| if at >= 5 && at < 5 + written { 9 } else { 7 }).collect();
            assert_eq!(bytes, expected, "{name} {room} {boards}");
        }
    }
}

#[test]
fn refusals_by_length() {
    for (name, library) in BOTH {
        let fill = |n, lengths: [usize; 3]| {
            library.fill(n, &vec![1; lengths[0]], &vec![0; lengths[1]], &mut vec![0; lengths[2]])
        };
        assert_eq!(fill(0, [1, 1, 1]), 1, "{name}");
        assert_eq!(fill(11, [2048; 3]), 1, "{name}");
        assert_eq!(fill(u32::MAX, [0; 3]), 1, "{name}");
        assert_eq!(fill(10, [1024; 3]), 0, "{name}");
        assert_eq!(fill(2, [3, 4, 4]), 2, "{name}");
        assert_eq!(fill(2, [4, 5, 4]), 2, "{name}");
        assert_eq!(fill(2, [4, 4, 0]), 2, "{name}");
        let journey = |picks: usize, path: usize| {
            library.journey(2, &[1; 4], &[0; 4], &mut [0; 4], &vec![0; picks], &mut vec![0; path], 0, 3).refusal
        };
        assert_eq!((journey(2, 4), journey(3, 3), journey(3, 4), journey(9, 9)), (2, 2, 0, 0), "{name}");
    }
}
