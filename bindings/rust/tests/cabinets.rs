//! Document 01's cabinets and cases through the safe interface.

use deruvain::{byte, Class, Kind, Node, Refusal, Relative, Report, Step, Vectors};

fn f() -> Report {
    let mut report = Report::healthy(4).unwrap();
    for lost in [3, 4, 6, 9] {
        report.status[lost] = 254;
    }
    report
}

/// Cabinet L, its two bad links marked by these nodes.
fn l_marked_by(one: u16, other: u16) -> Report {
    let mut report = Report::healthy(4).unwrap();
    report.status[11] = 254;
    report.mark(Node(one), 1);
    report.mark(Node(other), 2);
    report
}

fn l() -> Report {
    l_marked_by(12, 0)
}

fn path(report: &Report, source: u16, destination: u16) -> Vec<u16> {
    let journey = report.journey(&[0; 5], Node(source), Node(destination)).unwrap();
    journey.path.iter().map(|node| node.0).collect()
}

fn decided(report: &Report, source: u16, destination: u16) -> Result<(Kind, u16, u32), Refusal> {
    let decision = report.decide(&report.fill()?, Node(source), Node(destination))?;
    Ok((decision.kind, decision.offer.mask(), decision.hops))
}

#[test]
fn cabinet_l_is_the_same_by_the_mark_of_either_end() {
    assert_eq!(l().fill().unwrap().0, [10, 15, 10, 13, 13, 15, 15, 15, 13, 13, 13, 0, 10, 10, 15, 13]);
    let other_ends = [l_marked_by(13, 0), l_marked_by(12, 2), l_marked_by(13, 2)];
    for same in other_ends {
        assert_ne!(same.links, l().links);
        assert_eq!(same.fill(), l().fill());
        for (s, d) in (0..256).map(|pair| (pair / 16, pair % 16)) {
            assert_eq!(decided(&same, s, d), decided(&l(), s, d));
            assert_eq!(same.journey(&[0; 5], Node(s), Node(d)), l().journey(&[0; 5], Node(s), Node(d)));
        }
    }
}

#[test]
fn a_mark_stands_in_the_word_of_its_node() {
    let mut report = Report::healthy(2).unwrap();
    report.mark(Node(3), 1);
    report.mark(Node(0), 2);
    report.mark(Node(0), 1);
    for (node, dimension) in [(4, 1), (1, 0), (1, 11)] {
        report.mark(Node(node), dimension);
    }
    assert_eq!(report.links, [3, 0, 0, 1]);
}

#[test]
fn vectors_of_f() {
    assert_eq!(f().fill().unwrap().0, [11, 5, 13, 0, 0, 11, 0, 13, 15, 0, 15, 13, 15, 15, 15, 15]);
}

#[test]
fn decisions() {
    assert_eq!(decided(&f(), 1, 12), Ok((Kind::Assured, 5, 3)));
    assert_eq!(decided(&f(), 0, 11), Ok((Kind::Lent, 8, 3)));
    assert_eq!(decided(&f(), 2, 7), Ok((Kind::Detour, 8, 4)));
    assert_eq!(decided(&f(), 15, 2), Ok((Kind::Assured, 1, 3)));
    assert_eq!(decided(&l(), 14, 9), Ok((Kind::Assured, 2, 3)));
    assert_eq!(decided(&f(), 0, 0), Ok((Kind::Home, 0, 0)));
    assert_eq!(decided(&f(), 1, 11), Err(Refusal::NoRoute));
    assert_eq!(decided(&f(), 3, 0), Err(Refusal::Source));
    assert_eq!(decided(&f(), 0, 3), Err(Refusal::Destination));
    assert_eq!(decided(&f(), 0, 16), Err(Refusal::Address));
}

#[test]
fn paths() {
    assert_eq!(path(&f(), 1, 12), [1, 0, 8, 12]);
    assert_eq!(path(&f(), 2, 7), [2, 10, 14, 15, 7]);
    assert_eq!(path(&f(), 0, 7), [0, 8, 10, 14, 15, 7]);
    assert_eq!(path(&f(), 15, 2), [15, 14, 10, 2]);
    assert_eq!(path(&l(), 14, 9), [14, 12, 8, 9]);
    assert_eq!(path(&l(), 12, 13), [12, 14, 15, 13]);
    assert_eq!(path(&f(), 5, 5), [5]);
}

#[test]
fn hops() {
    let (report, vectors) = (f(), f().fill().unwrap());
    assert_eq!(report.hop(&vectors, Node(12), Relative(0)), Ok(Step::Arrived));
    let Ok(Step::Offered(offer)) = report.hop(&vectors, Node(0), Relative(12)) else { panic!() };
    assert!(offer.dimensions().eq([4]));
    assert_eq!(report.hop(&vectors, Node(1), Relative(10)), Err(Refusal::NothingToOffer));
}

#[test]
fn gathered_vectors_may_be_wrong() {
    let report = Report::healthy(2).unwrap();
    let wrong = Vectors(vec![2, 0, 0, 0]);
    assert_eq!(report.decide(&wrong, Node(0), Node(3)), Err(Refusal::NotBorneOut));
    assert_eq!(report.decide(&Vectors(vec![]), Node(0), Node(3)), Err(Refusal::Length));
}

#[test]
fn unusable_reports_are_refused() {
    let odd = |n, boards, words| Report { n, status: vec![1; boards], links: vec![0; words] };
    assert_eq!(odd(0, 1, 1).fill(), Err(Refusal::Dimension));
    assert_eq!(odd(u32::MAX, 4, 4).fill(), Err(Refusal::Dimension));
    assert_eq!(odd(2, 4, 3).fill(), Err(Refusal::Length));
    assert_eq!(odd(11, 2048, 2048).journey(&[0; 12], Node(0), Node(1)), Err(Refusal::Dimension));
    assert_eq!(f().journey(&[0; 4], Node(1), Node(12)), Err(Refusal::Length));
}

#[test]
fn classes() {
    let named = [0, 1, 4, 5, 253, 254, 255].map(|byte| Class::of(byte).to_string());
    assert_eq!(named, ["silent", "working", "working", "late", "late", "down", "empty"]);
    assert_eq!((f().class(Node(3)), f().class(Node(16))), (Some(Class::Down), None));
}

/// A status log of these sweeps and nodes.
fn log(heard: &[(u16, u16)]) -> Vec<u8> {
    heard.iter().flat_map(|&(sweep, node)| [6, 2, sweep, node]).flat_map(u16::to_le_bytes).collect()
}

#[test]
fn sweeps_go_on_past_the_wrap() {
    let heard = log(&[(65_534, 0), (65_535, 1), (65_535, 2), (1, 2), (3, 3), (2, 4), (3, 4), (32_770, 5), (32_771, 6)]);
    let mut report = Report::healthy(3).unwrap();
    assert_eq!(report.refresh(2, &heard), Ok(3));
    assert_eq!(report.status, [5, 4, 2, 0, 1, 0, 253, 0]);
    let classes = [0, 1, 3, 6].map(|node| report.class(Node(node)).unwrap());
    assert_eq!(classes, [Class::Late, Class::Working, Class::Silent, Class::Late]);
    assert_eq!(report.refresh(65_535, &heard), Ok(4));
    assert_eq!(report.status, [2, 1, 1, 0, 0, 253, 253, 0]);
    assert_eq!(report.refresh(2, &[]), Ok(0));
    assert_eq!(report.status, [0; 8]);
}

#[test]
fn a_refused_log_leaves_the_report() {
    let mut report = f();
    let mut heard = log(&[(0, 0), (0, 16)]);
    assert_eq!(report.refresh(0, &heard), Err(Refusal::LogNode));
    heard.truncate(15);
    assert_eq!(report.refresh(0, &heard), Err(Refusal::LogRecord));
    assert_eq!(report, f());
    report.status.pop();
    assert_eq!(report.refresh(0, &[]), Err(Refusal::Length));
    report.n = 11;
    assert_eq!(report.refresh(0, &[]), Err(Refusal::Dimension));
    assert_eq!(report.status, f().status[..15]);
}

#[test]
fn a_log_in_parts_is_the_log() {
    let heard = log(&[(65_534, 0), (65_535, 1), (65_535, 2), (1, 2), (3, 3), (2, 4), (3, 4), (32_770, 5), (32_771, 6)]);
    let mut whole = Report::healthy(3).unwrap();
    let skipped = whole.refresh(2, &heard).unwrap();
    for records in 1..=9 {
        let mut report = Report::healthy(3).unwrap();
        report.status.fill(byte::SILENT);
        let counts = heard.chunks(8 * records).map(|part| report.update(2, part).unwrap());
        assert_eq!(counts.sum::<usize>(), skipped);
        assert_eq!(report, whole);
    }
}

#[test]
fn a_refused_part_leaves_what_earlier_parts_gave() {
    let mut report = Report::healthy(1).unwrap();
    report.status.fill(byte::SILENT);
    assert_eq!(report.update(5, &log(&[(4, 1), (6, 0)])), Ok(1));
    assert_eq!(report.update(5, &log(&[(5, 1), (5, 2)])), Err(Refusal::LogNode));
    assert_eq!(report.update(5, &log(&[(5, 1)])[..7]), Err(Refusal::LogRecord));
    assert_eq!(report.status, [byte::SILENT, 2]);
}

/// The record of a report.
fn record(report: &Report) -> Vec<u8> {
    let length = (3 + 3 * report.status.len()) as u16;
    let words = report.links.iter().flat_map(|word| word.to_le_bytes());
    let head = length.to_le_bytes().into_iter().chain([1, 0, report.n as u8]);
    head.chain(report.status.iter().copied()).chain(words).collect()
}

#[test]
fn a_restated_record_reads_back() {
    for n in 1..=10 {
        let mut report = Report::healthy(n).unwrap();
        report.mark(Node(1), 1);
        let mut bytes = record(&report);
        report.status = (0..1 << n).map(|a| a as u8).collect();
        report.restate(&mut bytes).unwrap();
        assert_eq!(Report::open(&bytes), Ok(report));
    }
}

#[test]
fn a_record_that_cannot_be_restated_is_left() {
    let whole = record(&l());
    let restated = |report: &Report, record: &[u8]| {
        let mut after = record.to_vec();
        let refusal = report.restate(&mut after).unwrap_err();
        assert_eq!(after, record);
        refusal
    };
    assert_eq!(restated(&f(), &whole[..40]), Refusal::Malformed);
    assert_eq!(restated(&f(), &[]), Refusal::Malformed);
    assert_eq!(restated(&Report::healthy(3).unwrap(), &whole), Refusal::Length);
    assert_eq!(restated(&Report { status: vec![1; 15], ..f() }, &whole), Refusal::Length);
    assert_eq!(restated(&Report { n: 3, ..f() }, &whole), Refusal::Length);
}

#[test]
fn what_people_print() {
    let journey = f().journey(&[0; 5], Node(1), Node(12)).unwrap();
    assert_eq!(journey.to_string(), "assured, 3 hops: 1 0 8 12");
    assert_eq!(journey.offer.to_string(), "1 3");
    assert_eq!(f().journey(&[0; 5], Node(0), Node(1)).unwrap().to_string(), "assured, 1 hop: 0 1");
    assert_eq!(f().journey(&[0; 5], Node(5), Node(5)).unwrap().to_string(), "home, 0 hops: 5");
    let refusal = f().journey(&[0; 5], Node(1), Node(11)).unwrap_err();
    assert_eq!(format!("{refusal:?}"), "refused by 7 (NoRoute): there is no route by the rules");
}

#[test]
fn numbers_there_and_back() {
    assert_eq!((u16::from(Node::from(7)), usize::from(Node(7)), u16::from(Relative::from(7))), (7, 7, 7));
    assert_eq!(Vec::from(Vectors::from(vec![1, 2])), [1, 2]);
    assert!((0..=255).all(|byte| Class::from(byte) == Class::of(byte)));
    for number in 0..20 {
        assert_eq!(Refusal::try_from(number).ok(), Refusal::of(number));
    }
}

#[test]
fn every_refusal_has_its_number() {
    let numbers: Vec<u32> = (0..20).filter_map(Refusal::of).map(Refusal::number).collect();
    assert!(numbers.into_iter().eq(1..=12));
}
