//! What the model prints for a record, and what the program `listing` prints for it.
//!
//! The program must be built: `rt run` in crates/listing, or `rt ci`.

use deruvain_model::model::listing;
use deruvain_model::random::Random;
use std::fs;
use std::io::Write;
use std::path::PathBuf;
use std::process::{Command, Stdio};

fn root() -> PathBuf {
    PathBuf::from(env!("CARGO_MANIFEST_DIR")).join("../..")
}

/// What the program prints on standard output.
fn printed(record: &[u8]) -> String {
    let program = root().join("crates/listing/out/listing");
    let (input, output) = (Stdio::piped(), Stdio::piped());
    let started = Command::new(&program).stdin(input).stdout(output).stderr(Stdio::null()).spawn();
    let mut child = started.unwrap_or_else(|why| panic!("{}: {why}; run `rt run` in crates/listing first", program.display()));
    // a program that has read enough may close its end
    let _ = child.stdin.take().unwrap().write_all(record);
    String::from_utf8(child.wait_with_output().unwrap().stdout).unwrap()
}

fn agree(record: &[u8]) {
    let (model, program) = (listing(record), printed(record));
    assert!(model == program, "for {record:?} the model prints\n{model}and the program\n{program}");
}

/// A record of dimension n with boards of every class, and some marked links.
fn record(n: u32, random: &mut Random) -> Vec<u8> {
    let size = 1usize << n;
    let mut record = Vec::from((3 + 3 * size as u16).to_le_bytes());
    record.extend([1, 0, n as u8]);
    for _ in 0..size {
        let any = random.byte();
        let lost = random.of(&[0, 5, 253, 254, 255, any]);
        record.push(if random.once_in(6) { lost } else { 1 + random.below(4) as u8 });
    }
    for _ in 0..size {
        let mark = 1u16 << random.below(n as usize);
        record.extend((if random.once_in(12) { mark } else { 0 }).to_le_bytes());
    }
    record
}

/// The same bytes with one damage.
fn damaged(mut record: Vec<u8>, random: &mut Random) -> Vec<u8> {
    let length = record.len();
    match random.below(4) {
        0 => record.truncate(random.below(length)),
        1 => record.resize(length + 1 + random.below(2000), 0),
        2 => record[random.below(5)] ^= 1 << random.below(8),
        _ => record[random.below(length)] = random.byte(),
    }
    record
}

#[test]
fn the_samples() {
    let mut seen = 0;
    for entry in fs::read_dir(root().join("samples")).unwrap() {
        let path = entry.unwrap().path();
        if path.extension().is_some_and(|end| end == "record") {
            agree(&fs::read(path).unwrap());
            seen += 1;
        }
    }
    assert!(seen > 4);
}

#[test]
fn records_of_every_dimension() {
    let mut random = Random::new(18);
    for n in 1..=10 {
        for _ in 0..8 {
            agree(&record(n, &mut random));
        }
    }
}

#[test]
fn damaged_records() {
    let mut random = Random::new(81);
    for n in (1..=10).cycle().take(200) {
        let whole = record(n, &mut random);
        agree(&damaged(whole, &mut random));
    }
}
