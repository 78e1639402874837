//! Inputs, answers and differences as text.

use crate::input::{Input, Job, Memory, Output};
use crate::logs;
use deruvain_model::model::class_name;
use deruvain_model::Answer;
use std::fmt::{Display, Write};

pub const KINDS: [&str; 4] = ["home", "assured", "lent", "detour"];
pub const STEPS: [&str; 2] = ["arrived", "offered"];

/// One call in full: what went in, what either side gave, and where memory differs.
pub fn difference(input: &Input, library: &Output, model: &Output) -> String {
    let mut text = call(input);
    let _ = writeln!(text, "  the model:   {}", answer(input.job, &model.answer));
    let _ = writeln!(text, "  the library: {}", answer(input.job, &library.answer));
    memory(&mut text, input.job, &library.memory, &model.memory);
    if !library.margins_kept {
        text += "  the library wrote outside the slices\n";
    }
    text
}

fn call(input: &Input) -> String {
    let memory = &input.memory;
    let mut text = input.job.name().to_string();
    match input.job {
        Job::Class => text += &format!(" of the byte {}\n", input.first),
        Job::Open | Job::Restate => text += "\n",
        Job::Refresh | Job::Update => text += &format!(", n = {}, sweep {}\n", input.n, input.first),
        _ => text += &format!(", n = {}\n", input.n),
    }
    if input.job.has_record() {
        let _ = writeln!(text, "  record: {} bytes: {}", memory.bytes.len(), hex(&memory.bytes));
    }
    if input.job.has_log() {
        let _ = writeln!(text, "  log: {} bytes: {}", memory.bytes.len(), log(&memory.bytes));
    }
    if input.job != Job::Class {
        slice(&mut text, "status", &memory.status, 1);
    }
    if !matches!(input.job, Job::Class | Job::Refresh | Job::Update | Job::Restate) {
        slice(&mut text, "links", &memory.links, 0);
    }
    if matches!(input.job, Job::Fill | Job::Decide | Job::Hop | Job::Journey) {
        slice(&mut text, "vectors", &memory.vectors, 0);
    }
    if input.job == Job::Journey {
        slice(&mut text, "picks", &memory.picks, 0);
        slice(&mut text, "path", &memory.path, 0);
    }
    match input.job {
        Job::Hop => text += &format!("  node {}, relative address {}\n", input.first, input.second),
        Job::Decide | Job::Journey => text += &format!("  source {}, destination {}\n", input.first, input.second),
        _ => {}
    }
    text
}

/// The bytes, with the zeros at the end only counted.
fn hex(bytes: &[u8]) -> String {
    let said = bytes.iter().rposition(|&byte| byte != 0).map_or(0, |last| last + 1);
    let mut words: Vec<String> = bytes[..said].iter().map(|byte| format!("{byte:02x}")).collect();
    if said < bytes.len() {
        words.push(format!("and {} times 00", bytes.len() - said));
    }
    words.join(" ")
}

/// A status log by the sweeps and nodes of its records, and in bytes from the first wrong one on.
fn log(bytes: &[u8]) -> String {
    let mut words = Vec::new();
    let mut left = bytes;
    while let [6, 0, 2, 0, _, _, _, _, after @ ..] = left {
        words.push(format!("sweep {} node {}", logs::sweep(left), logs::node(left)));
        left = after;
    }
    if !left.is_empty() {
        words.push(hex(left));
    }
    words.join(", ")
}

/// A slice by its length, its plain value and the places that have another.
fn slice<T: Copy + PartialEq + Display>(text: &mut String, name: &str, values: &[T], plain: T) {
    let _ = write!(text, "  {name}: {} long, all {plain}", values.len());
    let mut word = " save";
    for (at, value) in values.iter().enumerate().filter(|(_, value)| **value != plain) {
        let _ = write!(text, "{word} {at}: {value}");
        word = ",";
    }
    text.push('\n');
}

fn answer(job: Job, answer: &Answer) -> String {
    let Answer { refusal, kind, mask, hops } = *answer;
    let named = |names: &[&'static str]| names.get(kind as usize).copied().unwrap_or("no such kind");
    let skipped = (mask as u64) << 32 | kind as u64;
    match job {
        Job::Class if kind < 5 => class_name(kind).to_string(),
        Job::Class => format!("no such class: {kind}"),
        Job::Fill | Job::Restate if refusal == 0 => "done".to_string(),
        Job::Fill | Job::Restate => format!("refused by {refusal}"),
        _ if *answer == Answer::refused(refusal) && refusal != 0 => format!("refused by {refusal}"),
        Job::Refresh | Job::Update if refusal != 0 => format!("refused by {refusal}, with {skipped} skipped"),
        _ if refusal != 0 => format!("refused by {refusal}, with kind {kind}, mask {mask}, hops {hops}"),
        Job::Open => format!("n = {kind}"),
        Job::Refresh | Job::Update => format!("{skipped} skipped"),
        Job::Hop => format!("{}, mask {mask}, hops {hops}", named(&STEPS)),
        Job::Decide | Job::Journey => format!("{}, mask {mask}, hops {hops}", named(&KINDS)),
    }
}

fn memory(text: &mut String, job: Job, library: &Memory, model: &Memory) {
    let bytes = if job.has_log() { "log" } else { "record" };
    places(text, bytes, &library.bytes, &model.bytes);
    places(text, "status", &library.status, &model.status);
    places(text, "links", &library.links, &model.links);
    places(text, "vectors", &library.vectors, &model.vectors);
    places(text, "picks", &library.picks, &model.picks);
    places(text, "path", &library.path, &model.path);
}

/// The first places at which memory differs afterwards.
fn places<T: PartialEq + Display>(text: &mut String, name: &str, library: &[T], model: &[T]) {
    let differing = library.iter().zip(model).enumerate().filter(|(_, (ours, theirs))| ours != theirs);
    for (at, (ours, theirs)) in differing.take(8) {
        let _ = writeln!(text, "  afterwards {name}[{at}] is {theirs} by the model and {ours} by the library");
    }
}
