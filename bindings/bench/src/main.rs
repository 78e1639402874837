//! `bench [--quick] [PICTURE.svg]`: times every job through the C interface and in plain Rust.
//!
//! The two take turns in one run, over the same inputs, and the shortest time of each counts.

mod cases;
mod picture;
mod timing;

use cases::{settings, Case, Job};
use compare::archive::Archive;
use deruvain_model::Plain;
use std::process::ExitCode;
use timing::{measure, Effort, Times};

/// One line of the table.
pub struct Row {
    pub job: Job,
    pub setting: cases::Setting,
    pub times: Times,
}

struct Asked {
    effort: Effort,
    picture: Option<String>,
}

fn asked() -> Option<Asked> {
    let mut asked = Asked { effort: timing::FULL, picture: None };
    for word in std::env::args().skip(1) {
        match word.as_str() {
            "--quick" => asked.effort = timing::QUICK,
            _ if word.starts_with('-') || asked.picture.is_some() => return None,
            _ => asked.picture = Some(word),
        }
    }
    Some(asked)
}

fn main() -> ExitCode {
    let Some(asked) = asked() else {
        eprintln!("usage: bench [--quick] [PICTURE.svg]");
        return ExitCode::from(2);
    };
    let rows = all_rows(&asked.effort);
    print_table(&rows);
    if let Some(path) = asked.picture {
        if let Err(error) = std::fs::write(&path, picture::svg(&rows)) {
            eprintln!("{path}: {error}");
            return ExitCode::FAILURE;
        }
    }
    ExitCode::SUCCESS
}

fn all_rows(effort: &Effort) -> Vec<Row> {
    let cases: Vec<Case> = settings().into_iter().map(Case::new).collect();
    let mut rows = Vec::new();
    for job in Job::ALL {
        for case in &cases {
            case.check(job, &Archive, &Plain);
            let times = measure(effort, &mut || case.batch(job, &Archive), &mut || case.batch(job, &Plain));
            rows.push(Row { job, setting: case.setting, times: times.per_call(case.calls(job)) });
        }
    }
    rows
}

fn print_table(rows: &[Row]) {
    println!("| ours / plain Rust | job | n | lost boards | bad links | ours, ns a call | plain Rust, ns a call |");
    println!("|---:|---|---:|---:|---:|---:|---:|");
    for Row { job, setting, times } in rows {
        let cases::Setting { n, lost, marks } = setting;
        let (ratio, ours, plain) = (times.ratio(), times.ours, times.plain);
        println!("| {ratio:.2} | {} | {n} | {lost} | {marks} | {ours:.1} | {plain:.1} |", job.name());
    }
}
