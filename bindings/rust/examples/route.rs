//! A cabinet of 16 boards, of which board 9 is down, and a message from 1 to 12.

use deruvain::{byte, Node, Refusal, Report};

fn main() -> Result<(), Refusal> {
    let mut report = Report::healthy(4)?;
    report.status[9] = byte::DOWN;
    let journey = report.journey(&[0; 5], Node(1), Node(12))?;
    println!("{journey}");
    Ok(())
}
