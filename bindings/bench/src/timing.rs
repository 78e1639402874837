//! Two pieces of work, timed by turns.

use std::hint::black_box;
use std::time::Instant;

/// How many turns, and how many nanoseconds each should take at least.
pub struct Effort {
    turns: usize,
    turn_ns: f64,
}

pub const FULL: Effort = Effort { turns: 300, turn_ns: 200_000.0 };
pub const QUICK: Effort = Effort { turns: 5, turn_ns: 20_000.0 };

/// Nanoseconds of either side.
#[derive(Clone, Copy)]
pub struct Times {
    pub ours: f64,
    pub plain: f64,
}

impl Times {
    pub fn ratio(&self) -> f64 {
        self.ours / self.plain
    }

    pub fn per_call(self, calls: usize) -> Times {
        Times { ours: self.ours / calls as f64, plain: self.plain / calls as f64 }
    }
}

/// The shortest time of a batch on either side; the side that goes first changes each turn.
pub fn measure(effort: &Effort, ours: &mut dyn FnMut() -> u32, plain: &mut dyn FnMut() -> u32) -> Times {
    let once = time(1, ours).max(time(1, plain)).max(1.0);
    let repeats = (effort.turn_ns / once).ceil() as usize;
    let mut least = Times { ours: f64::INFINITY, plain: f64::INFINITY };
    for turn in 0..effort.turns {
        if turn % 2 == 0 {
            least.ours = least.ours.min(time(repeats, ours));
        }
        least.plain = least.plain.min(time(repeats, plain));
        if turn % 2 == 1 {
            least.ours = least.ours.min(time(repeats, ours));
        }
    }
    least
}

/// Nanoseconds for one of so many repeats.
fn time(repeats: usize, work: &mut dyn FnMut() -> u32) -> f64 {
    let start = Instant::now();
    for _ in 0..repeats {
        black_box(work());
    }
    start.elapsed().as_nanos() as f64 / repeats as f64
}
