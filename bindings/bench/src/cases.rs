//! The cabinets that the jobs are timed on.

use compare::generate::record;
use compare::input::Memory;
use compare::logs;
use deruvain_model::random::Random;
use deruvain_model::{Answer, Jobs, Model};
use std::cell::RefCell;
use std::hint::black_box;

#[derive(Clone, Copy, PartialEq, Eq)]
pub enum Job {
    Fill,
    Decide,
    Hop,
    Journey,
    Open,
    Refresh,
}

impl Job {
    pub const ALL: [Job; 6] = [Job::Fill, Job::Decide, Job::Hop, Job::Journey, Job::Open, Job::Refresh];

    pub fn name(self) -> &'static str {
        ["Fill", "Decide", "Hop", "Journey", "Open", "Refresh"][self as usize]
    }
}

/// The size of a cabinet and of its losses.
#[derive(Clone, Copy)]
pub struct Setting {
    pub n: u32,
    pub lost: usize,
    pub marks: usize,
}

pub fn settings() -> Vec<Setting> {
    let largest = [(10, 0, 0), (10, 10, 0), (10, 100, 0), (10, 500, 0), (10, 100, 10)];
    let small = [(1, 0, 0), (4, 2, 0), (6, 6, 2)];
    largest.into_iter().chain(small).map(|(n, lost, marks)| Setting { n, lost, marks }).collect()
}

/// A cabinet with its vectors, its record, its status log and pairs of working boards.
pub struct Case {
    pub setting: Setting,
    status: Vec<u8>,
    links: Vec<u16>,
    vectors: Vec<u16>,
    record: Vec<u8>,
    log: Vec<u8>,
    pairs: Vec<(u16, u16)>,
    lent: RefCell<Memory>,
}

const PICKS: [u8; 11] = [0, 1, 2, 3, 4, 5, 6, 7, 8, 9, 10];

/// Decide and Hop are timed over this many pairs, Journey over the first few of them.
const PAIRS: usize = 1 << 16;
const JOURNEYS: usize = 8;

/// The log has these sweeps one after the other, and in each a record of every board. A lost board was
/// heard last a hundred sweeps before.
const SWEEPS: [u16; 4] = [65_535, 0, 1, 2];
const LOST_BEFORE: u16 = 100;

fn log(status: &[u8]) -> Vec<u8> {
    let heard = |sweep: u16, (a, &byte): (usize, &u8)| match byte {
        1 => logs::record(sweep, a as u16),
        _ => logs::record(sweep.wrapping_sub(LOST_BEFORE), a as u16),
    };
    SWEEPS.iter().flat_map(|&sweep| status.iter().enumerate().flat_map(move |board| heard(sweep, board))).collect()
}

impl Case {
    pub fn new(setting: Setting) -> Case {
        let mut random = Random::new(20 + setting.lost as u64);
        let size = 1 << setting.n;
        let (mut status, mut links, mut vectors) = (vec![1; size], vec![0; size], vec![0; size]);
        while status.iter().filter(|&&byte| byte == 254).count() < setting.lost {
            status[random.below(size)] = 254;
        }
        for _ in 0..setting.marks {
            links[random.below(size)] |= 1 << random.below(setting.n as usize);
        }
        assert_eq!(Model.fill(setting.n, &status, &links, &mut vectors), 0);
        let working: Vec<u16> = (0..size).filter(|&a| status[a] == 1).map(|a| a as u16).collect();
        let pairs = (0..PAIRS).map(|_| (random.of(&working), random.of(&working))).collect();
        let report = Memory { status: status.clone(), links: links.clone(), ..Memory::default() };
        let record = record(setting.n as u8, &report);
        let log = log(&status);
        let lent = Memory { vectors: vec![0; size], path: vec![0; 12], ..report };
        Case { setting, status, links, vectors, record, log, pairs, lent: RefCell::new(lent) }
    }

    /// How many calls a batch makes.
    pub fn calls(&self, job: Job) -> usize {
        match job {
            Job::Fill | Job::Open | Job::Refresh => 1,
            Job::Decide | Job::Hop => PAIRS,
            Job::Journey => JOURNEYS,
        }
    }

    /// One batch of calls, over memory that is not cleared in between. Gives something of every answer.
    pub fn batch(&self, job: Job, library: &dyn Jobs) -> u32 {
        let lent = &mut *self.lent.borrow_mut();
        let n = black_box(self.setting.n);
        let (status, links, vectors) = (&self.status, &self.links, &self.vectors);
        let sum = |answer: Answer| answer.refusal ^ answer.kind ^ answer.mask ^ answer.hops;
        let pairs = self.pairs.iter().copied();
        match job {
            Job::Fill => library.fill(n, status, links, &mut lent.vectors),
            Job::Decide => pairs.map(|(s, d)| sum(library.decide(n, status, links, vectors, s, d))).sum(),
            Job::Hop => pairs.map(|(s, d)| sum(library.hop(n, status, links, vectors, s, s ^ d))).sum(),
            Job::Journey => pairs
                .take(JOURNEYS)
                .map(|(s, d)| sum(library.journey(n, status, links, &mut lent.vectors, &PICKS, &mut lent.path, s, d)))
                .sum(),
            Job::Open => library.open(&self.record, &mut lent.status, &mut lent.links).n,
            Job::Refresh => {
                let refreshed = library.refresh(n, SWEEPS[3], &self.log, &mut lent.status);
                refreshed.refusal ^ refreshed.skipped as u32
            }
        }
    }

    /// Both sides must give the same before they are timed.
    pub fn check(&self, job: Job, ours: &dyn Jobs, plain: &dyn Jobs) {
        let after = |library: &dyn Jobs| (self.batch(job, library), self.lent.borrow().clone());
        assert!(after(ours) == after(plain), "{} differs", job.name());
    }
}
