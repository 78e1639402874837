//! One call of a job, and all that comes back of it.

use deruvain_model::{Answer, Jobs, Refreshed};

#[derive(Clone, Copy, Debug, PartialEq, Eq)]
pub enum Job {
    Class,
    Fill,
    Decide,
    Hop,
    Journey,
    Open,
    Refresh,
    Update,
    Restate,
}

impl Job {
    pub const COUNT: usize = 9;

    pub const ALL: [Job; Job::COUNT] = [
        Job::Class,
        Job::Fill,
        Job::Decide,
        Job::Hop,
        Job::Journey,
        Job::Open,
        Job::Refresh,
        Job::Update,
        Job::Restate,
    ];

    pub fn name(self) -> &'static str {
        ["class", "fill", "decide", "hop", "journey", "open", "refresh", "update", "restate"][self as usize]
    }

    /// Whether the bytes are a status log.
    pub fn has_log(self) -> bool {
        matches!(self, Job::Refresh | Job::Update)
    }

    /// Whether the bytes are a record.
    pub fn has_record(self) -> bool {
        matches!(self, Job::Open | Job::Restate)
    }
}

/// The slices of a call, as lent or as they came back. A job that has no use for one leaves it empty.
#[derive(Clone, Debug, Default, PartialEq, Eq)]
pub struct Memory {
    /// The record, or the log at Refresh and Update.
    pub bytes: Vec<u8>,
    pub status: Vec<u8>,
    pub links: Vec<u16>,
    pub vectors: Vec<u16>,
    pub picks: Vec<u8>,
    pub path: Vec<u16>,
}

#[derive(Clone, Debug, PartialEq, Eq)]
pub struct Input {
    pub job: Job,
    pub n: u32,
    pub memory: Memory,
    /// The source, the node at Hop, the sweep at Refresh and Update, or the byte to class.
    pub first: u16,
    /// The destination, or the relative address at Hop.
    pub second: u16,
}

impl Input {
    /// The dimension asked for, if any.
    pub fn dimension(&self) -> Option<u32> {
        match self.job {
            Job::Class => None,
            job if job.has_record() => self.memory.bytes.get(4).map(|&byte| byte as u32),
            _ => Some(self.n),
        }
    }
}

#[derive(Clone, Debug, PartialEq, Eq)]
pub struct Output {
    /// Fill, Restate and Class have a number only: Class's is the kind, the others' the refusal. Open's n is the kind.
    /// What Refresh or Update skipped is the kind, and the mask what is above 32 bits of it.
    pub answer: Answer,
    pub memory: Memory,
    /// Whether the memory on both sides of every lent slice is as it was.
    pub margins_kept: bool,
}

/// Odd, so that the slices lie at addresses that are no rounder than they need be.
const MARGIN: usize = 7;
const MARGIN_BYTE: u8 = 0xa5;
const MARGIN_WORD: u16 = 0xa5c3;

/// A slice in the middle of memory with known margins.
pub struct Lent<T> {
    whole: Vec<T>,
    filler: T,
}

impl<T: Copy + PartialEq> Lent<T> {
    pub fn new(values: &[T], filler: T) -> Lent<T> {
        let mut whole = vec![filler; MARGIN];
        whole.extend_from_slice(values);
        whole.extend_from_slice(&[filler; MARGIN]);
        Lent { whole, filler }
    }

    pub fn slice(&mut self) -> &mut [T] {
        let end = self.whole.len() - MARGIN;
        &mut self.whole[MARGIN..end]
    }

    /// The slice as it came back, and whether the margins are as they were.
    pub fn back(self) -> (Vec<T>, bool) {
        let end = self.whole.len() - MARGIN;
        let margins = self.whole[..MARGIN].iter().chain(&self.whole[end..]);
        let kept = margins.into_iter().all(|&value| value == self.filler);
        (self.whole[MARGIN..end].to_vec(), kept)
    }
}

struct LentMemory {
    bytes: Lent<u8>,
    status: Lent<u8>,
    links: Lent<u16>,
    vectors: Lent<u16>,
    picks: Lent<u8>,
    path: Lent<u16>,
}

impl LentMemory {
    fn new(memory: &Memory) -> LentMemory {
        LentMemory {
            bytes: Lent::new(&memory.bytes, MARGIN_BYTE),
            status: Lent::new(&memory.status, MARGIN_BYTE),
            links: Lent::new(&memory.links, MARGIN_WORD),
            vectors: Lent::new(&memory.vectors, MARGIN_WORD),
            picks: Lent::new(&memory.picks, MARGIN_BYTE),
            path: Lent::new(&memory.path, MARGIN_WORD),
        }
    }

    fn back(self) -> (Memory, bool) {
        let (bytes, a) = self.bytes.back();
        let (status, b) = self.status.back();
        let (links, c) = self.links.back();
        let (vectors, d) = self.vectors.back();
        let (picks, e) = self.picks.back();
        let (path, f) = self.path.back();
        (Memory { bytes, status, links, vectors, picks, path }, a && b && c && d && e && f)
    }
}

/// Calls the job, and gathers its answer and all lent memory afterwards.
pub fn call(library: &dyn Jobs, input: &Input) -> Output {
    let mut lent = LentMemory::new(&input.memory);
    let answer = answer(library, input, &mut lent);
    let (memory, margins_kept) = lent.back();
    Output { answer, memory, margins_kept }
}

fn answer(library: &dyn Jobs, input: &Input, lent: &mut LentMemory) -> Answer {
    let (n, first, second) = (input.n, input.first, input.second);
    let (status, links, vectors) = (lent.status.slice(), lent.links.slice(), lent.vectors.slice());
    match input.job {
        Job::Class => Answer::accepted(library.class(first as u8), 0, 0),
        Job::Fill => Answer::refused(library.fill(n, status, links, vectors)),
        Job::Decide => library.decide(n, status, links, vectors, first, second),
        Job::Hop => library.hop(n, status, links, vectors, first, second),
        Job::Journey => {
            library.journey(n, status, links, vectors, lent.picks.slice(), lent.path.slice(), first, second)
        }
        Job::Open => {
            let opened = library.open(lent.bytes.slice(), status, links);
            Answer { refusal: opened.refusal, kind: opened.n, ..Answer::default() }
        }
        Job::Refresh => of_refreshed(library.refresh(n, first, lent.bytes.slice(), status)),
        Job::Update => of_refreshed(library.update(n, first, lent.bytes.slice(), status)),
        Job::Restate => Answer::refused(library.restate(lent.bytes.slice(), status)),
    }
}

fn of_refreshed(refreshed: Refreshed) -> Answer {
    let skipped = refreshed.skipped as u64;
    Answer { refusal: refreshed.refusal, kind: skipped as u32, mask: (skipped >> 32) as u32, hops: 0 }
}

#[cfg(test)]
mod tests {
    use super::*;

    #[test]
    fn a_written_margin_is_seen() {
        for at in [0, MARGIN - 1, MARGIN + 3, 2 * MARGIN + 2] {
            let mut lent = Lent::new(&[1u16, 2, 3], MARGIN_WORD);
            lent.whole[at] = 0;
            assert_eq!(lent.back(), (vec![1, 2, 3], false));
        }
        let mut lent = Lent::new(&[1u16, 2, 3], MARGIN_WORD);
        lent.slice()[2] = 9;
        assert_eq!(lent.back(), (vec![1, 2, 9], true));
    }
}
