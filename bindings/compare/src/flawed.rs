//! Libraries with one flaw each, to show that the comparison finds it.

use crate::logs;
use deruvain_model::model::{class, WORKING};
use deruvain_model::{Answer, Jobs, Opened, Plain, Refreshed};

#[derive(Clone, Copy, Debug, PartialEq, Eq)]
pub enum Flaw {
    None,
    DimensionWraps,
    LengthsWrap,
    FifthSweepWorks,
    SilenceWorks,
    LostBoardsHaveBits,
    NeighbourLostClearsBitOne,
    OwnBitAcrossBadLink,
    SameRound,
    LowerEndAlone,
    UpperEndAlone,
    BothEndsNeeded,
    OwnEndAlone,
    LostBoardsMarkNothing,
    FillCarriesOnAfterLinks,
    DetourBeforeLent,
    OwnBitOnly,
    HighMarksRefusedByDecide,
    DestinationBeforeSource,
    BitZeroAcrossBadLink,
    HighBitsOfVectors,
    JourneyFillsFirst,
    JourneyDecidesFirst,
    JourneyLeavesVectors,
    PathOnRefusal,
    PathOneTooLong,
    PicksFromTheSecond,
    PicksOneShort,
    OpenClearsTheRest,
    OpenLengthBeforeN,
    OpenSlicesBeforeLength,
    OpenWritesBeforeLinks,
    OpenTakesOtherKinds,
    OpenLengthWraps,
    LogOldestWins,
    LogLastWins,
    LogFutureTaken,
    LogFutureFromOneLater,
    LogFutureUnchecked,
    LogAge252Gives252,
    LogAge253Gives254,
    LogAgeSaturates,
    LogOldCounted,
    LogCountedWhenRefused,
    LogNodeBeforeKind,
    LogAllKindsBeforeNodes,
    LogWritesBeforeRefusal,
    LogLeavesTheSilent,
    LogCutEndIgnored,
    LogLengthWraps,
    UpdateStartsAnew,
    UpdateLastPartWins,
    UpdateOlderPartWins,
    UpdateSilenceWins,
    UpdateForgetsOnRefusal,
    UpdateLosesItsCount,
    RestateOneTooEarly,
    RestateNeedsOneMore,
    RestateWritesWhatFits,
    RestateSaysDone,
    RestateClearsTheLinks,
    RestateLengthWraps,
    RestateAsksForARecord,
}

impl Flaw {
    pub const ALL: [Flaw; 62] = [
        Flaw::DimensionWraps,
        Flaw::LengthsWrap,
        Flaw::FifthSweepWorks,
        Flaw::SilenceWorks,
        Flaw::LostBoardsHaveBits,
        Flaw::NeighbourLostClearsBitOne,
        Flaw::OwnBitAcrossBadLink,
        Flaw::SameRound,
        Flaw::LowerEndAlone,
        Flaw::UpperEndAlone,
        Flaw::BothEndsNeeded,
        Flaw::OwnEndAlone,
        Flaw::LostBoardsMarkNothing,
        Flaw::FillCarriesOnAfterLinks,
        Flaw::DetourBeforeLent,
        Flaw::OwnBitOnly,
        Flaw::HighMarksRefusedByDecide,
        Flaw::DestinationBeforeSource,
        Flaw::BitZeroAcrossBadLink,
        Flaw::HighBitsOfVectors,
        Flaw::JourneyFillsFirst,
        Flaw::JourneyDecidesFirst,
        Flaw::JourneyLeavesVectors,
        Flaw::PathOnRefusal,
        Flaw::PathOneTooLong,
        Flaw::PicksFromTheSecond,
        Flaw::PicksOneShort,
        Flaw::OpenClearsTheRest,
        Flaw::OpenLengthBeforeN,
        Flaw::OpenSlicesBeforeLength,
        Flaw::OpenWritesBeforeLinks,
        Flaw::OpenTakesOtherKinds,
        Flaw::OpenLengthWraps,
        Flaw::LogOldestWins,
        Flaw::LogLastWins,
        Flaw::LogFutureTaken,
        Flaw::LogFutureFromOneLater,
        Flaw::LogFutureUnchecked,
        Flaw::LogAge252Gives252,
        Flaw::LogAge253Gives254,
        Flaw::LogAgeSaturates,
        Flaw::LogOldCounted,
        Flaw::LogCountedWhenRefused,
        Flaw::LogNodeBeforeKind,
        Flaw::LogAllKindsBeforeNodes,
        Flaw::LogWritesBeforeRefusal,
        Flaw::LogLeavesTheSilent,
        Flaw::LogCutEndIgnored,
        Flaw::LogLengthWraps,
        Flaw::UpdateStartsAnew,
        Flaw::UpdateLastPartWins,
        Flaw::UpdateOlderPartWins,
        Flaw::UpdateSilenceWins,
        Flaw::UpdateForgetsOnRefusal,
        Flaw::UpdateLosesItsCount,
        Flaw::RestateOneTooEarly,
        Flaw::RestateNeedsOneMore,
        Flaw::RestateWritesWhatFits,
        Flaw::RestateSaysDone,
        Flaw::RestateClearsTheLinks,
        Flaw::RestateLengthWraps,
        Flaw::RestateAsksForARecord,
    ];
}

/// Plain Rust with one flaw.
pub struct Flawed(pub Flaw);

fn working(byte: u8) -> bool {
    class(byte) == WORKING
}

fn faulty(links: &[u16], a: usize, i: u32) -> bool {
    (links[a] | links[a ^ 1 << i]) >> i & 1 == 1
}

/// The spare dimensions whose neighbour has registered bit H+1, as a mask.
fn spare(n: u32, links: &[u16], vectors: &[u16], s: u16, d: u16) -> u32 {
    let h = (s ^ d).count_ones();
    let bears = |i: &u32| vectors[s as usize ^ 1 << i] >> h & 1 == 1 && !faulty(links, s as usize, *i);
    (0..n).filter(|i| (s ^ d) >> i & 1 == 0).filter(bears).map(|i| 1 << i).sum()
}

impl Flawed {
    fn has(&self, flaw: Flaw) -> bool {
        self.0 == flaw
    }

    /// The status bytes as this library takes them.
    fn status(&self, status: &[u8]) -> Vec<u8> {
        let taken = |byte: &u8| match byte {
            5 if self.has(Flaw::FifthSweepWorks) => 4,
            0 if self.has(Flaw::SilenceWorks) => 1,
            _ => *byte,
        };
        status.iter().map(taken).collect()
    }

    /// Whether a mark in the word of node a counts, where its link goes to a xor 2^i.
    fn counts(&self, status: &[u8], links: &[u16], a: usize, i: u32) -> bool {
        match self.0 {
            Flaw::LostBoardsMarkNothing => status.get(a).is_some_and(|&byte| working(byte)),
            Flaw::LowerEndAlone => a >> i & 1 == 0,
            Flaw::UpperEndAlone => a >> i & 1 == 1,
            Flaw::BothEndsNeeded => links.get(a ^ 1 << i).is_some_and(|word| word >> i & 1 == 1),
            _ => true,
        }
    }

    /// The link words as this library takes them: with the marks that count, and those above n.
    fn links(&self, n: u32, status: &[u8], links: &[u16]) -> Vec<u16> {
        let left_out = |a| (0..n.min(10)).filter(|&i| !self.counts(status, links, a, i)).map(|i| 1 << i).sum::<u16>();
        links.iter().enumerate().map(|(a, word)| word & !left_out(a)).collect()
    }

    /// Whether the link of a to a xor 2^i counts as faulty in Fill.
    fn faulty(&self, links: &[u16], a: usize, i: u32) -> bool {
        match self.0 {
            Flaw::OwnEndAlone => links[a] >> i & 1 == 1,
            _ => faulty(links, a, i),
        }
    }

    /// The rounds, over a report that Fill accepts.
    fn rounds(&self, n: u32, status: &[u8], links: &[u16], vectors: &mut [u16]) {
        for a in 0..vectors.len() {
            let lost = |i: u32| self.has(Flaw::NeighbourLostClearsBitOne) && !working(status[a ^ 1 << i]);
            let first = working(status[a]) && !(0..n).any(|i| self.faulty(links, a, i) || lost(i));
            vectors[a] = first as u16;
        }
        for k in 2..=n {
            for a in 0..vectors.len() {
                let sum = (0..n).filter(|&i| self.registered(links, vectors, a, i, k)).count() as u32;
                let counts = working(status[a]) || self.has(Flaw::LostBoardsHaveBits);
                vectors[a] |= ((counts && sum > n - k) as u16) << (k - 1);
            }
        }
    }

    /// The neighbour's bit k−1 as registered.
    fn registered(&self, links: &[u16], vectors: &[u16], a: usize, i: u32, k: u32) -> bool {
        let b = a ^ 1 << i;
        let bit = if self.has(Flaw::SameRound) && b < a { k } else { k - 1 };
        let own = vectors[b] >> (bit - 1) & 1 == 1;
        own && (self.has(Flaw::OwnBitAcrossBadLink) || !self.faulty(links, a, i))
    }

    fn source_rule(&self, n: u32, links: &[u16], vectors: &[u16], s: u16, d: u16, answer: Answer) -> Answer {
        let detour = || match spare(n, links, vectors, s, d) {
            0 => None,
            mask => Some(Answer::accepted(3, mask, (s ^ d).count_ones() + 2)),
        };
        match answer.kind {
            2 if self.has(Flaw::DetourBeforeLent) => detour().unwrap_or(answer),
            2 if self.has(Flaw::OwnBitOnly) => detour().unwrap_or(Answer::refused(7)),
            _ => answer,
        }
    }

    /// The age of a log's record.
    fn age(&self, sweep: u16, record: &[u8]) -> u16 {
        match self.0 {
            Flaw::LogAgeSaturates => sweep.saturating_sub(logs::sweep(record)),
            _ => sweep.wrapping_sub(logs::sweep(record)),
        }
    }

    fn skips(&self, age: u16) -> bool {
        match self.0 {
            Flaw::LogFutureTaken => false,
            Flaw::LogFutureFromOneLater => age > 32_768,
            _ => age >= 32_768,
        }
    }

    /// The status byte of an age.
    fn byte(&self, age: u16) -> u8 {
        match age {
            252 if self.has(Flaw::LogAge252Gives252) => 252,
            253 if self.has(Flaw::LogAge253Gives254) => 254,
            _ => age.min(252) as u8 + 1,
        }
    }

    /// The refusal of a log's record, 0 for none.
    fn refusal_of(&self, n: u32, sweep: u16, record: &[u8]) -> u32 {
        let whole = record.len() == 8;
        let malformed = !whole || record[..4] != [6, 0, 2, 0];
        let outside = whole && logs::node(record) >> n != 0;
        match (malformed, outside) {
            (true, false) if !whole && self.has(Flaw::LogCutEndIgnored) => 0,
            (true, true) if self.has(Flaw::LogNodeBeforeKind) => 12,
            (true, _) => 11,
            (_, true) if self.has(Flaw::LogFutureUnchecked) && self.age(sweep, record) >= 32_768 => 0,
            (_, true) => 12,
            _ => 0,
        }
    }

    /// The refusal of a log, and how many of its bytes come before the first wrong record.
    fn refusal_in(&self, n: u32, sweep: u16, log: &[u8]) -> Option<(u32, usize)> {
        let refusals: Vec<u32> = log.chunks(8).map(|record| self.refusal_of(n, sweep, record)).collect();
        let first = refusals.iter().position(|&refusal| refusal != 0)?;
        let by_kind = self.has(Flaw::LogAllKindsBeforeNodes) && refusals.contains(&11);
        Some((if by_kind { 11 } else { refusals[first] }, 8 * first))
    }

    /// Writes what whole records say, and gives how many were skipped.
    fn take_in(&self, sweep: u16, log: &[u8], status: &mut [u8]) -> usize {
        let mut taken = vec![0; status.len()];
        let mut skipped = 0;
        for record in log.chunks_exact(8) {
            let age = self.age(sweep, record);
            skipped += (self.skips(age) || self.has(Flaw::LogOldCounted) && age > 252) as usize;
            if !self.skips(age) {
                let held = &mut taken[logs::node(record) as usize];
                *held = self.of_two(*held, self.byte(age));
            }
        }
        for (byte, taken) in status.iter_mut().zip(taken) {
            if taken != 0 || !self.has(Flaw::LogLeavesTheSilent) {
                *byte = taken;
            }
        }
        skipped
    }

    /// Which of two bytes of a node counts; the one held is 0 at first.
    fn of_two(&self, held: u8, next: u8) -> u8 {
        match self.0 {
            Flaw::LogLastWins => next,
            Flaw::LogOldestWins => held.max(next),
            _ if held == 0 => next,
            _ => held.min(next),
        }
    }

    /// Which byte of a node counts, of what earlier parts of a log gave and what the next part gives.
    fn of_parts(&self, held: u8, next: u8) -> u8 {
        match self.0 {
            Flaw::UpdateStartsAnew => next,
            Flaw::UpdateLastPartWins if next != 0 => next,
            Flaw::UpdateOlderPartWins => held.max(next),
            Flaw::UpdateSilenceWins => held.min(next),
            _ if next == 0 => held,
            _ if held == 0 => next,
            _ => held.min(next),
        }
    }
}

impl Jobs for Flawed {
    fn class(&self, byte: u8) -> u32 {
        class(self.status(&[byte])[0])
    }

    fn fill(&self, n: u32, status: &[u8], links: &[u16], vectors: &mut [u16]) -> u32 {
        let n = if self.has(Flaw::DimensionWraps) { n % 32 } else { n };
        let (mut status, links) = (self.status(status), self.links(n, status, links));
        if self.has(Flaw::LengthsWrap) {
            status.truncate(status.len() % 65_536);
        }
        let refusal = Plain.fill(n, &status, &links, vectors);
        match refusal {
            0 => self.rounds(n, &status, &links, vectors),
            3 if self.has(Flaw::FillCarriesOnAfterLinks) => vectors.fill(0),
            _ => {}
        }
        refusal
    }

    fn decide(&self, n: u32, status: &[u8], links: &[u16], vectors: &[u16], s: u16, d: u16) -> Answer {
        let (status, links) = (self.status(status), self.links(n, status, links));
        let answer = Plain.decide(n, &status, &links, vectors, s, d);
        match answer.refusal {
            5 if self.has(Flaw::DestinationBeforeSource) && !working(status[d as usize]) => Answer::refused(6),
            0 | 4.. if self.has(Flaw::HighMarksRefusedByDecide) && links.iter().any(|word| word >> n != 0) => {
                Answer::refused(3)
            }
            0 => self.source_rule(n, &links, vectors, s, d, answer),
            _ => answer,
        }
    }

    fn hop(&self, n: u32, status: &[u8], links: &[u16], vectors: &[u16], node: u16, relative: u16) -> Answer {
        let (status, links) = (self.status(status), self.links(n, status, links));
        let answer = Plain.hop(n, &status, &links, vectors, node, relative);
        match answer.refusal {
            9 if self.has(Flaw::BitZeroAcrossBadLink) && relative.count_ones() == 1 => {
                Answer::accepted(1, relative as u32, 0)
            }
            9 if self.has(Flaw::HighBitsOfVectors) && vectors.iter().any(|word| word >> n != 0) => {
                Answer::accepted(1, relative as u32, 0)
            }
            _ => answer,
        }
    }

    fn journey(
        &self,
        n: u32,
        status: &[u8],
        links: &[u16],
        vectors: &mut [u16],
        picks: &[u8],
        path: &mut [u16],
        s: u16,
        d: u16,
    ) -> Answer {
        let (status, links) = (self.status(status), self.links(n, status, links));
        let before = vectors.to_vec();
        let mut picks = picks.to_vec();
        if self.has(Flaw::PicksFromTheSecond) && !picks.is_empty() {
            picks.rotate_left(1);
        }
        if self.has(Flaw::PicksOneShort) && picks.len() == n as usize {
            picks.push(0);
        }
        let answer = Plain.journey(n, &status, &links, vectors, &picks, path, s, d);
        match answer.refusal {
            0 if self.has(Flaw::PathOneTooLong) => {
                path.iter_mut().skip(answer.hops as usize + 1).take(1).for_each(|word| *word = 0)
            }
            4..=6 if self.has(Flaw::JourneyFillsFirst) => drop(Plain.fill(n, &status, &links, vectors)),
            0 | 7 if self.has(Flaw::JourneyDecidesFirst) => return Plain.decide(n, &status, &links, &before, s, d),
            7 if self.has(Flaw::JourneyLeavesVectors) => vectors.copy_from_slice(&before),
            7 if self.has(Flaw::PathOnRefusal) => path[0] = s,
            _ => {}
        }
        answer
    }

    fn open(&self, bytes: &[u8], status: &mut [u8], links: &mut [u16]) -> Opened {
        let mut bytes = bytes.to_vec();
        if self.has(Flaw::OpenTakesOtherKinds) && bytes.len() > 3 {
            bytes[2] = 1;
        }
        if self.has(Flaw::OpenLengthWraps) {
            bytes.truncate(bytes.len() % 65_536);
        }
        let opened = Plain.open(&bytes, status, links);
        let short = |n: u8| status.len() < 1 << n || links.len() < 1 << n;
        match opened.refusal {
            0 if self.has(Flaw::OpenClearsTheRest) => status[1 << opened.n..].fill(0),
            1 if self.has(Flaw::OpenLengthBeforeN) => return Opened::refused(10),
            3 if self.has(Flaw::OpenWritesBeforeLinks) => status[0] = bytes[5],
            10 if self.has(Flaw::OpenSlicesBeforeLength) => {
                let header = bytes.len() > 4 && bytes[2..4] == [1, 0] && (1..=10).contains(&bytes[4]);
                if header && bytes[..2] == ((bytes.len() - 2) as u16).to_le_bytes() && short(bytes[4]) {
                    return Opened::refused(2);
                }
            }
            _ => {}
        }
        opened
    }

    fn refresh(&self, n: u32, sweep: u16, log: &[u8], status: &mut [u8]) -> Refreshed {
        let of_no_record = Plain.refresh(n, sweep, &[], &mut status.to_vec());
        if of_no_record.refusal != 0 {
            return of_no_record;
        }
        let log = if self.has(Flaw::LogLengthWraps) { &log[..log.len() % 65_536] } else { log };
        let Some((refusal, before)) = self.refusal_in(n, sweep, log) else {
            return Refreshed { refusal: 0, skipped: self.take_in(sweep, log, status) };
        };
        let mut lost = status.to_vec();
        let skipped = self.take_in(sweep, &log[..before], &mut lost);
        if self.has(Flaw::LogWritesBeforeRefusal) {
            status.copy_from_slice(&lost);
        }
        Refreshed { refusal, skipped: if self.has(Flaw::LogCountedWhenRefused) { skipped } else { 0 } }
    }
    fn update(&self, n: u32, sweep: u16, part: &[u8], status: &mut [u8]) -> Refreshed {
        let held = status.to_vec();
        let mut updated = self.refresh(n, sweep, part, status);
        match updated.refusal {
            0 => {
                for (byte, held) in status.iter_mut().zip(held) {
                    *byte = self.of_parts(held, *byte);
                }
            }
            11.. if self.has(Flaw::UpdateForgetsOnRefusal) => status.fill(0),
            _ => {}
        }
        if self.has(Flaw::UpdateLosesItsCount) {
            updated.skipped = 0;
        }
        updated
    }

    fn restate(&self, bytes: &mut [u8], status: &[u8]) -> u32 {
        let status = if self.has(Flaw::RestateLengthWraps) { &status[..status.len() % 65_536] } else { status };
        let from = if self.has(Flaw::RestateOneTooEarly) { 4 } else { 5 };
        if bytes.len() < 5 + status.len() + self.has(Flaw::RestateNeedsOneMore) as usize {
            if self.has(Flaw::RestateWritesWhatFits) {
                bytes.iter_mut().skip(5).zip(status).for_each(|(byte, new)| *byte = *new);
            }
            return if self.has(Flaw::RestateSaysDone) { 0 } else { 2 };
        }
        if self.has(Flaw::RestateAsksForARecord) && bytes[2..4] != [1, 0] {
            return 10;
        }
        bytes[from..from + status.len()].copy_from_slice(status);
        if self.has(Flaw::RestateClearsTheLinks) {
            bytes[5 + status.len()..].fill(0);
        }
        0
    }
}
