//! The C interface of the proved archive.

use deruvain::raw;
use deruvain_model::{Answer, Jobs, Opened, Refreshed};

pub struct Archive;

fn answer(given: raw::Answer) -> Answer {
    Answer { refusal: given.refusal, kind: given.kind, mask: given.mask, hops: given.hops }
}

fn refreshed(given: raw::Refreshed) -> Refreshed {
    Refreshed { refusal: given.refusal, skipped: given.skipped }
}

impl Jobs for Archive {
    fn class(&self, byte: u8) -> u32 {
        raw::class(byte)
    }

    fn fill(&self, n: u32, status: &[u8], links: &[u16], vectors: &mut [u16]) -> u32 {
        raw::fill(n, status, links, vectors)
    }

    fn decide(&self, n: u32, status: &[u8], links: &[u16], vectors: &[u16], source: u16, destination: u16) -> Answer {
        answer(raw::decide(n, status, links, vectors, source, destination))
    }

    fn hop(&self, n: u32, status: &[u8], links: &[u16], vectors: &[u16], node: u16, relative: u16) -> Answer {
        answer(raw::hop(n, status, links, vectors, node, relative))
    }

    fn journey(
        &self,
        n: u32,
        status: &[u8],
        links: &[u16],
        vectors: &mut [u16],
        picks: &[u8],
        path: &mut [u16],
        source: u16,
        destination: u16,
    ) -> Answer {
        answer(raw::journey(n, status, links, vectors, picks, path, source, destination))
    }

    fn open(&self, bytes: &[u8], status: &mut [u8], links: &mut [u16]) -> Opened {
        let opened = raw::open(bytes, status, links);
        Opened { refusal: opened.refusal, n: opened.n }
    }

    fn refresh(&self, n: u32, sweep: u16, log: &[u8], status: &mut [u8]) -> Refreshed {
        refreshed(raw::refresh(n, sweep, log, status))
    }

    fn update(&self, n: u32, sweep: u16, part: &[u8], status: &mut [u8]) -> Refreshed {
        refreshed(raw::update(n, sweep, part, status))
    }

    fn restate(&self, bytes: &mut [u8], status: &[u8]) -> u32 {
        raw::restate(bytes, status)
    }
}
