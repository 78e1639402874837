//! What every job answers, for every input: an independent model.
//!
//! [`model`] is the paper's rules as plain Rust, written to be checked by eye.
//! [`plain`] is fast plain Rust, held to the model by tests; benchmarks compare with it.
//! Both have the trait [`Jobs`], which has the shape of the C interface.

pub mod model;
pub mod plain;
pub mod random;

/// What Decide, Hop and Journey answer. After a refusal the other fields are 0.
#[derive(Clone, Copy, Debug, Default, PartialEq, Eq)]
pub struct Answer {
    pub refusal: u32,
    pub kind: u32,
    pub mask: u32,
    pub hops: u32,
}

/// What Open answers. After a refusal `n` is 0.
#[derive(Clone, Copy, Debug, Default, PartialEq, Eq)]
pub struct Opened {
    pub refusal: u32,
    pub n: u32,
}

/// What Refresh and Update answer. After a refusal `skipped` is 0.
#[derive(Clone, Copy, Debug, Default, PartialEq, Eq)]
pub struct Refreshed {
    pub refusal: u32,
    pub skipped: usize,
}

impl Answer {
    pub fn refused(refusal: u32) -> Answer {
        Answer { refusal, ..Answer::default() }
    }

    pub fn accepted(kind: u32, mask: u32, hops: u32) -> Answer {
        Answer { refusal: 0, kind, mask, hops }
    }
}

impl Opened {
    pub fn refused(refusal: u32) -> Opened {
        Opened { refusal, n: 0 }
    }
}

impl Refreshed {
    pub fn refused(refusal: u32) -> Refreshed {
        Refreshed { refusal, skipped: 0 }
    }
}

/// The jobs, as the C interface has them. A job changes only the slices it takes by `&mut`.
pub trait Jobs {
    fn class(&self, byte: u8) -> u32;

    fn fill(&self, n: u32, status: &[u8], links: &[u16], vectors: &mut [u16]) -> u32;

    #[allow(clippy::too_many_arguments)]
    fn decide(&self, n: u32, status: &[u8], links: &[u16], vectors: &[u16], source: u16, destination: u16) -> Answer;

    #[allow(clippy::too_many_arguments)]
    fn hop(&self, n: u32, status: &[u8], links: &[u16], vectors: &[u16], node: u16, relative: u16) -> Answer;

    #[allow(clippy::too_many_arguments)]
    fn journey(
        &self,
        n: u32,
        status: &[u8],
        links: &[u16],
        vectors: &mut [u16],
        picks: &[u8],
        path: &mut [u16],
        source: u16,
        destination: u16,
    ) -> Answer;

    fn open(&self, bytes: &[u8], status: &mut [u8], links: &mut [u16]) -> Opened;

    fn refresh(&self, n: u32, sweep: u16, log: &[u8], status: &mut [u8]) -> Refreshed;

    fn update(&self, n: u32, sweep: u16, part: &[u8], status: &mut [u8]) -> Refreshed;

    fn restate(&self, bytes: &mut [u8], status: &[u8]) -> u32;
}

/// The jobs as the functions of one module.
macro_rules! jobs {
    ($(#[$doc:meta])* $name:ident, $module:ident) => {
        $(#[$doc])*
        #[derive(Clone, Copy, Debug)]
        pub struct $name;

        impl Jobs for $name {
            fn class(&self, byte: u8) -> u32 {
                $module::class(byte)
            }

            fn fill(&self, n: u32, status: &[u8], links: &[u16], vectors: &mut [u16]) -> u32 {
                $module::fill(n, status, links, vectors)
            }

            fn decide(&self, n: u32, status: &[u8], links: &[u16], vectors: &[u16], source: u16, destination: u16) -> Answer {
                $module::decide(n, status, links, vectors, source, destination)
            }

            fn hop(&self, n: u32, status: &[u8], links: &[u16], vectors: &[u16], node: u16, relative: u16) -> Answer {
                $module::hop(n, status, links, vectors, node, relative)
            }

            fn journey(
                &self,
                n: u32,
                status: &[u8],
                links: &[u16],
                vectors: &mut [u16],
                picks: &[u8],
                path: &mut [u16],
                source: u16,
                destination: u16,
            ) -> Answer {
                $module::journey(n, status, links, vectors, picks, path, source, destination)
            }

            fn open(&self, bytes: &[u8], status: &mut [u8], links: &mut [u16]) -> Opened {
                $module::open(bytes, status, links)
            }

            fn refresh(&self, n: u32, sweep: u16, log: &[u8], status: &mut [u8]) -> Refreshed {
                $module::refresh(n, sweep, log, status)
            }

            fn update(&self, n: u32, sweep: u16, part: &[u8], status: &mut [u8]) -> Refreshed {
                $module::update(n, sweep, part, status)
            }

            fn restate(&self, bytes: &mut [u8], status: &[u8]) -> u32 {
                $module::restate(bytes, status)
            }
        }
    };
}

jobs!(
    /// The model.
    Model, model
);
jobs!(
    /// Fast plain Rust.
    Plain, plain
);
