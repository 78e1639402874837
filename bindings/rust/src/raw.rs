//! The C interface, function for function, over slices that the caller lends.
//!
//! Any input is answered. The numbers are those of `deruvain.h`.
//!
//! ```
//! use deruvain::raw;
//!
//! let mut vectors = [0; 4];
//! assert_eq!(raw::fill(2, &[1, 1, 0, 1], &[0; 4], &mut vectors), 0);
//! assert_eq!(vectors, [3, 3, 0, 3]);
//! assert_eq!(raw::fill(2, &[1, 1, 0], &[0; 4], &mut vectors), 2);
//! ```

/// What [`decide`], [`hop`] and [`journey`] answer. After a refusal the other fields are 0.
#[repr(C)]
#[derive(Clone, Copy, Debug, PartialEq, Eq)]
pub struct Answer {
    /// 0 if accepted.
    pub refusal: u32,
    /// 0 home, 1 assured, 2 lent, 3 detour; of [`hop`] 0 arrived, 1 offered.
    pub kind: u32,
    /// The dimensions offered, dimension i at weight 2^(i−1).
    pub mask: u32,
    /// The hops from source to destination; of [`hop`] 0.
    pub hops: u32,
}

/// What [`open`] answers. After a refusal `n` is 0.
#[repr(C)]
#[derive(Clone, Copy, Debug, PartialEq, Eq)]
pub struct Opened {
    /// 0 if accepted.
    pub refusal: u32,
    /// The dimension of the cube.
    pub n: u32,
}

/// What [`refresh`] and [`update`] answer. After a refusal `skipped` is 0.
#[repr(C)]
#[derive(Clone, Copy, Debug, PartialEq, Eq)]
pub struct Refreshed {
    /// 0 if accepted.
    pub refusal: u32,
    /// How many of the log's records are from the future.
    pub skipped: usize,
}

mod c {
    use super::{Answer, Opened, Refreshed};

    extern "C" {
        pub fn deruvain_class(byte: u8) -> u32;
        pub fn deruvain_fill(
            n: u32,
            status: *const u8,
            status_len: usize,
            links: *const u16,
            links_len: usize,
            vectors: *mut u16,
            vectors_len: usize,
        ) -> u32;
        pub fn deruvain_decide(
            n: u32,
            status: *const u8,
            status_len: usize,
            links: *const u16,
            links_len: usize,
            vectors: *const u16,
            vectors_len: usize,
            source: u16,
            destination: u16,
        ) -> Answer;
        pub fn deruvain_hop(
            n: u32,
            status: *const u8,
            status_len: usize,
            links: *const u16,
            links_len: usize,
            vectors: *const u16,
            vectors_len: usize,
            node: u16,
            relative: u16,
        ) -> Answer;
        pub fn deruvain_journey(
            n: u32,
            status: *const u8,
            status_len: usize,
            links: *const u16,
            links_len: usize,
            vectors: *mut u16,
            vectors_len: usize,
            picks: *const u8,
            picks_len: usize,
            path: *mut u16,
            path_len: usize,
            source: u16,
            destination: u16,
        ) -> Answer;
        pub fn deruvain_open(
            bytes: *const u8,
            bytes_len: usize,
            status: *mut u8,
            status_len: usize,
            links: *mut u16,
            links_len: usize,
        ) -> Opened;
        pub fn deruvain_refresh(
            n: u32,
            sweep: u16,
            log: *const u8,
            log_len: usize,
            status: *mut u8,
            status_len: usize,
        ) -> Refreshed;
        pub fn deruvain_update(
            n: u32,
            sweep: u16,
            part: *const u8,
            part_len: usize,
            status: *mut u8,
            status_len: usize,
        ) -> Refreshed;
        pub fn deruvain_restate(bytes: *mut u8, bytes_len: usize, status: *const u8, status_len: usize) -> u32;
    }
}

// SAFETY, of every call below: each pointer and length is a live slice, those written are
// borrowed by `&mut` and so overlap no other, and the library asks nothing else of its callers.

/// The class of a status byte: 0 silent, 1 working, 2 late, 3 down, 4 empty.
#[inline]
pub fn class(byte: u8) -> u32 {
    unsafe { c::deruvain_class(byte) }
}

/// Writes the vectors of all nodes. Gives the refusal number, 0 for done.
#[inline]
pub fn fill(n: u32, status: &[u8], links: &[u16], vectors: &mut [u16]) -> u32 {
    unsafe {
        c::deruvain_fill(
            n,
            status.as_ptr(),
            status.len(),
            links.as_ptr(),
            links.len(),
            vectors.as_mut_ptr(),
            vectors.len(),
        )
    }
}

/// What the source may do, over the vectors as lent.
#[inline]
pub fn decide(n: u32, status: &[u8], links: &[u16], vectors: &[u16], source: u16, destination: u16) -> Answer {
    unsafe {
        c::deruvain_decide(
            n,
            status.as_ptr(),
            status.len(),
            links.as_ptr(),
            links.len(),
            vectors.as_ptr(),
            vectors.len(),
            source,
            destination,
        )
    }
}

/// What a later node may do, over the vectors as lent.
#[inline]
pub fn hop(n: u32, status: &[u8], links: &[u16], vectors: &[u16], node: u16, relative: u16) -> Answer {
    unsafe {
        c::deruvain_hop(
            n,
            status.as_ptr(),
            status.len(),
            links.as_ptr(),
            links.len(),
            vectors.as_ptr(),
            vectors.len(),
            node,
            relative,
        )
    }
}

/// Fills the vectors, decides, and hops to the end by the picks; writes the path.
#[allow(clippy::too_many_arguments)]
#[inline]
pub fn journey(
    n: u32,
    status: &[u8],
    links: &[u16],
    vectors: &mut [u16],
    picks: &[u8],
    path: &mut [u16],
    source: u16,
    destination: u16,
) -> Answer {
    unsafe {
        c::deruvain_journey(
            n,
            status.as_ptr(),
            status.len(),
            links.as_ptr(),
            links.len(),
            vectors.as_mut_ptr(),
            vectors.len(),
            picks.as_ptr(),
            picks.len(),
            path.as_mut_ptr(),
            path.len(),
            source,
            destination,
        )
    }
}

/// Reads a record into the first 2^n places of `status` and `links`.
#[inline]
pub fn open(bytes: &[u8], status: &mut [u8], links: &mut [u16]) -> Opened {
    unsafe {
        c::deruvain_open(
            bytes.as_ptr(),
            bytes.len(),
            status.as_mut_ptr(),
            status.len(),
            links.as_mut_ptr(),
            links.len(),
        )
    }
}

/// Writes all status bytes from a status log, in this sweep.
#[inline]
pub fn refresh(n: u32, sweep: u16, log: &[u8], status: &mut [u8]) -> Refreshed {
    unsafe { c::deruvain_refresh(n, sweep, log.as_ptr(), log.len(), status.as_mut_ptr(), status.len()) }
}

/// Takes one more part of a status log, in whole records, into the status bytes that the earlier
/// parts gave; before the first part they are all 0.
#[inline]
pub fn update(n: u32, sweep: u16, part: &[u8], status: &mut [u8]) -> Refreshed {
    unsafe { c::deruvain_update(n, sweep, part.as_ptr(), part.len(), status.as_mut_ptr(), status.len()) }
}

/// Puts status bytes over those of a record. Gives the refusal number, 0 for done: 2 if the record
/// has no room for them. Nothing else is looked at.
#[inline]
pub fn restate(bytes: &mut [u8], status: &[u8]) -> u32 {
    unsafe { c::deruvain_restate(bytes.as_mut_ptr(), bytes.len(), status.as_ptr(), status.len()) }
}
