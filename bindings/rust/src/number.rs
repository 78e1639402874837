use std::fmt;

/// A number of the C interface that stands for nothing, as from [`Refusal::try_from`](crate::Refusal).
///
/// ```
/// use deruvain::{Kind, Refusal};
///
/// assert_eq!(Refusal::try_from(13).unwrap_err().to_string(), "there is no refusal 13");
/// assert_eq!(Kind::try_from(4).unwrap_err().number(), 4);
/// ```
#[derive(Clone, Copy, Debug, PartialEq, Eq, Hash)]
pub struct NoSuchNumber {
    what: &'static str,
    number: u32,
}

impl NoSuchNumber {
    pub(crate) fn new(what: &'static str, number: u32) -> NoSuchNumber {
        NoSuchNumber { what, number }
    }

    /// The number.
    pub fn number(self) -> u32 {
        self.number
    }
}

impl fmt::Display for NoSuchNumber {
    fn fmt(&self, f: &mut fmt::Formatter) -> fmt::Result {
        write!(f, "there is no {} {}", self.what, self.number)
    }
}

impl std::error::Error for NoSuchNumber {}
