use crate::{raw, NoSuchNumber, Node};
use std::fmt;

/// The class of a status byte. Only working boards are nonfaulty.
///
/// ```
/// use deruvain::Class;
///
/// assert_eq!(Class::of(4), Class::Working);
/// assert_eq!(Class::from(254), Class::Down);
/// assert_eq!(Class::of(0).to_string(), "silent");
/// ```
#[derive(Clone, Copy, Debug, PartialEq, Eq, Hash)]
pub enum Class {
    /// Never heard.
    Silent,
    /// Heard in the present sweep or in one of the three before.
    Working,
    /// Heard before that.
    Late,
    /// Down, by its own word.
    Down,
    /// Empty slot.
    Empty,
}

impl Class {
    /// The class of this byte.
    pub fn of(byte: u8) -> Class {
        match raw::class(byte) {
            0 => Class::Silent,
            1 => Class::Working,
            2 => Class::Late,
            3 => Class::Down,
            4 => Class::Empty,
            number => unreachable!("the library gave the class {number}"),
        }
    }
}

/// The class of a status byte.
impl From<u8> for Class {
    fn from(byte: u8) -> Class {
        Class::of(byte)
    }
}

impl fmt::Display for Class {
    fn fmt(&self, f: &mut fmt::Formatter) -> fmt::Result {
        f.pad(match self {
            Class::Silent => "silent",
            Class::Working => "working",
            Class::Late => "late",
            Class::Down => "down",
            Class::Empty => "empty",
        })
    }
}

/// How a message gets to its destination, H dimensions away.
#[derive(Clone, Copy, Debug, PartialEq, Eq, Hash)]
pub enum Kind {
    /// The source is the destination.
    Home,
    /// The source's own bit promises a path of H hops.
    Assured,
    /// A neighbour's bit promises a path of H hops.
    Lent,
    /// A spare neighbour promises a path of H + 2 hops.
    Detour,
}

impl Kind {
    pub(crate) fn of(number: u32) -> Kind {
        Kind::try_from(number).expect("the library gives kinds of this crate")
    }
}

/// The kind of a number of [`raw::Answer`], of decide or journey.
impl TryFrom<u32> for Kind {
    type Error = NoSuchNumber;

    fn try_from(number: u32) -> Result<Kind, NoSuchNumber> {
        match number {
            0 => Ok(Kind::Home),
            1 => Ok(Kind::Assured),
            2 => Ok(Kind::Lent),
            3 => Ok(Kind::Detour),
            _ => Err(NoSuchNumber::new("kind", number)),
        }
    }
}

impl From<Kind> for u32 {
    fn from(kind: Kind) -> u32 {
        kind as u32
    }
}

impl fmt::Display for Kind {
    fn fmt(&self, f: &mut fmt::Formatter) -> fmt::Result {
        f.pad(match self {
            Kind::Home => "home",
            Kind::Assured => "assured",
            Kind::Lent => "lent",
            Kind::Detour => "detour",
        })
    }
}

/// The dimensions that a message may take from a node. It prints as the dimensions, from the lowest.
#[derive(Clone, Copy, Debug, PartialEq, Eq, Hash)]
pub struct Offer(u16);

impl Offer {
    pub(crate) fn of(mask: u32) -> Offer {
        Offer(mask as u16)
    }

    /// The dimensions as bits, dimension i at weight 2^(i−1).
    pub fn mask(self) -> u16 {
        self.0
    }

    /// How many dimensions there are.
    pub fn len(self) -> usize {
        self.0.count_ones() as usize
    }

    /// Whether there is none.
    pub fn is_empty(self) -> bool {
        self.0 == 0
    }

    /// The dimensions, from the lowest.
    pub fn dimensions(self) -> impl Iterator<Item = u32> {
        (1..=16).filter(move |i| self.0 >> (i - 1) & 1 == 1)
    }
}

impl fmt::Display for Offer {
    fn fmt(&self, f: &mut fmt::Formatter) -> fmt::Result {
        spaced(f, self.dimensions())
    }
}

/// Writes these one space apart.
fn spaced<T: fmt::Display>(f: &mut fmt::Formatter, values: impl Iterator<Item = T>) -> fmt::Result {
    for (place, value) in values.enumerate() {
        if place > 0 {
            f.write_str(" ")?;
        }
        value.fmt(f)?;
    }
    Ok(())
}

/// What the source may do.
#[derive(Clone, Copy, Debug, PartialEq, Eq, Hash)]
pub struct Decision {
    /// How the message gets to its destination.
    pub kind: Kind,
    /// The dimensions for the first hop; none at home.
    pub offer: Offer,
    /// The hops from source to destination.
    pub hops: u32,
}

/// What a later node may do.
#[derive(Clone, Copy, Debug, PartialEq, Eq, Hash)]
pub enum Step {
    /// The message is at its destination.
    Arrived,
    /// The dimensions for the next hop.
    Offered(Offer),
}

/// A message's way from source to destination.
///
/// ```
/// use deruvain::{Node, Report};
///
/// let journey = Report::healthy(4)?.journey(&[0; 5], Node(1), Node(12))?;
/// assert_eq!(journey.to_string(), "assured, 3 hops: 1 0 4 12");
/// # Ok::<(), deruvain::Refusal>(())
/// ```
#[derive(Clone, Debug, PartialEq, Eq, Hash)]
pub struct Journey {
    /// How the message gets to its destination.
    pub kind: Kind,
    /// The dimensions that the source had to choose from.
    pub offer: Offer,
    /// The nodes, from the source to the destination.
    pub path: Vec<Node>,
}

impl Journey {
    /// The number of hops: the nodes of the path less one.
    pub fn hops(&self) -> usize {
        self.path.len().saturating_sub(1)
    }
}

impl fmt::Display for Journey {
    fn fmt(&self, f: &mut fmt::Formatter) -> fmt::Result {
        let hops = self.hops();
        write!(f, "{}, {hops} {}: ", self.kind, if hops == 1 { "hop" } else { "hops" })?;
        spaced(f, self.path.iter())
    }
}
