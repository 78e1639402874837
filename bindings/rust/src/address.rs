use std::fmt;

/// The weight of a dimension in an address; 0 outside 1 to 10.
fn weight(dimension: u32) -> u16 {
    match dimension {
        1..=10 => 1 << (dimension - 1),
        _ => 0,
    }
}

/// A node of the cube by its number.
///
/// ```
/// use deruvain::{Node, Relative};
///
/// assert_eq!(Node(1).to(Node(12)), Relative(13));
/// assert_eq!(Node(1).at(Relative(13)), Node(12));
/// assert_eq!(Node(1).neighbour(4), Node(9));
/// assert_eq!(Node::from(7), Node(7));
/// assert_eq!(["a", "b"][usize::from(Node(1))], "b");
/// ```
///
/// A node is no relative address:
///
/// ```compile_fail
/// use deruvain::{Node, Relative};
///
/// let relative: Relative = Node(1);
/// ```
#[derive(Clone, Copy, Debug, PartialEq, Eq, PartialOrd, Ord, Hash)]
pub struct Node(
    /// The number, from 0.
    pub u16,
);

impl Node {
    /// The relative address of this node and a destination: their exclusive or.
    pub fn to(self, destination: Node) -> Relative {
        Relative(self.0 ^ destination.0)
    }

    /// The destination that has this relative address here.
    pub fn at(self, relative: Relative) -> Node {
        Node(self.0 ^ relative.0)
    }

    /// The neighbour along a dimension; outside 1 to 10 the node itself.
    pub fn neighbour(self, dimension: u32) -> Node {
        Node(self.0 ^ weight(dimension))
    }
}

/// A number as an address and back, both as decimal digits.
macro_rules! numbers {
    ($($address:ident)*) => {$(
        impl From<u16> for $address {
            fn from(number: u16) -> $address {
                $address(number)
            }
        }

        impl From<$address> for u16 {
            fn from(address: $address) -> u16 {
                address.0
            }
        }

        impl fmt::Display for $address {
            fn fmt(&self, f: &mut fmt::Formatter) -> fmt::Result {
                self.0.fmt(f)
            }
        }
    )*};
}

numbers!(Node Relative);

/// The node's place in the slices of a report.
impl From<Node> for usize {
    fn from(node: Node) -> usize {
        node.0.into()
    }
}

/// A relative address: the dimensions still to cross.
///
/// ```
/// use deruvain::Relative;
///
/// let relative = Relative(0b1101);
/// assert_eq!(relative.weight(), 3);
/// assert_eq!(relative.crossed(3), Relative(0b1001));
/// assert_eq!(relative.crossed(11), relative);
/// assert!(Relative(0b1000).crossed(4).arrived());
/// ```
#[derive(Clone, Copy, Debug, PartialEq, Eq, PartialOrd, Ord, Hash)]
pub struct Relative(
    /// The dimensions as bits, dimension i at weight 2^(i−1).
    pub u16,
);

impl Relative {
    /// How many dimensions differ: the distance.
    pub fn weight(self) -> u32 {
        self.0.count_ones()
    }

    /// The relative address with one dimension crossed; outside 1 to 10 the same one.
    pub fn crossed(self, dimension: u32) -> Relative {
        Relative(self.0 ^ weight(dimension))
    }

    /// Whether nothing is left to cross.
    pub fn arrived(self) -> bool {
        self.0 == 0
    }
}
