use crate::NoSuchNumber;
use std::fmt;

/// Says each refusal once: its number, its name and its words.
macro_rules! refusals {
    ($($number:literal $name:ident $words:literal)*) => {
        /// Why a job refused.
        ///
        /// Its `Display` says why, its `Debug` the number and the name too: so does a `main` that returns it.
        ///
        /// ```
        /// use deruvain::Refusal;
        ///
        /// assert_eq!(Refusal::NoRoute.number(), 7);
        /// assert_eq!(Refusal::NoRoute.to_string(), "there is no route by the rules");
        /// assert_eq!(format!("{:?}", Refusal::NoRoute), "refused by 7 (NoRoute): there is no route by the rules");
        /// assert_eq!(Refusal::try_from(7), Ok(Refusal::NoRoute));
        /// assert_eq!(Refusal::of(0), None);
        /// ```
        #[derive(Clone, Copy, PartialEq, Eq, PartialOrd, Ord, Hash)]
        #[non_exhaustive]
        pub enum Refusal {
            $(#[doc = concat!($number, ": ", $words, ".")] $name = $number,)*
        }

        impl Refusal {
            /// Every refusal, in the order of the numbers.
            pub const ALL: &'static [Refusal] = &[$(Refusal::$name),*];

            fn name(self) -> &'static str {
                match self {
                    $(Refusal::$name => stringify!($name),)*
                }
            }

            fn words(self) -> &'static str {
                match self {
                    $(Refusal::$name => $words,)*
                }
            }
        }
    };
}

refusals! {
    1 Dimension "n is not 1 to 10"
    2 Length "the status bytes, link words or vectors are not 2^n, or picks, path or a lent slice are too short"
    3 LinkWord "a link word has a bit at weight 2^n or above"
    4 Address "a node or a relative address is not below 2^n"
    5 Source "the source, or the node at a hop, is not working"
    6 Destination "the destination is not working"
    7 NoRoute "there is no route by the rules"
    8 NotBorneOut "the source's own bit promises a path, and no neighbour bears it out"
    9 NothingToOffer "a later node has no dimension to offer"
    10 Malformed "the record is malformed"
    11 LogRecord "a record of the log is cut short, or of another length or kind"
    12 LogNode "a record of the log has a node that is not below 2^n"
}

impl Refusal {
    /// The number, as the C interface gives it.
    pub fn number(self) -> u32 {
        self as u32
    }

    /// The refusal of this number, if there is one.
    pub fn of(number: u32) -> Option<Refusal> {
        Refusal::ALL.iter().copied().find(|refusal| refusal.number() == number)
    }

    /// `Ok` for 0, else the refusal that the library gave.
    pub(crate) fn check(number: u32) -> Result<(), Refusal> {
        match number {
            0 => Ok(()),
            _ => Err(Refusal::of(number).expect("the library refuses by numbers of this crate")),
        }
    }
}

impl TryFrom<u32> for Refusal {
    type Error = NoSuchNumber;

    fn try_from(number: u32) -> Result<Refusal, NoSuchNumber> {
        Refusal::of(number).ok_or(NoSuchNumber::new("refusal", number))
    }
}

impl From<Refusal> for u32 {
    fn from(refusal: Refusal) -> u32 {
        refusal.number()
    }
}

impl fmt::Display for Refusal {
    fn fmt(&self, f: &mut fmt::Formatter) -> fmt::Result {
        f.pad(self.words())
    }
}

impl fmt::Debug for Refusal {
    fn fmt(&self, f: &mut fmt::Formatter) -> fmt::Result {
        write!(f, "refused by {} ({}): {}", self.number(), self.name(), self.words())
    }
}

impl std::error::Error for Refusal {}
