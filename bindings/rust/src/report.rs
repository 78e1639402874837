use crate::{
    byte, raw, Class, Decision, Journey, Kind, Node, Offer, Refusal, Relative, Step, LARGEST_N, LARGEST_NODES,
};

/// What is known of a cabinet: a status byte and a link word for each node of a cube.
///
/// Nothing is checked when a report is made. Each job refuses a report that it cannot use.
///
/// ```
/// use deruvain::{Node, Refusal, Report};
///
/// let report = Report { n: 1, status: vec![1, 1], links: vec![0] };
/// assert_eq!(report.journey(&[0; 2], Node(0), Node(1)), Err(Refusal::Length));
/// ```
#[derive(Clone, Debug, PartialEq, Eq, Hash)]
pub struct Report {
    /// The dimension, 1 to 10.
    pub n: u32,
    /// One byte for each node: 1 to 4 for a working one (see [`Class`] and [`byte`](crate::byte)).
    pub status: Vec<u8>,
    /// One word for each node: the bit of weight 2^(i−1) marks its link along dimension i. A link
    /// counts as faulty if the word of either end marks it, also of an end that isn't working.
    pub links: Vec<u16>,
}

/// The vectors of all nodes, from [`Report::fill`] or gathered elsewhere.
///
/// ```
/// use deruvain::{Node, Report, Vectors};
///
/// # fn main() -> Result<(), deruvain::Refusal> {
/// let vectors = Report::healthy(2)?.fill()?;
/// assert!(vectors.bit(Node(0), 2));
/// assert_eq!(vectors, Vectors(vec![3; 4]));
/// # Ok(())
/// # }
/// ```
#[derive(Clone, Debug, PartialEq, Eq, Hash)]
pub struct Vectors(
    /// One word for each node, bit k at weight 2^(k−1).
    pub Vec<u16>,
);

impl From<Vec<u16>> for Vectors {
    fn from(words: Vec<u16>) -> Vectors {
        Vectors(words)
    }
}

impl From<Vectors> for Vec<u16> {
    fn from(vectors: Vectors) -> Vec<u16> {
        vectors.0
    }
}

impl Vectors {
    /// Bit k, from 1, of a node; false where there is no such bit or node.
    pub fn bit(&self, node: Node, k: u32) -> bool {
        let word = self.0.get(node.0 as usize).copied().unwrap_or(0);
        (1..=16).contains(&k) && word >> (k - 1) & 1 == 1
    }
}

impl Report {
    /// A cube of dimension n in which every board was just heard and no link is marked.
    ///
    /// ```
    /// use deruvain::{Refusal, Report};
    ///
    /// assert_eq!(Report::healthy(3)?.status, [1; 8]);
    /// assert_eq!(Report::healthy(11), Err(Refusal::Dimension));
    /// # Ok::<(), Refusal>(())
    /// ```
    pub fn healthy(n: u32) -> Result<Report, Refusal> {
        if !(1..=LARGEST_N).contains(&n) {
            return Err(Refusal::Dimension);
        }
        Ok(Report { n, status: vec![byte::HEARD; 1 << n], links: vec![0; 1 << n] })
    }

    /// Reads a record.
    ///
    /// ```
    /// use deruvain::{Class, Node, Refusal, Report};
    ///
    /// let record = [0x0f, 0, 1, 0, 2, 1, 1, 0, 1, 0, 0, 0, 0, 0, 0, 0, 0];
    /// let report = Report::open(&record)?;
    /// assert_eq!(report.n, 2);
    /// assert_eq!(report.class(Node(2)), Some(Class::Silent));
    /// assert_eq!(Report::open(&record[1..]), Err(Refusal::Malformed));
    /// # Ok::<(), Refusal>(())
    /// ```
    pub fn open(record: &[u8]) -> Result<Report, Refusal> {
        let mut status = vec![0; LARGEST_NODES];
        let mut links = vec![0; LARGEST_NODES];
        let opened = raw::open(record, &mut status, &mut links);
        Refusal::check(opened.refusal)?;
        status.truncate(1 << opened.n);
        links.truncate(1 << opened.n);
        Ok(Report { n: opened.n, status, links })
    }

    /// Writes the status bytes from a status log, as they are in the present sweep. Gives how many
    /// of the log's records are from the future; these are skipped. After a refusal the report is
    /// as it was.
    ///
    /// ```
    /// use deruvain::{Refusal, Report};
    ///
    /// let mut report = Report::healthy(1)?;
    /// let log = [6, 0, 2, 0, 0xff, 0xff, 1, 0, 6, 0, 2, 0, 3, 0, 0, 0];
    /// assert_eq!(report.refresh(2, &log), Ok(1));
    /// assert_eq!(report.status, [0, 4]);
    /// assert_eq!(report.refresh(2, &log[1..]), Err(Refusal::LogRecord));
    /// # Ok::<(), Refusal>(())
    /// ```
    pub fn refresh(&mut self, sweep: u16, log: &[u8]) -> Result<usize, Refusal> {
        let refreshed = raw::refresh(self.n, sweep, log, &mut self.status);
        Refusal::check(refreshed.refusal)?;
        Ok(refreshed.skipped)
    }

    /// [`refresh`](Report::refresh) for a log that comes in parts, each of whole records: takes one
    /// more part into the status bytes. Before the first part make them all silent. Gives how many
    /// records of this part are from the future. After a refusal the report is as the earlier
    /// parts left it.
    ///
    /// ```
    /// use deruvain::{byte, Refusal, Report};
    ///
    /// let log = [6, 0, 2, 0, 0xff, 0xff, 1, 0, 6, 0, 2, 0, 2, 0, 0, 0];
    /// let mut report = Report::healthy(1)?;
    /// report.status.fill(byte::SILENT);
    /// let mut skipped = 0;
    /// for part in log.chunks(8) {
    ///     skipped += report.update(2, part)?;
    /// }
    /// assert_eq!((report.status, skipped), (vec![1, 4], 0));
    /// # Ok::<(), Refusal>(())
    /// ```
    pub fn update(&mut self, sweep: u16, part: &[u8]) -> Result<usize, Refusal> {
        let updated = raw::update(self.n, sweep, part, &mut self.status);
        Refusal::check(updated.refusal)?;
        Ok(updated.skipped)
    }

    /// Writes the status bytes into a record of a cabinet of this size; its link words stay. A
    /// record that [`open`](Report::open) refuses is refused likewise, one of another n by
    /// [`Refusal::Length`], and is then as it was.
    ///
    /// ```
    /// use deruvain::{byte, Refusal, Report};
    ///
    /// let mut record = [9, 0, 1, 0, 1, 1, 1, 0, 0, 1, 0];
    /// let mut report = Report::open(&record)?;
    /// report.status[0] = byte::DOWN;
    /// report.restate(&mut record)?;
    /// assert_eq!(record, [9, 0, 1, 0, 1, 254, 1, 0, 0, 1, 0]);
    /// assert_eq!(Report::open(&record)?, report);
    /// # Ok::<(), Refusal>(())
    /// ```
    pub fn restate(&self, record: &mut [u8]) -> Result<(), Refusal> {
        let read = Report::open(record)?;
        if self.n != read.n || self.status.len() != read.status.len() {
            return Err(Refusal::Length);
        }
        Refusal::check(raw::restate(record, &self.status))
    }

    /// The class of a node's board, if the report has the node.
    pub fn class(&self, node: Node) -> Option<Class> {
        self.status.get(node.0 as usize).map(|&byte| Class::of(byte))
    }

    /// Marks the link of a node along a dimension as faulty, in the word of that node. A node that
    /// the report lacks, or a dimension outside 1 to 10, changes nothing.
    ///
    /// ```
    /// use deruvain::{Node, Refusal, Report};
    ///
    /// let mut report = Report::healthy(1)?;
    /// report.mark(Node(1), 1);
    /// assert_eq!(report.links, [0, 1]);
    /// assert_eq!(report.journey(&[0; 2], Node(0), Node(1)), Err(Refusal::NoRoute));
    /// # Ok::<(), Refusal>(())
    /// ```
    pub fn mark(&mut self, node: Node, dimension: u32) {
        if let Some(word) = self.links.get_mut(node.0 as usize) {
            *word |= node.to(node.neighbour(dimension)).0;
        }
    }

    /// The vectors of all nodes.
    ///
    /// ```
    /// use deruvain::{Refusal, Report};
    ///
    /// let mut report = Report::healthy(2)?;
    /// report.status[2] = 0;
    /// assert_eq!(report.fill()?.0, [3, 3, 0, 3]);
    /// report.links[1] = 4;
    /// assert_eq!(report.fill(), Err(Refusal::LinkWord));
    /// # Ok::<(), Refusal>(())
    /// ```
    pub fn fill(&self) -> Result<Vectors, Refusal> {
        let mut vectors = self.room_for_vectors();
        Refusal::check(raw::fill(self.n, &self.status, &self.links, &mut vectors))?;
        Ok(Vectors(vectors))
    }

    /// What the source may do for a message to the destination, by the vectors as they are.
    ///
    /// ```
    /// use deruvain::{Kind, Node, Report};
    ///
    /// let report = Report::healthy(3)?;
    /// let decision = report.decide(&report.fill()?, Node(0), Node(5))?;
    /// assert_eq!((decision.kind, decision.hops), (Kind::Assured, 2));
    /// assert!(decision.offer.dimensions().eq([1, 3]));
    /// # Ok::<(), deruvain::Refusal>(())
    /// ```
    pub fn decide(&self, vectors: &Vectors, source: Node, destination: Node) -> Result<Decision, Refusal> {
        let answer = raw::decide(self.n, &self.status, &self.links, &vectors.0, source.0, destination.0);
        Refusal::check(answer.refusal)?;
        Ok(Decision { kind: Kind::of(answer.kind), offer: Offer::of(answer.mask), hops: answer.hops })
    }

    /// What a later node may do for a message with this relative address, by the vectors as they
    /// are.
    ///
    /// A message that takes the lowest offered dimension each time:
    ///
    /// ```
    /// use deruvain::{Node, Report, Step};
    ///
    /// let report = Report::healthy(4)?;
    /// let vectors = report.fill()?;
    /// let (mut node, destination) = (Node(1), Node(12));
    /// let mut step = Step::Offered(report.decide(&vectors, node, destination)?.offer);
    /// while let Step::Offered(offer) = step {
    ///     node = offer.dimensions().next().map_or(node, |i| node.neighbour(i));
    ///     step = report.hop(&vectors, node, node.to(destination))?;
    /// }
    /// assert_eq!(node, destination);
    /// # Ok::<(), deruvain::Refusal>(())
    /// ```
    pub fn hop(&self, vectors: &Vectors, node: Node, relative: Relative) -> Result<Step, Refusal> {
        let answer = raw::hop(self.n, &self.status, &self.links, &vectors.0, node.0, relative.0);
        Refusal::check(answer.refusal)?;
        Ok(match answer.kind {
            0 => Step::Arrived,
            _ => Step::Offered(Offer::of(answer.mask)),
        })
    }

    /// The whole way from source to destination. At hop j, with c dimensions offered, it takes
    /// the offered dimension of rank (pick j mod c), rank 0 the lowest; there are at least n+1
    /// picks. It fills vectors of its own, so nothing refuses on the way: its refusals end at
    /// [`Refusal::NoRoute`].
    ///
    /// ```
    /// use deruvain::{Node, Report};
    ///
    /// let report = Report::healthy(2)?;
    /// let lowest_first = report.journey(&[0; 3], Node(0), Node(3))?;
    /// assert_eq!(lowest_first.path, [Node(0), Node(1), Node(3)]);
    /// let other_first = report.journey(&[1, 0, 0], Node(0), Node(3))?;
    /// assert_eq!(other_first.path, [Node(0), Node(2), Node(3)]);
    /// assert_eq!(other_first.hops(), 2);
    /// # Ok::<(), deruvain::Refusal>(())
    /// ```
    pub fn journey(&self, picks: &[u8], source: Node, destination: Node) -> Result<Journey, Refusal> {
        let mut vectors = self.room_for_vectors();
        let mut path = [0; LARGEST_N as usize + 2];
        let answer =
            raw::journey(self.n, &self.status, &self.links, &mut vectors, picks, &mut path, source.0, destination.0);
        Refusal::check(answer.refusal)?;
        let path = path[..=answer.hops as usize].iter().map(|&number| Node(number)).collect();
        Ok(Journey { kind: Kind::of(answer.kind), offer: Offer::of(answer.mask), path })
    }

    /// A word for each node of the cube, or of the largest one if n is larger.
    fn room_for_vectors(&self) -> Vec<u16> {
        vec![0; 1 << self.n.min(LARGEST_N)]
    }
}
