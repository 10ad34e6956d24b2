//! Who made a row of a programme.
use std::fmt;

/// Where the makers stand in `shape`, and the words of each: kind, index, how many share the row.
pub(crate) const MAKERS_AT: usize = 19723;
pub(crate) const MAKER_WIDTH: usize = 3;

/// A row's first maker, and how many makers share the row: [`Store::maker`](crate::Store::maker).
///
/// It is shown in the words of the program `namer`:
///
/// ```
/// use pywr::{Maker, MakerKind};
///
/// let licence = Maker { kind: MakerKind::VirtualStorage, index: 0, shared_by: 2 };
/// assert_eq!(format!("row 7: {licence}"), "row 7: virtual storage 0, shared by 2");
/// assert_eq!(Maker { kind: MakerKind::Mass, index: 4, shared_by: 1 }.to_string(), "mass balance of node 4");
/// ```
#[derive(Debug, Clone, Copy, PartialEq, Eq, Hash)]
pub struct Maker {
    pub kind: MakerKind,
    /// Counts the network file's nodes, aggregates or virtual storages, from 0: the kind says which.
    pub index: usize,
    /// One that asked for the row twice counts twice. Fixed rows have one maker.
    pub shared_by: usize,
}

/// What makes rows. The numbers are those of `shape` and of the lister's `R` lines.
#[derive(Debug, Clone, Copy, PartialEq, Eq, Hash)]
#[repr(u16)]
pub enum MakerKind {
    /// The mass balance of a link; the index is the node's.
    Mass = 0,
    /// A node, exclusive ones too; the index is the node's.
    Node = 1,
    /// An aggregate, plain or exclusive; the index is the aggregate's.
    Aggregate = 2,
    /// A virtual storage; the index is the virtual storage's.
    VirtualStorage = 3,
    /// How many sets of an exclusive aggregate are on; the index is the aggregate's.
    Exclusivity = 4,
}

const KINDS: [MakerKind; 5] =
    [MakerKind::Mass, MakerKind::Node, MakerKind::Aggregate, MakerKind::VirtualStorage, MakerKind::Exclusivity];

impl MakerKind {
    /// The words of the kind, which the index follows. The C header has the same.
    pub fn text(self) -> &'static str {
        match self {
            Self::Mass => "mass balance of node",
            Self::Node => "node",
            Self::Aggregate => "aggregate",
            Self::VirtualStorage => "virtual storage",
            Self::Exclusivity => "exclusivity of aggregate",
        }
    }
}

impl Maker {
    /// None where the first word is no kind.
    pub(crate) fn of_words([kind, index, shared_by]: [u16; MAKER_WIDTH]) -> Option<Self> {
        let kind = *KINDS.get(kind as usize)?;
        Some(Self { kind, index: index as usize, shared_by: shared_by as usize })
    }
}

impl fmt::Display for MakerKind {
    fn fmt(&self, f: &mut fmt::Formatter<'_>) -> fmt::Result {
        f.write_str(self.text())
    }
}

impl fmt::Display for Maker {
    fn fmt(&self, f: &mut fmt::Formatter<'_>) -> fmt::Result {
        write!(f, "{} {}", self.kind, self.index)?;
        if self.shared_by == 1 { Ok(()) } else { write!(f, ", shared by {}", self.shared_by) }
    }
}
