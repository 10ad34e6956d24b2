//! Refusals: document 01's number with its words, and the place with what it is.
use std::fmt;

/// Document 01's number, and the place.
#[repr(C)]
#[derive(Debug, Clone, Copy, PartialEq, Eq)]
pub struct Refusal {
    pub number: u64,
    pub place: u64,
}

/// What a place is.
#[derive(Debug, Clone, Copy, PartialEq, Eq)]
pub enum Place {
    /// The offset of a record; for 12 also of the first byte left over; for 5, 19 and 20 of an edge's `from` field, which its `to` field follows.
    Byte,
    Node,
    Row,
}

/// The words and the kind of place of each number; without one, the place is 0. The C header has the same.
const REFUSALS: [(&str, Option<Place>); 22] = [
    ("accepted", None),
    ("file ends inside a mark or field", Some(Place::Byte)),
    ("unknown or out-of-order mark", Some(Place::Byte)),
    ("value outside its range, NaN, or min_active over max_active", Some(Place::Byte)),
    ("node index not under the node count", Some(Place::Byte)),
    ("edge into an input or out of an output", Some(Place::Byte)),
    ("a record beyond its maximum", Some(Place::Byte)),
    ("no edges", None),
    ("link without incoming or outgoing edge", Some(Place::Node)),
    ("constant min over max", Some(Place::Node)),
    ("exclusive constant max -infinity or min +infinity", Some(Place::Node)),
    ("programme over its ceilings", None),
    ("step file short, wrongly marked, or with bytes left over", Some(Place::Byte)),
    ("value outside its range, or NaN", Some(Place::Byte)),
    ("varying node's lower over upper", Some(Place::Node)),
    ("retired, never answered", None),
    ("a buffer of store, work or output under the length its ceilings need", None),
    ("store misshapen", None),
    ("row not under the count", Some(Place::Row)),
    ("edge from a node to itself", Some(Place::Byte)),
    ("edge repeating the pair of an earlier edge", Some(Place::Byte)),
    ("varying exclusive node's bound at or beyond a sentinel", Some(Place::Node)),
];

impl Refusal {
    fn entry(&self) -> Option<&'static (&'static str, Option<Place>)> {
        REFUSALS.get(usize::try_from(self.number).ok()?)
    }

    /// Document 01's words for the number.
    pub fn text(&self) -> &'static str {
        self.entry().map_or("unknown refusal", |entry| entry.0)
    }

    /// What the place is, or none where it is always 0.
    pub fn place_kind(&self) -> Option<Place> {
        self.entry()?.1
    }
}

impl Place {
    pub fn text(self) -> &'static str {
        match self {
            Self::Byte => "byte",
            Self::Node => "node",
            Self::Row => "row",
        }
    }
}

impl fmt::Display for Refusal {
    fn fmt(&self, f: &mut fmt::Formatter<'_>) -> fmt::Result {
        write!(f, "{} at {}: {}", self.number, self.place, self.text())?;
        match self.place_kind() {
            Some(kind) => write!(f, ", {} {}", kind.text(), self.place),
            None => Ok(()),
        }
    }
}

impl std::error::Error for Refusal {}
