//! How a field is named: the id of its node, and its place there.
#![forbid(unsafe_code)]

use std::fmt;

/// The id of a node, as its N line has it.
///
/// ```
/// use kitlubas::NodeId;
///
/// assert_eq!(NodeId::from(7), NodeId(7));
/// assert_eq!(NodeId(7).to_string(), "7");
/// ```
#[derive(Clone, Copy, Debug, PartialEq, Eq, PartialOrd, Ord, Hash)]
pub struct NodeId(pub u64);

/// The place of a field, from 0, among the slots and groups of its node.
///
/// ```
/// use kitlubas::Place;
///
/// assert_eq!(Place::from(0), Place(0));
/// assert_eq!(u64::from(Place(3)), 3);
/// ```
#[derive(Clone, Copy, Debug, PartialEq, Eq, PartialOrd, Ord, Hash)]
pub struct Place(pub u64);

impl From<u64> for NodeId {
    fn from(id: u64) -> NodeId {
        NodeId(id)
    }
}

impl From<NodeId> for u64 {
    fn from(id: NodeId) -> u64 {
        id.0
    }
}

impl From<u64> for Place {
    fn from(place: u64) -> Place {
        Place(place)
    }
}

impl From<Place> for u64 {
    fn from(place: Place) -> u64 {
        place.0
    }
}

impl fmt::Display for NodeId {
    fn fmt(&self, f: &mut fmt::Formatter<'_>) -> fmt::Result {
        self.0.fmt(f)
    }
}

impl fmt::Display for Place {
    fn fmt(&self, f: &mut fmt::Formatter<'_>) -> fmt::Result {
        self.0.fmt(f)
    }
}
