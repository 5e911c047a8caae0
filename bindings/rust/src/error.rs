//! Statuses of the library as errors, with what was wrong where.
use std::fmt;

/// What is wrong: a negative status of the library.
#[derive(Clone, Copy, Debug, PartialEq, Eq, Hash)]
#[non_exhaustive]
pub enum ErrorKind {
    /// Memory ran out, or a glob has 1,048,576 states or more.
    Memory,
    /// Ends descend, or exceed the length of the list that they divide.
    Ends,
    /// A buffer for results is too short. These functions pass buffers that are long enough, so it does not occur.
    Length,
    /// A string is not well-formed: hex or a glob.
    Syntax,
    /// A merge has an even number of terms.
    Terms,
    /// A merge resolves to no term. [`resolve`](crate::resolve) returns `None` instead, so it does not occur.
    Conflict,
    /// A node is not below the number of nodes.
    Node,
    /// The graph has a cycle.
    Cycle,
    /// A string is no repository path: it is not UTF-8, or has an empty component.
    Path,
    /// A string is no expression of a file set.
    Expression,
    /// No id matches a prefix. [`resolve_prefix`](crate::resolve_prefix) returns `None` instead, so it does not occur.
    NoMatch,
    /// Several ids match a prefix.
    Ambiguous,
    /// A status that this crate does not know: its declarations are not those of the library.
    Unknown(i64),
}

impl ErrorKind {
    pub(crate) fn of_status(status: i64) -> ErrorKind {
        match status {
            -1 => ErrorKind::Memory,
            -2 => ErrorKind::Ends,
            -3 => ErrorKind::Length,
            -4 => ErrorKind::Syntax,
            -5 => ErrorKind::Terms,
            -6 => ErrorKind::Conflict,
            -7 => ErrorKind::Node,
            -8 => ErrorKind::Cycle,
            -9 => ErrorKind::Path,
            -10 => ErrorKind::Expression,
            -11 => ErrorKind::NoMatch,
            -12 => ErrorKind::Ambiguous,
            other => ErrorKind::Unknown(other),
        }
    }
}

/// Why a call failed: the kind of the error and, where they are known, the index of the wrong item and the length that it is held against.
///
/// ```
/// use jj_core_verified::{heads, ErrorKind, Graph};
/// let error = heads(&Graph::new(&[vec![], vec![0]]), &[1, 7]).unwrap_err();
/// assert_eq!((error.kind(), error.index(), error.length()), (ErrorKind::Node, Some(1), Some(2)));
/// assert_eq!(error.to_string(), "the node at index 1 is not below 2, the number of nodes");
/// ```
#[derive(Clone, Copy, Debug, PartialEq, Eq)]
pub struct Error {
    pub(crate) kind: ErrorKind,
    pub(crate) index: Option<usize>,
    pub(crate) length: Option<usize>,
}

impl Error {
    pub(crate) fn new(kind: ErrorKind, index: Option<usize>, length: Option<usize>) -> Error {
        Error { kind, index, length }
    }

    /// What is wrong.
    ///
    /// ```
    /// use jj_core_verified::{simplify, ErrorKind, Joined};
    /// assert_eq!(simplify(&Joined::new(&["a", "b"])).unwrap_err().kind(), ErrorKind::Terms);
    /// ```
    pub fn kind(&self) -> ErrorKind {
        self.kind
    }

    /// The index of the first wrong item, where it is known: of a digit, a path, an end, a node in the list of nodes or of targets, a node on
    /// a cycle, or a merge in a merge of merges.
    ///
    /// ```
    /// use jj_core_verified::hex_decode;
    /// assert_eq!(hex_decode("01g2", false).unwrap_err().index(), Some(2));
    /// ```
    pub fn index(&self) -> Option<usize> {
        self.index
    }

    /// The length of what the item is in, or is held against, where it is known: of a string in bytes, of a list, of a merge, or the number
    /// of nodes.
    ///
    /// ```
    /// use jj_core_verified::hex_decode;
    /// assert_eq!(hex_decode("012", false).unwrap_err().length(), Some(3));
    /// ```
    pub fn length(&self) -> Option<usize> {
        self.length
    }
}

impl fmt::Display for Error {
    fn fmt(&self, f: &mut fmt::Formatter<'_>) -> fmt::Result {
        match (self.kind, self.index, self.length) {
            (ErrorKind::Memory, ..) => write!(f, "out of memory"),
            (ErrorKind::Ends, Some(index), Some(length)) => write!(f, "the end at index {index} descends, or exceeds the length {length}"),
            (ErrorKind::Ends, ..) => write!(f, "ends descend, or exceed the list"),
            (ErrorKind::Length, ..) => write!(f, "buffer too short"),
            (ErrorKind::Syntax, Some(index), _) => write!(f, "the character at index {index} is no digit"),
            (ErrorKind::Syntax, None, Some(length)) => write!(f, "malformed string of {length} bytes"),
            (ErrorKind::Syntax, ..) => write!(f, "malformed string"),
            (ErrorKind::Terms, Some(index), Some(length)) => write!(f, "the merge at index {index} has {length} terms, an even number"),
            (ErrorKind::Terms, _, Some(length)) => write!(f, "a merge of {length} terms, an even number"),
            (ErrorKind::Terms, ..) => write!(f, "a merge with an even number of terms"),
            (ErrorKind::Conflict, ..) => write!(f, "unresolved conflict"),
            (ErrorKind::Node, Some(index), Some(length)) => write!(f, "the node at index {index} is not below {length}, the number of nodes"),
            (ErrorKind::Node, ..) => write!(f, "node out of range"),
            (ErrorKind::Cycle, Some(index), _) => write!(f, "node {index} is on a cycle"),
            (ErrorKind::Cycle, ..) => write!(f, "cycle in the graph"),
            (ErrorKind::Path, Some(index), _) => write!(f, "the string at index {index} is no path: it is not UTF-8, or has an empty component"),
            (ErrorKind::Path, ..) => write!(f, "invalid path"),
            (ErrorKind::Expression, _, Some(length)) => write!(f, "malformed expression of {length} bytes"),
            (ErrorKind::Expression, ..) => write!(f, "malformed expression"),
            (ErrorKind::NoMatch, ..) => write!(f, "no id matches the prefix"),
            (ErrorKind::Ambiguous, ..) => write!(f, "several ids match the prefix"),
            (ErrorKind::Unknown(status), ..) => write!(f, "unknown status {status}"),
        }
    }
}

impl std::error::Error for Error {}

/// The number that a call returned, or the error that `explain` makes of its kind.
pub(crate) fn number(status: i64, explain: impl FnOnce(ErrorKind) -> Error) -> Result<usize, Error> {
    usize::try_from(status).map_err(|_| match ErrorKind::of_status(status) {
        ErrorKind::Memory => Error::new(ErrorKind::Memory, None, None),
        kind => explain(kind),
    })
}

/// An error of which no more than the kind is known.
pub(crate) fn only(kind: ErrorKind) -> Error {
    Error::new(kind, None, None)
}
