//! Lists of byte strings, and graphs, in the form that crosses to the library.
use crate::error::{Error, ErrorKind};

/// A list of byte strings as their concatenation, and the index at which each ends.
///
/// ```
/// use jj_core_verified::Joined;
/// let paths: Joined = ["src/a.rs", "README"].into_iter().collect();
/// assert_eq!(paths.iter().map(<[u8]>::len).collect::<Vec<_>>(), [8, 6]);
/// ```
#[derive(Clone, Debug, Default, PartialEq, Eq)]
pub struct Joined {
    pub(crate) bytes: Vec<u8>,
    pub(crate) ends: Vec<usize>,
}

impl Joined {
    /// Joins byte strings.
    ///
    /// ```
    /// use jj_core_verified::Joined;
    /// assert_eq!(Joined::new(&["ab", "", "c"]).len(), 3);
    /// ```
    pub fn new<T: AsRef<[u8]>>(items: &[T]) -> Joined {
        items.iter().collect()
    }

    /// Takes bytes that are joined already. Fails with [`ErrorKind::Ends`] if the ends descend or exceed the bytes; bytes after the last end
    /// are ignored.
    ///
    /// ```
    /// use jj_core_verified::{ErrorKind, Joined};
    /// assert_eq!(Joined::from_parts(b"abc".to_vec(), vec![2, 2, 3]), Ok(Joined::new(&["ab", "", "c"])));
    /// let error = Joined::from_parts(b"abc".to_vec(), vec![2, 1]).unwrap_err();
    /// assert_eq!((error.kind(), error.index(), error.length()), (ErrorKind::Ends, Some(1), Some(3)));
    /// ```
    pub fn from_parts(bytes: Vec<u8>, ends: Vec<usize>) -> Result<Joined, Error> {
        let starts = std::iter::once(&0).chain(&ends);
        match starts.zip(&ends).position(|(start, end)| start > end || *end > bytes.len()) {
            Some(index) => Err(Error::new(ErrorKind::Ends, Some(index), Some(bytes.len()))),
            None => Ok(Joined { bytes, ends }),
        }
    }

    /// Appends a byte string.
    ///
    /// ```
    /// use jj_core_verified::Joined;
    /// let mut paths = Joined::default();
    /// paths.push(b"a");
    /// assert_eq!(paths, Joined::new(&["a"]));
    /// ```
    pub fn push(&mut self, item: &[u8]) {
        self.bytes.truncate(self.ends.last().copied().unwrap_or(0));
        self.bytes.extend_from_slice(item);
        self.ends.push(self.bytes.len());
    }

    /// The number of byte strings.
    ///
    /// ```
    /// use jj_core_verified::Joined;
    /// assert_eq!(Joined::new(&["ab", ""]).len(), 2);
    /// ```
    pub fn len(&self) -> usize {
        self.ends.len()
    }

    /// Whether there is no byte string.
    ///
    /// ```
    /// use jj_core_verified::Joined;
    /// assert!(Joined::default().is_empty() && !Joined::new(&[""]).is_empty());
    /// ```
    pub fn is_empty(&self) -> bool {
        self.ends.is_empty()
    }

    /// The byte string at an index.
    ///
    /// ```
    /// use jj_core_verified::Joined;
    /// let paths = Joined::new(&["a", "bc"]);
    /// assert_eq!((paths.get(1), paths.get(2)), (Some(&b"bc"[..]), None));
    /// ```
    pub fn get(&self, index: usize) -> Option<&[u8]> {
        self.iter().nth(index)
    }

    /// Iterates over the byte strings.
    ///
    /// ```
    /// use jj_core_verified::Joined;
    /// assert!(Joined::new(&["a", "bc"]).iter().rev().eq([&b"bc"[..], b"a"]));
    /// ```
    pub fn iter(&self) -> Items<'_, u8> {
        Items { list: &self.bytes, ends: &self.ends, start: 0 }
    }

    /// Iterates over the byte strings that are chosen, as by the result of [`glob_matches`](crate::glob_matches),
    /// [`fileset_matches`](crate::fileset_matches) or [`walk`](crate::walk).
    ///
    /// ```
    /// use jj_core_verified::{fileset_matches, Joined};
    /// let paths = Joined::new(&["src/a.rs", "src/b.md", "c.rs"]);
    /// assert!(paths.select(&fileset_matches("src", &paths)?).eq([b"src/a.rs", b"src/b.md"]));
    /// # Ok::<(), jj_core_verified::Error>(())
    /// ```
    pub fn select<'a>(&'a self, chosen: &'a [bool]) -> impl Iterator<Item = &'a [u8]> + 'a {
        self.iter().zip(chosen).filter_map(|(item, chosen)| chosen.then_some(item))
    }

    // The first string that is no repository path, as an error of a call.
    pub(crate) fn path_error(&self) -> Option<Error> {
        let is_path = |item: &[u8]| item.is_empty() || std::str::from_utf8(item).is_ok_and(|it| it.split('/').all(|name| !name.is_empty()));
        let index = self.iter().position(|item| !is_path(item))?;
        Some(Error::new(ErrorKind::Path, Some(index), Some(self.len())))
    }

    // Why a merge of these terms is none.
    pub(crate) fn terms_error(&self, kind: ErrorKind) -> Error {
        Error::new(kind, None, Some(self.len()))
    }
}

impl<T: AsRef<[u8]>> Extend<T> for Joined {
    fn extend<I: IntoIterator<Item = T>>(&mut self, items: I) {
        items.into_iter().for_each(|item| self.push(item.as_ref()));
    }
}

impl<T: AsRef<[u8]>> FromIterator<T> for Joined {
    fn from_iter<I: IntoIterator<Item = T>>(items: I) -> Joined {
        let mut joined = Joined::default();
        joined.extend(items);
        joined
    }
}

impl<'a> IntoIterator for &'a Joined {
    type Item = &'a [u8];
    type IntoIter = Items<'a, u8>;

    fn into_iter(self) -> Items<'a, u8> {
        self.iter()
    }
}

/// Iterates over the byte strings of a [`Joined`], or over the targets of the nodes of a [`Graph`].
///
/// ```
/// use jj_core_verified::Joined;
/// let mut lengths = Vec::new();
/// for path in &Joined::new(&["a", "bc"]) {
///     lengths.push(path.len());
/// }
/// assert_eq!(lengths, [1, 2]);
/// ```
#[derive(Clone, Debug)]
pub struct Items<'a, T> {
    list: &'a [T],
    ends: &'a [usize],
    // The index at which the next item begins.
    start: usize,
}

impl<'a, T> Iterator for Items<'a, T> {
    type Item = &'a [T];

    fn next(&mut self) -> Option<&'a [T]> {
        self.nth(0)
    }

    fn nth(&mut self, index: usize) -> Option<&'a [T]> {
        let Some(end) = self.ends.get(index).copied() else {
            self.ends = &[];
            return None;
        };
        let start = index.checked_sub(1).map_or(self.start, |before| self.ends[before]);
        (self.ends, self.start) = (&self.ends[index + 1..], end);
        Some(&self.list[start..end])
    }

    fn size_hint(&self) -> (usize, Option<usize>) {
        (self.ends.len(), Some(self.ends.len()))
    }
}

impl<'a, T> DoubleEndedIterator for Items<'a, T> {
    fn next_back(&mut self) -> Option<&'a [T]> {
        let (end, ends) = self.ends.split_last()?;
        self.ends = ends;
        Some(&self.list[ends.last().copied().unwrap_or(self.start)..*end])
    }
}

impl<T> ExactSizeIterator for Items<'_, T> {}

impl<T> std::iter::FusedIterator for Items<'_, T> {}

/// A graph as joined lists of targets: node `n` has the `n`-th list.
///
/// ```
/// use jj_core_verified::Graph;
/// let parents: Graph = [vec![], vec![0], vec![0, 1]].into_iter().collect();
/// assert_eq!(parents.targets(2), [0, 1]);
/// ```
#[derive(Clone, Debug, Default, PartialEq, Eq)]
pub struct Graph {
    pub(crate) targets: Vec<usize>,
    pub(crate) ends: Vec<usize>,
}

impl Graph {
    /// The graph in which node `n` has the targets `lists[n]`.
    ///
    /// ```
    /// use jj_core_verified::Graph;
    /// assert_eq!(Graph::new(&[vec![], vec![0]]).len(), 2);
    /// ```
    pub fn new<T: AsRef<[usize]>>(lists: &[T]) -> Graph {
        lists.iter().collect()
    }

    /// Appends a node, and returns its number.
    ///
    /// ```
    /// use jj_core_verified::Graph;
    /// let mut parents = Graph::default();
    /// let root = parents.push(&[]);
    /// assert_eq!(parents.push(&[root]), 1);
    /// ```
    pub fn push(&mut self, targets: &[usize]) -> usize {
        self.targets.extend_from_slice(targets);
        self.ends.push(self.targets.len());
        self.ends.len() - 1
    }

    /// The number of nodes.
    ///
    /// ```
    /// use jj_core_verified::Graph;
    /// assert_eq!(Graph::default().len(), 0);
    /// ```
    pub fn len(&self) -> usize {
        self.ends.len()
    }

    /// Whether there is no node.
    ///
    /// ```
    /// use jj_core_verified::Graph;
    /// assert!(Graph::default().is_empty());
    /// ```
    pub fn is_empty(&self) -> bool {
        self.ends.is_empty()
    }

    /// Iterates over the targets of each node.
    ///
    /// ```
    /// use jj_core_verified::Graph;
    /// let parents = Graph::new(&[vec![], vec![0], vec![0, 1]]);
    /// assert_eq!(parents.iter().filter(|targets| targets.len() > 1).count(), 1);
    /// ```
    pub fn iter(&self) -> Items<'_, usize> {
        Items { list: &self.targets, ends: &self.ends, start: 0 }
    }

    /// The targets of a node. Panics if there is no such node.
    ///
    /// ```
    /// use jj_core_verified::Graph;
    /// assert_eq!(Graph::new(&[vec![], vec![0]]).targets(1), [0]);
    /// ```
    pub fn targets(&self, node: usize) -> &[usize] {
        let start = node.checked_sub(1).map_or(0, |before| self.ends[before]);
        &self.targets[start..self.ends[node]]
    }

    // Why a call failed: the first node that is out of range in the sets, else in the lists of targets; or a node on a cycle.
    pub(crate) fn error(&self, kind: ErrorKind, sets: &[&[usize]]) -> Error {
        let outside = |nodes: &[usize]| nodes.iter().position(|node| *node >= self.len());
        let index = match kind {
            ErrorKind::Node => sets.iter().find_map(|nodes| outside(nodes)).or_else(|| outside(&self.targets)),
            ErrorKind::Cycle if outside(&self.targets).is_none() => self.node_on_cycle(),
            _ => None,
        };
        Error::new(kind, index, Some(self.len()))
    }

    // Removes nodes without targets until each node that is left has one, and follows these until a node repeats.
    fn node_on_cycle(&self) -> Option<usize> {
        let mut above = vec![Vec::new(); self.len()];
        for (node, targets) in self.iter().enumerate() {
            targets.iter().for_each(|target| above[*target].push(node));
        }
        let mut left: Vec<usize> = self.iter().map(<[usize]>::len).collect();
        let mut ready: Vec<usize> = (0..self.len()).filter(|node| left[*node] == 0).collect();
        while let Some(node) = ready.pop() {
            for it in &above[node] {
                left[*it] -= 1;
                if left[*it] == 0 {
                    ready.push(*it);
                }
            }
        }
        let mut seen = vec![false; self.len()];
        let mut node = left.iter().position(|count| *count > 0)?;
        while !std::mem::replace(&mut seen[node], true) {
            node = *self.targets(node).iter().find(|target| left[**target] > 0)?;
        }
        Some(node)
    }
}

impl<'a> IntoIterator for &'a Graph {
    type Item = &'a [usize];
    type IntoIter = Items<'a, usize>;

    fn into_iter(self) -> Items<'a, usize> {
        self.iter()
    }
}

impl<T: AsRef<[usize]>> Extend<T> for Graph {
    fn extend<I: IntoIterator<Item = T>>(&mut self, lists: I) {
        lists.into_iter().for_each(|list| {
            self.push(list.as_ref());
        });
    }
}

impl<T: AsRef<[usize]>> FromIterator<T> for Graph {
    fn from_iter<I: IntoIterator<Item = T>>(lists: I) -> Graph {
        let mut graph = Graph::default();
        graph.extend(lists);
        graph
    }
}
