//! Digests, hex, globs, file sets, walks, conflicts and commit graphs of the Rust crate `jj-core`, from a library whose every function is
//! proved in Rattle.
//!
//! Each function takes slices and returns a `Result`. The library keeps no pointer, has no global state, and may be called from any
//! threads. Proved is the library; trusted are the declarations in `ffi.rs`, and what this crate passes to them.
//!
//! ```
//! use jj_core_verified::{closest_common, fileset_matches, resolve, Graph, Joined};
//! let paths = Joined::new(&["src/lib.rs", "README.md"]);
//! assert_eq!(fileset_matches("src & **/*.rs", &paths)?, [true, false]);
//! assert_eq!(resolve(&Joined::new(&["a", "b", "b"]), false)?, Some(0));
//! let parents = Graph::new(&[vec![], vec![0], vec![0]]);
//! assert_eq!(closest_common(&parents, &[1], &[2])?, [0]);
//! # Ok::<(), jj_core_verified::Error>(())
//! ```
#![warn(missing_docs)]

mod error;
mod ffi;
mod lists;

pub use error::{Error, ErrorKind};
use error::{number, only};
pub use lists::{Graph, Items, Joined};

/// The length of a digest.
pub const DIGEST_LENGTH: usize = 64;

fn digest(call: impl FnOnce(*mut u8, usize) -> i64) -> Result<[u8; DIGEST_LENGTH], Error> {
    let mut digest = [0; DIGEST_LENGTH];
    number(call(digest.as_mut_ptr(), digest.len()), only)?;
    Ok(digest)
}

// Calls with a buffer of `len` items, and returns those that were written.
fn filled<T: Clone + Default>(
    len: usize, explain: impl FnOnce(ErrorKind) -> Error, call: impl FnOnce(*mut T, usize) -> i64,
) -> Result<Vec<T>, Error> {
    let mut buffer = vec![T::default(); len];
    let written = number(call(buffer.as_mut_ptr(), buffer.len()), explain)?;
    buffer.truncate(written);
    Ok(buffer)
}

/// The BLAKE2b-512 digest of bytes.
///
/// ```
/// assert_eq!(jj_core_verified::hash(b"abc")?[..2], [0xba, 0x80]);
/// # Ok::<(), jj_core_verified::Error>(())
/// ```
pub fn hash(bytes: &[u8]) -> Result<[u8; DIGEST_LENGTH], Error> {
    digest(|out, len| unsafe { ffi::jj_hash(bytes.as_ptr(), bytes.len(), out, len) })
}

/// The digest of the content of a byte string: of its length as 8 bytes, little-endian, and then the bytes.
///
/// ```
/// use jj_core_verified::{content_hash, hash};
/// assert_eq!(content_hash(b"a")?, hash(b"\x01\0\0\0\0\0\0\0a")?);
/// # Ok::<(), jj_core_verified::Error>(())
/// ```
pub fn content_hash(bytes: &[u8]) -> Result<[u8; DIGEST_LENGTH], Error> {
    digest(|out, len| unsafe { ffi::jj_content_hash(bytes.as_ptr(), bytes.len(), out, len) })
}

/// The digest of the content of a list of byte strings: of their number as 8 bytes, and then the content of each.
///
/// ```
/// use jj_core_verified::{content_hash_list, hash, Joined};
/// assert_eq!(content_hash_list(&Joined::default())?, hash(&[0; 8])?);
/// # Ok::<(), jj_core_verified::Error>(())
/// ```
pub fn content_hash_list(list: &Joined) -> Result<[u8; DIGEST_LENGTH], Error> {
    digest(|out, len| unsafe {
        ffi::jj_content_hash_list(list.bytes.as_ptr(), list.bytes.len(), list.ends.as_ptr(), list.ends.len(), out, len)
    })
}

/// A BLAKE2b-512 hasher of a message that comes in pieces. It allocates nothing; a clone of it is a second hasher of the same message.
/// It is a `Write`, which never fails.
///
/// ```
/// use jj_core_verified::{hash, Hasher};
/// let mut hasher = Hasher::new();
/// hasher.update(b"ab");
/// std::io::copy(&mut &b"c"[..], &mut hasher)?;
/// assert_eq!(hasher.finish(), hash(b"abc")?);
/// # Ok::<(), Box<dyn std::error::Error>>(())
/// ```
#[derive(Clone, Debug)]
pub struct Hasher {
    state: ffi::JjHasher,
}

impl Hasher {
    /// A hasher of the empty message.
    ///
    /// ```
    /// use jj_core_verified::{hash, Hasher};
    /// assert_eq!(Hasher::new().finish(), hash(b"")?);
    /// # Ok::<(), jj_core_verified::Error>(())
    /// ```
    pub fn new() -> Hasher {
        let mut state = ffi::JjHasher { chaining: [0; 8], buffer: [0; 128], total_low: 0, total_high: 0, is_full: 0 };
        unsafe { ffi::jj_hasher_start(&mut state) };
        Hasher { state }
    }

    /// Appends bytes to the message.
    ///
    /// ```
    /// use jj_core_verified::{hash, Hasher};
    /// let mut hasher = Hasher::new();
    /// hasher.update(b"a");
    /// assert_eq!(hasher.finish(), hash(b"a")?);
    /// # Ok::<(), jj_core_verified::Error>(())
    /// ```
    pub fn update(&mut self, bytes: &[u8]) {
        unsafe { ffi::jj_hasher_update(&mut self.state, bytes.as_ptr(), bytes.len()) }
    }

    /// The digest of the message: of the bytes of all updates, in order. More can be appended afterwards.
    ///
    /// ```
    /// use jj_core_verified::Hasher;
    /// let hasher = Hasher::new();
    /// assert_eq!(hasher.finish(), hasher.clone().finish());
    /// ```
    pub fn finish(&self) -> [u8; DIGEST_LENGTH] {
        digest(|out, len| unsafe { ffi::jj_hasher_finish(&self.state, out, len) }).expect("the buffer has the length of a digest")
    }
}

impl Default for Hasher {
    fn default() -> Hasher {
        Hasher::new()
    }
}

impl std::io::Write for Hasher {
    fn write(&mut self, bytes: &[u8]) -> std::io::Result<usize> {
        self.update(bytes);
        Ok(bytes.len())
    }

    fn flush(&mut self) -> std::io::Result<()> {
        Ok(())
    }
}

// Why digits are none: the first character that is no digit, else their odd number.
fn digit_error(text: &str, reverse: bool) -> impl FnOnce(ErrorKind) -> Error + '_ {
    let is_digit = move |byte: u8| if reverse { matches!(byte | 32, b'k'..=b'z') } else { byte.is_ascii_hexdigit() };
    move |kind| Error::new(kind, text.bytes().position(|byte| !is_digit(byte)), Some(text.len()))
}

/// Encodes bytes as lower-case hex, or with `reverse` as reverse hex (`z` is 0, `k` is 15).
///
/// ```
/// use jj_core_verified::hex_encode;
/// assert_eq!((hex_encode(b"\x01\xef", false)?, hex_encode(b"\x01\xef", true)?), ("01ef".into(), "zylk".into()));
/// # Ok::<(), jj_core_verified::Error>(())
/// ```
pub fn hex_encode(bytes: &[u8], reverse: bool) -> Result<String, Error> {
    let digits = filled(2 * bytes.len(), only, |out, len| unsafe { ffi::jj_hex_encode(bytes.as_ptr(), bytes.len(), reverse, out, len) })?;
    String::from_utf8(digits).map_err(|_| only(ErrorKind::Syntax))
}

/// Decodes an even number of hex digits of either case.
///
/// ```
/// use jj_core_verified::hex_decode;
/// assert_eq!(hex_decode("01EF", false)?, [1, 0xef]);
/// assert_eq!(hex_decode("01g2", false).unwrap_err().to_string(), "the character at index 2 is no digit");
/// # Ok::<(), jj_core_verified::Error>(())
/// ```
pub fn hex_decode(text: &str, reverse: bool) -> Result<Vec<u8>, Error> {
    filled(text.len() / 2, digit_error(text, reverse), |out, len| unsafe {
        ffi::jj_hex_decode(text.as_ptr(), text.len(), reverse, out, len)
    })
}

/// Whether the hex of an id begins with these digits, of either case and any number.
///
/// ```
/// use jj_core_verified::hex_prefix_matches;
/// assert!(hex_prefix_matches("01e", false, &[1, 0xef])?);
/// # Ok::<(), jj_core_verified::Error>(())
/// ```
pub fn hex_prefix_matches(prefix: &str, reverse: bool, id: &[u8]) -> Result<bool, Error> {
    let status = unsafe { ffi::jj_hex_prefix_matches(prefix.as_ptr(), prefix.len(), reverse, id.as_ptr(), id.len()) };
    number(status, digit_error(prefix, reverse)).map(|n| n == 1)
}

/// The index of the only id whose hex begins with these digits, of either case and any number, or `None` if there is none.
///
/// ```
/// use jj_core_verified::{resolve_prefix, ErrorKind, Joined};
/// let ids = Joined::new(&[[1, 0xef], [1, 0xff]]);
/// assert_eq!((resolve_prefix("01e", false, &ids)?, resolve_prefix("2", false, &ids)?), (Some(0), None));
/// assert_eq!(resolve_prefix("01", false, &ids).unwrap_err().kind(), ErrorKind::Ambiguous);
/// # Ok::<(), jj_core_verified::Error>(())
/// ```
pub fn resolve_prefix(prefix: &str, reverse: bool, ids: &Joined) -> Result<Option<usize>, Error> {
    let status = unsafe {
        ffi::jj_hex_prefix_resolve(
            prefix.as_ptr(), prefix.len(), reverse, ids.bytes.as_ptr(), ids.bytes.len(), ids.ends.as_ptr(), ids.ends.len(),
        )
    };
    let explain = |kind| if kind == ErrorKind::Syntax { digit_error(prefix, reverse)(kind) } else { only(kind) };
    match number(status, explain) {
        Err(error) if error.kind == ErrorKind::NoMatch => Ok(None),
        found => found.map(Some),
    }
}

/// Parses a glob once, and returns for each byte string whether the glob matches it. With `separator`, `?` and `*` do not match `/`; with
/// `icase`, ASCII letters match in either case. [`Joined::select`] iterates over those that match.
///
/// ```
/// use jj_core_verified::{glob_matches, Joined};
/// assert_eq!(glob_matches("*.{rs,py}", true, false, &Joined::new(&["a.rs", "b/c.py"]))?, [true, false]);
/// # Ok::<(), jj_core_verified::Error>(())
/// ```
pub fn glob_matches(glob: &str, separator: bool, icase: bool, paths: &Joined) -> Result<Vec<bool>, Error> {
    filled(paths.len(), |kind| Error::new(kind, None, Some(glob.len())), |out, len| unsafe {
        ffi::jj_glob_matches(
            glob.as_ptr(), glob.len(), separator, icase, paths.bytes.as_ptr(), paths.bytes.len(), paths.ends.as_ptr(), paths.ends.len(),
            out, len,
        )
    })
}

/// Parses the expression of a file set once, such as `src ~ tests`, and returns for each path whether it is in the set. Operands are paths
/// (with all below them), globs, `file:PATH`, `glob:GLOB`, `all()` and `none()`; operators are `|`, `&`, `~` and parentheses.
/// [`Joined::select`] iterates over the paths in the set.
///
/// ```
/// use jj_core_verified::{fileset_matches, Joined};
/// let paths = Joined::new(&["src/a.rs", "src/a.md", "b.rs"]);
/// assert_eq!(fileset_matches("src & ~**/*.md", &paths)?, [true, false, false]);
/// let error = fileset_matches("src", &Joined::new(&["a", "a//b"])).unwrap_err();
/// assert_eq!(error.index(), Some(1));
/// # Ok::<(), jj_core_verified::Error>(())
/// ```
pub fn fileset_matches(expression: &str, paths: &Joined) -> Result<Vec<bool>, Error> {
    let explain = |kind| match kind {
        ErrorKind::Path => paths.path_error().unwrap_or(only(kind)),
        _ => Error::new(kind, None, Some(expression.len())),
    };
    filled(paths.len(), explain, |out, len| unsafe {
        ffi::jj_fileset_matches(
            expression.as_ptr(), expression.len(), paths.bytes.as_ptr(), paths.bytes.len(), paths.ends.as_ptr(), paths.ends.len(), out, len,
        )
    })
}

/// A walk of a tree of files: the result of [`walk`].
///
/// ```
/// use jj_core_verified::{walk, Joined, Walk};
/// assert_eq!(walk(&Joined::default(), true, &Joined::new(&["a"]))?, Walk { found: vec![false], entered: 0 });
/// # Ok::<(), jj_core_verified::Error>(())
/// ```
#[derive(Clone, Debug, PartialEq, Eq)]
pub struct Walk {
    /// Whether the walk finds each file.
    pub found: Vec<bool>,
    /// The number of directories that the walk enters.
    pub entered: usize,
}

/// Walks the tree of the files at these paths. The walk finds those that are listed or, with `prefixes`, at or below a listed path, but never
/// the root. It enters directories that are ancestors of listed paths and, with `prefixes`, those at or below one.
///
/// ```
/// use jj_core_verified::{walk, Joined};
/// let files = Joined::new(&["src/a/b.rs", "src/c.rs", "docs/d.md"]);
/// let found = walk(&Joined::new(&["src/a"]), true, &files)?;
/// assert_eq!((found.found, found.entered), (vec![true, false, false], 3));
/// # Ok::<(), jj_core_verified::Error>(())
/// ```
pub fn walk(listed: &Joined, prefixes: bool, files: &Joined) -> Result<Walk, Error> {
    let mut found = vec![false; files.len()];
    let status = unsafe {
        ffi::jj_walk(
            listed.bytes.as_ptr(), listed.bytes.len(), listed.ends.as_ptr(), listed.ends.len(), prefixes, files.bytes.as_ptr(),
            files.bytes.len(), files.ends.as_ptr(), files.ends.len(), found.as_mut_ptr(), found.len(),
        )
    };
    let entered = number(status, |kind| listed.path_error().or_else(|| files.path_error()).unwrap_or(only(kind)))?;
    Ok(Walk { found, entered })
}

/// The indices of the terms that remain of a merge once each added term is cancelled with an equal removed one, in the order of the
/// simplified merge.
///
/// ```
/// use jj_core_verified::{simplify, Joined};
/// assert_eq!(simplify(&Joined::new(&["a", "b", "b", "c", "a"]))?, [0, 3, 4]);
/// # Ok::<(), jj_core_verified::Error>(())
/// ```
pub fn simplify(terms: &Joined) -> Result<Vec<usize>, Error> {
    filled(terms.len(), |kind| terms.terms_error(kind), |out, len| unsafe {
        ffi::jj_merge_simplify(terms.bytes.as_ptr(), terms.bytes.len(), terms.ends.as_ptr(), terms.ends.len(), out, len)
    })
}

/// The index of a term that a merge resolves to, or `None` for a conflict. With `accept`, sides that made the same change resolve to it.
///
/// ```
/// use jj_core_verified::{resolve, Joined};
/// let same = Joined::new(&["a", "b", "a"]);
/// assert_eq!((resolve(&same, false)?, resolve(&same, true)?), (None, Some(0)));
/// # Ok::<(), jj_core_verified::Error>(())
/// ```
pub fn resolve(terms: &Joined, accept: bool) -> Result<Option<usize>, Error> {
    let status = unsafe {
        ffi::jj_merge_resolve(terms.bytes.as_ptr(), terms.bytes.len(), terms.ends.as_ptr(), terms.ends.len(), accept)
    };
    match number(status, |kind| terms.terms_error(kind)) {
        Err(error) if error.kind() == ErrorKind::Conflict => Ok(None),
        index => index.map(Some),
    }
}

// The bytes that a call writes. The buffer is doubled until they fit.
fn written(terms: &Joined, call: impl Fn(*mut u8, usize) -> i64) -> Result<Vec<u8>, Error> {
    let mut room = terms.bytes.len() + 256;
    loop {
        let mut text = vec![0; room];
        match number(call(text.as_mut_ptr(), room), |kind| terms.terms_error(kind)) {
            Err(error) if error.kind() == ErrorKind::Length => room *= 2,
            Err(error) => return Err(error),
            Ok(len) => {
                text.truncate(len);
                return Ok(text);
            }
        }
    }
}

/// The merge of file contents, whose terms are added and removed in turn, by lines and, with `words`, by the words of lines that conflict;
/// `None` for a conflict. With `accept`, sides that made the same change resolve to it.
///
/// ```
/// use jj_core_verified::{merge_contents, Joined};
/// let terms = Joined::new(&["a\nb\nC\n", "a\nb\nc\n", "A\nb\nc\n"]);
/// assert_eq!(merge_contents(&terms, false, false)?, Some(b"A\nb\nC\n".to_vec()));
/// # Ok::<(), jj_core_verified::Error>(())
/// ```
pub fn merge_contents(terms: &Joined, accept: bool, words: bool) -> Result<Option<Vec<u8>>, Error> {
    let merged = written(terms, |out, len| unsafe {
        ffi::jj_merge_contents(terms.bytes.as_ptr(), terms.bytes.len(), terms.ends.as_ptr(), terms.ends.len(), accept, words, out, len)
    });
    match merged {
        Err(error) if error.kind() == ErrorKind::Conflict => Ok(None),
        text => text.map(Some),
    }
}

/// The merge of file contents by lines, with each conflict between markers: in Jujutsu's style, or with `git` in that of diff3.
///
/// ```
/// use jj_core_verified::{materialize, Joined};
/// let terms = Joined::new(&["1\n", "0\n", "2\n"]);
/// let text = b"<<<<<<<\n1\n|||||||\n0\n=======\n2\n>>>>>>>\n";
/// assert_eq!(materialize(&terms, false, true)?, text);
/// # Ok::<(), jj_core_verified::Error>(())
/// ```
pub fn materialize(terms: &Joined, accept: bool, git: bool) -> Result<Vec<u8>, Error> {
    written(terms, |out, len| unsafe {
        ffi::jj_merge_materialize(terms.bytes.as_ptr(), terms.bytes.len(), terms.ends.as_ptr(), terms.ends.len(), accept, git, out, len)
    })
}

/// The terms of a merge of merges, in the order of the flattened merge, in which removed merges are inverted.
///
/// ```
/// use jj_core_verified::flatten;
/// assert_eq!(flatten(&[vec![1], vec![2, 3, 4], vec![5]])?, [&1, &4, &3, &2, &5]);
/// # Ok::<(), jj_core_verified::Error>(())
/// ```
pub fn flatten<T>(merges: &[Vec<T>]) -> Result<Vec<&T>, Error> {
    let terms: Vec<&T> = merges.iter().flatten().collect();
    let mut end = 0;
    let mut ends = Vec::with_capacity(merges.len());
    for merge in merges {
        end += merge.len();
        ends.push(end);
    }
    let explain = |kind| match merges.iter().position(|merge| merge.len() % 2 == 0) {
        Some(index) => Error::new(kind, Some(index), Some(merges[index].len())),
        None => Error::new(kind, None, Some(merges.len())),
    };
    let order = filled(terms.len(), explain, |out, len| unsafe { ffi::jj_merge_flatten(ends.as_ptr(), ends.len(), out, len) })?;
    Ok(order.iter().map(|index| terms[*index]).collect())
}

/// The nodes that are reachable from `nodes`, each before its targets; the next node is always the greatest possible one.
///
/// ```
/// use jj_core_verified::{order, Graph};
/// assert_eq!(order(&Graph::new(&[vec![], vec![0], vec![0], vec![1, 2]]), &[3])?, [3, 2, 1, 0]);
/// assert_eq!(order(&Graph::new(&[vec![1], vec![0]]), &[0]).unwrap_err().to_string(), "node 0 is on a cycle");
/// # Ok::<(), jj_core_verified::Error>(())
/// ```
pub fn order(graph: &Graph, nodes: &[usize]) -> Result<Vec<usize>, Error> {
    filled(graph.len(), |kind| graph.error(kind, &[nodes]), |out, len| unsafe {
        ffi::jj_graph_order(
            graph.targets.as_ptr(), graph.targets.len(), graph.ends.as_ptr(), graph.ends.len(), nodes.as_ptr(), nodes.len(), out, len,
        )
    })
}

/// Those of the nodes that are reachable from no other of them, in ascending order.
///
/// ```
/// use jj_core_verified::{heads, Graph};
/// assert_eq!(heads(&Graph::new(&[vec![], vec![0], vec![0]]), &[0, 1, 2])?, [1, 2]);
/// # Ok::<(), jj_core_verified::Error>(())
/// ```
pub fn heads(graph: &Graph, nodes: &[usize]) -> Result<Vec<usize>, Error> {
    filled(graph.len(), |kind| graph.error(kind, &[nodes]), |out, len| unsafe {
        ffi::jj_graph_heads(
            graph.targets.as_ptr(), graph.targets.len(), graph.ends.as_ptr(), graph.ends.len(), nodes.as_ptr(), nodes.len(), out, len,
        )
    })
}

/// The nodes that both sets reach and that no other such node reaches, in ascending order: of commits, the merge bases.
///
/// ```
/// use jj_core_verified::{closest_common, Graph};
/// assert_eq!(closest_common(&Graph::new(&[vec![], vec![0], vec![0]]), &[1], &[2])?, [0]);
/// # Ok::<(), jj_core_verified::Error>(())
/// ```
pub fn closest_common(graph: &Graph, set1: &[usize], set2: &[usize]) -> Result<Vec<usize>, Error> {
    filled(graph.len(), |kind| graph.error(kind, &[set1, set2]), |out, len| unsafe {
        ffi::jj_graph_common(
            graph.targets.as_ptr(), graph.targets.len(), graph.ends.as_ptr(), graph.ends.len(), set1.as_ptr(), set1.len(), set2.as_ptr(),
            set2.len(), out, len,
        )
    })
}

/// The heads of each set of nodes, as by [`heads`]. The graph is checked once, which is most of the work of one question.
///
/// ```
/// use jj_core_verified::{heads_each, Graph};
/// let parents = Graph::new(&[vec![], vec![0], vec![0]]);
/// assert_eq!(heads_each(&parents, &[vec![0, 1], vec![1, 2]])?, [vec![1], vec![1, 2]]);
/// # Ok::<(), jj_core_verified::Error>(())
/// ```
pub fn heads_each<T: AsRef<[usize]>>(graph: &Graph, sets: &[T]) -> Result<Vec<Vec<usize>>, Error> {
    let joined = Graph::new(sets);
    lists_filled(joined.targets.len(), sets.len(), |kind| graph.error(kind, &[&joined.targets]), |out, len, ends, ends_len| unsafe {
        ffi::jj_graph_heads_each(
            graph.targets.as_ptr(), graph.targets.len(), graph.ends.as_ptr(), graph.ends.len(), joined.targets.as_ptr(),
            joined.targets.len(), joined.ends.as_ptr(), joined.ends.len(), out, len, ends, ends_len,
        )
    })
}

/// The closest common nodes of each pair of sets, as by [`closest_common`]. The graph is checked once.
///
/// ```
/// use jj_core_verified::{closest_common_each, Graph};
/// let parents = Graph::new(&[vec![], vec![0], vec![0]]);
/// assert_eq!(closest_common_each(&parents, &[([1], [2]), ([1], [1])])?, [vec![0], vec![1]]);
/// # Ok::<(), jj_core_verified::Error>(())
/// ```
pub fn closest_common_each<T: AsRef<[usize]>, U: AsRef<[usize]>>(graph: &Graph, pairs: &[(T, U)]) -> Result<Vec<Vec<usize>>, Error> {
    let set1: Graph = pairs.iter().map(|(set, _)| set).collect();
    let set2: Graph = pairs.iter().map(|(_, set)| set).collect();
    let explain = |kind| graph.error(kind, &[&set1.targets, &set2.targets]);
    let mut room = graph.len() + pairs.len();
    // How many nodes are common is not known before.
    loop {
        let found = lists_filled(room, pairs.len(), explain, |out, len, ends, ends_len| unsafe {
            ffi::jj_graph_common_each(
                graph.targets.as_ptr(), graph.targets.len(), graph.ends.as_ptr(), graph.ends.len(), set1.targets.as_ptr(),
                set1.targets.len(), set1.ends.as_ptr(), set1.ends.len(), set2.targets.as_ptr(), set2.targets.len(), set2.ends.as_ptr(),
                set2.ends.len(), out, len, ends, ends_len,
            )
        });
        match found {
            Err(error) if error.kind() == ErrorKind::Length => room *= 4,
            found => return found,
        }
    }
}

// Calls with buffers for so many items and so many ends, and returns the lists that were written.
fn lists_filled(
    room: usize, count: usize, explain: impl Fn(ErrorKind) -> Error, call: impl Fn(*mut usize, usize, *mut usize, usize) -> i64,
) -> Result<Vec<Vec<usize>>, Error> {
    let (mut items, mut ends) = (vec![0; room], vec![0; count]);
    number(call(items.as_mut_ptr(), room, ends.as_mut_ptr(), count), explain)?;
    let starts = std::iter::once(&0).chain(&ends);
    Ok(starts.zip(&ends).map(|(start, end)| items[*start..*end].to_vec()).collect())
}
