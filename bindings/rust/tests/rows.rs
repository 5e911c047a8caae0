//! The rows of the conformance table of the libraries that apply to this crate.
use jj_core_verified::{
    closest_common, content_hash, fileset_matches, flatten, glob_matches, hash, heads, hex_decode, hex_encode, hex_prefix_matches, order, resolve,
    resolve_prefix, simplify, walk, Error, ErrorKind, Graph, Hasher, Joined, Walk,
};

const TABLE: &str = include_str!("../../../crates/conformance/stdin");

fn unescape(field: &str) -> Vec<u8> {
    let (mut bytes, mut rest) = (Vec::new(), field.as_bytes());
    while let Some((&byte, after)) = rest.split_first() {
        rest = after;
        if byte != b'\\' {
            bytes.push(byte);
            continue;
        }
        let (letter, after) = rest.split_first().expect("an escape");
        rest = after;
        match letter {
            b't' => bytes.push(b'\t'),
            b'n' => bytes.push(b'\n'),
            b'r' => bytes.push(b'\r'),
            b'\\' => bytes.push(b'\\'),
            b'e' => {}
            b'x' => {
                bytes.push(u8::from_str_radix(std::str::from_utf8(&rest[..2]).unwrap(), 16).unwrap());
                rest = &rest[2..];
            }
            other => panic!("the escape {other}"),
        }
    }
    bytes
}

type Fields = Vec<Vec<u8>>;

// A result with only the kind of an error, which the table has.
fn kind<T>(result: Result<T, Error>) -> Result<T, ErrorKind> {
    result.map_err(|error| error.kind())
}

// The arguments and the expected values of each row of a request. Calls `check` for each, and compares their number with the least one.
fn each_row(request: &str, least: usize, mut check: impl FnMut(&Fields, &Fields)) {
    let fields = |part: &str| part.split('\t').map(unescape).collect::<Fields>();
    let mut count = 0;
    for line in TABLE.lines() {
        let Some((arguments, expected)) = line.strip_prefix(request).and_then(|rest| rest.strip_prefix('\t')?.split_once("\t=>\t")) else {
            continue;
        };
        check(&fields(arguments), &fields(expected));
        count += 1;
    }
    assert!(count >= least, "{request}: {count} rows");
}

fn text(field: &[u8]) -> &str {
    std::str::from_utf8(field).unwrap()
}

fn is_true(field: &[u8]) -> bool {
    field == b"true"
}

#[test]
fn digests() {
    each_row("digest", 3, |given, expected| assert_eq!(hex_encode(&hash(&given[0]).unwrap(), false).unwrap().as_bytes(), expected[0]));
}

// The message in pieces that end at these indices, and its rest.
fn hash_in_pieces(message: &[u8], ends: &[usize]) -> [u8; 64] {
    let mut hasher = Hasher::new();
    let mut from = 0;
    for end in ends {
        hasher.update(&message[from..*end]);
        from = *end;
    }
    hasher.update(&message[from..]);
    hasher.finish()
}

#[test]
fn digests_in_pieces() {
    each_row("digest", 3, |given, expected| {
        for cut in 0..=given[0].len() {
            let found = hash_in_pieces(&given[0], &[cut]);
            assert_eq!(hex_encode(&found, false).unwrap().as_bytes(), expected[0], "{cut}");
        }
    });
    let message: Vec<u8> = (0..1000u32).map(|n| (n * 7) as u8).collect();
    let whole = hash(&message).unwrap();
    for step in 1..300 {
        let ends: Vec<usize> = (step..message.len()).step_by(step).collect();
        assert_eq!(hash_in_pieces(&message, &ends), whole, "{step}");
    }
    let content = [&1000u64.to_le_bytes()[..], &message].concat();
    assert_eq!(hash_in_pieces(&content, &[8, 500]), content_hash(&message).unwrap());
}

#[test]
fn hashers_that_go_on() {
    let mut hasher = Hasher::new();
    for len in 0..300 {
        let message = vec![7; len];
        assert_eq!(hasher.finish(), hash(&message).unwrap(), "{len}");
        let mut other = hasher.clone();
        other.update(&[1; 200]);
        hasher.update(&[7]);
    }
}

#[test]
fn hex() {
    each_row("hex-encode", 2, |given, expected| assert_eq!(hex_encode(&given[0], false).unwrap().as_bytes(), expected[0]));
    for (request, reverse) in [("hex-decode", false), ("hex-decode-rev", true)] {
        each_row(request, 4, |given, expected| {
            let Ok(digits) = std::str::from_utf8(&given[0]) else { return };
            let wanted = if expected[0] == b"some" { Ok(expected[1].clone()) } else { Err(ErrorKind::Syntax) };
            assert_eq!(kind(hex_decode(digits, reverse)), wanted, "{digits}");
        });
    }
    for (request, reverse) in [("prefix", false), ("prefix-rev", true)] {
        each_row(request, 8, |given, expected| {
            let found = hex_prefix_matches(text(&given[0]), reverse, &given[1]);
            let wanted = if expected[0] == b"some" { Ok(is_true(expected.last().unwrap())) } else { Err(ErrorKind::Syntax) };
            assert_eq!(kind(found), wanted, "{given:?}");
        });
    }
}

#[test]
fn prefixes() {
    let ids = Joined::new(&[&[1, 0xef][..], &[1, 0xff], &[], &[0xab]]);
    for (prefix, expected) in [("01e", Some(0)), ("01F", Some(1)), ("a", Some(3)), ("02", None), ("01ef0", None)] {
        assert_eq!(resolve_prefix(prefix, false, &ids), Ok(expected), "{prefix}");
    }
    assert_eq!(resolve_prefix("zyl", true, &ids), Ok(Some(0)));
    assert_eq!(kind(resolve_prefix("01", false, &ids)), Err(ErrorKind::Ambiguous));
    assert_eq!(kind(resolve_prefix("0g", false, &ids)), Err(ErrorKind::Syntax));
}

#[test]
fn globs() {
    each_row("glob-match", 300, |given, expected| {
        let found = glob_matches(text(&given[2]), given[0] == b"1", given[1] == b"1", &Joined::new(&given[3..])).unwrap();
        assert_eq!(found, expected.iter().map(|it| is_true(it)).collect::<Vec<_>>(), "{given:?}");
    });
    each_row("glob-parse", 15, |given, expected| {
        let found = glob_matches(text(&given[2]), given[0] == b"1", given[1] == b"1", &Joined::default());
        let wanted = if expected[0] == b"ok" { Ok(vec![]) } else { Err(ErrorKind::Syntax) };
        assert_eq!(kind(found), wanted, "{given:?}");
    });
}

#[test]
fn filesets() {
    let paths = Joined::new(&["src/lib.rs", "src/a/b.rs", "tests/t.rs", "README.md", "all", ""]);
    for (expression, expected) in [
        ("src/** & ~tests", [true, true, false, false, false, false]),
        ("all() ~ src", [false, false, true, true, true, true]),
        ("(tests | src) & **/*.rs ~ src/a", [true, false, true, false, false, false]),
        ("file:src | file:'all'", [false, false, false, false, true, false]),
    ] {
        assert_eq!(fileset_matches(expression, &paths), Ok(expected.to_vec()), "{expression}");
    }
    for expression in ["", "src &", "(src", "src)", "some()", "a//b", "glob:'[a'"] {
        assert_eq!(kind(fileset_matches(expression, &paths)), Err(ErrorKind::Expression), "{expression}");
    }
    let error = fileset_matches("src", &Joined::new(&["a", "a//b"])).unwrap_err();
    assert_eq!((error.kind(), error.index(), error.length()), (ErrorKind::Path, Some(1), Some(2)));
}

#[test]
fn walks() {
    let mut checked = 0;
    each_row("walk", 15, |given, expected| {
        let prefixes = match &given[0][..] {
            b"files" => false,
            b"prefix" => true,
            _ => return,
        };
        // The table writes the root as a dot.
        let path = |field: &Vec<u8>| if field == b"." { Vec::new() } else { field.clone() };
        let bar = |fields: &Fields| fields.iter().position(|it| it == b"|").unwrap();
        let listed: Fields = given[1..bar(given)].iter().map(path).collect();
        let files: Fields = given[bar(given) + 1..].iter().map(path).collect();
        let (names, entered) = (&expected[..bar(expected)], expected.len() - bar(expected) - 1);
        let found = files.iter().map(|it| names.contains(it)).collect();
        assert_eq!(walk(&Joined::new(&listed), prefixes, &Joined::new(&files)), Ok(Walk { found, entered }), "{given:?}");
        checked += 1;
    });
    assert!(checked >= 7, "{checked}");
    let (valid, invalid) = (Joined::new(&["a"]), Joined::new(&["a//b"]));
    assert_eq!(kind(walk(&valid, true, &invalid)), Err(ErrorKind::Path));
    assert_eq!(kind(walk(&invalid, true, &valid)), Err(ErrorKind::Path));
}

#[test]
fn merges() {
    each_row("merge-simplify", 60, |given, expected| {
        let kept = simplify(&Joined::new(given)).unwrap();
        assert_eq!(&kept.iter().map(|index| given[*index].clone()).collect::<Fields>(), expected, "{given:?}");
    });
    each_row("trivial", 60, |given, expected| {
        let mut left = expected.as_slice();
        for accept in [false, true] {
            let found = resolve(&Joined::new(given), accept).unwrap().map(|index| given[index].clone());
            let wanted = if left[0] == b"some" { Some(left[1].clone()) } else { None };
            left = &left[if wanted.is_some() { 2 } else { 1 }..];
            assert_eq!(found, wanted, "{given:?}");
        }
    });
}

#[test]
fn flattening() {
    each_row("merge-flatten", 5, |given, expected| {
        let merges: Vec<Fields> = given.split(|field| field == b"|").map(<[_]>::to_vec).collect();
        let wanted = if expected[0].starts_with(b"precondition") { Err(ErrorKind::Terms) } else { Ok(expected.iter().collect()) };
        assert_eq!(kind(flatten(&merges)), wanted, "{given:?}");
    });
    assert_eq!(flatten(&[vec!['a'], vec!['b', 'c'], vec!['d']]).unwrap_err().to_string(), "the merge at index 1 has 2 terms, an even number");
}

// A graph of letters, `B:A` for an edge from B to A, and whether each of its items succeeds.
fn graph(text: &str) -> Option<Graph> {
    let mut lists = vec![Vec::new(); 128];
    for entry in text.split(' ').filter(|it| !it.is_empty()) {
        let (node, targets) = entry.split_once(':')?;
        lists[usize::from(node.as_bytes()[0])] = nodes(targets)?;
    }
    Some(Graph::new(&lists))
}

fn nodes(text: &str) -> Option<Vec<usize>> {
    (!text.contains('!')).then(|| text.bytes().map(usize::from).collect())
}

fn letters(nodes: &[usize]) -> Vec<u8> {
    nodes.iter().map(|node| *node as u8).collect()
}

#[test]
fn graphs() {
    let mut checked = [0; 3];
    let mut check = |which: usize, found: Result<Vec<usize>, Error>, expected: &Fields| {
        checked[which] += 1;
        match found {
            Ok(nodes) => assert_eq!((&b"ok".to_vec(), &letters(&nodes)), (&expected[0], &expected[1])),
            // The calls look for a cycle anywhere, and the rows for one that is reached.
            Err(error) => assert_eq!(error.kind(), ErrorKind::Cycle),
        }
    };
    each_row("greatest", 15, |given, expected| {
        if let (Some(starts), Some(graph)) = (nodes(text(&given[0])), graph(text(&given[1]))) {
            check(0, order(&graph, &starts), expected);
        }
    });
    each_row("heads", 5, |given, expected| {
        if let (Some(starts), Some(graph)) = (nodes(text(&given[0])), graph(text(&given[1]))) {
            check(1, heads(&graph, &starts), expected);
        }
    });
    each_row("closest-common", 20, |given, expected| {
        if let (Some(set1), Some(set2), Some(graph)) = (nodes(text(&given[0])), nodes(text(&given[1])), graph(text(&given[2]))) {
            check(2, closest_common(&graph, &set1, &set2), expected);
        }
    });
    assert!(checked[0] >= 8 && checked[1] >= 5 && checked[2] >= 15, "{checked:?}");
}

// The kind, the index and the length of the error of a call.
fn place<T: std::fmt::Debug>(result: Result<T, Error>) -> (ErrorKind, Option<usize>, Option<usize>) {
    let error = result.unwrap_err();
    assert!(!error.to_string().is_empty());
    (error.kind(), error.index(), error.length())
}

#[test]
fn errors() {
    assert_eq!(place(Joined::from_parts(b"ab".to_vec(), vec![2, 1, 2])), (ErrorKind::Ends, Some(1), Some(2)));
    assert_eq!(place(Joined::from_parts(b"ab".to_vec(), vec![1, 2, usize::MAX])), (ErrorKind::Ends, Some(2), Some(2)));
    assert_eq!(place(hex_decode("0g", false)), (ErrorKind::Syntax, Some(1), Some(2)));
    assert_eq!(place(hex_decode("012", false)), (ErrorKind::Syntax, None, Some(3)));
    assert_eq!(place(hex_prefix_matches("zy0", true, b"")), (ErrorKind::Syntax, Some(2), Some(3)));
    assert_eq!(place(glob_matches("[a", true, false, &Joined::default())), (ErrorKind::Syntax, None, Some(2)));
    assert_eq!(place(simplify(&Joined::new(&["a", "b"]))), (ErrorKind::Terms, None, Some(2)));
    assert_eq!(place(simplify(&Joined::default())), (ErrorKind::Terms, None, Some(0)));
    assert_eq!(place(resolve(&Joined::default(), true)), (ErrorKind::Terms, None, Some(0)));
    assert_eq!(place(flatten(&[vec![1], vec![2]])), (ErrorKind::Terms, None, Some(2)));
    let chain = Graph::new(&[vec![], vec![0], vec![1, 7]]);
    assert_eq!(place(heads(&chain, &[0])), (ErrorKind::Node, Some(2), Some(3)));
    assert_eq!(place(order(&Graph::new(&[vec![0]]), &[])), (ErrorKind::Cycle, Some(0), Some(1)));
    assert_eq!(place(order(&Graph::new(&[vec![], vec![2, 0], vec![2]]), &[1])), (ErrorKind::Cycle, Some(2), Some(3)));
    assert_eq!(place(order(&Graph::new(&[vec![]]), &[0, 1])), (ErrorKind::Node, Some(1), Some(1)));
    assert_eq!(place(closest_common(&Graph::new(&[vec![]]), &[0], &[usize::MAX])), (ErrorKind::Node, Some(0), Some(1)));
}

#[test]
fn lists() {
    let paths = Joined::from_parts(b"abcd".to_vec(), vec![1, 1, 3]).unwrap();
    assert!(paths.iter().eq([&b"a"[..], b"", b"bc"]) && paths.iter().len() == 3);
    assert!(paths.select(&[true, false, true]).eq([&b"a"[..], b"bc"]));
    let mut more = paths.clone();
    more.extend(["e"]);
    assert_eq!((more.get(3), more.get(4)), (Some(&b"e"[..]), None));
    assert_eq!(paths.iter().collect::<Joined>(), Joined::new(&["a", "", "bc"]));
    let graph = (0..3).map(|node| vec![0; node]).collect::<Graph>();
    assert_eq!(graph.targets(2), [0, 0]);
    assert_eq!((&graph).into_iter().map(<[usize]>::len).collect::<Vec<_>>(), [0, 1, 2]);
}

#[test]
fn iterators_from_both_ends() {
    let paths = Joined::new(&["a", "", "bc", "d"]);
    let mut items = paths.iter();
    assert_eq!((items.next_back(), items.nth(1), items.len()), (Some(&b"d"[..]), Some(&b""[..]), 1));
    assert_eq!((items.next_back(), items.next(), items.next_back(), items.len()), (Some(&b"bc"[..]), None, None, 0));
    assert_eq!((paths.iter().nth(4), paths.iter().nth_back(3)), (None, Some(&b"a"[..])));
    for (item, expected) in (&paths).into_iter().zip([&b"a"[..], b"", b"bc", b"d"]) {
        assert_eq!(item, expected);
    }
    assert!(Joined::new::<&str>(&[]).iter().next().is_none() && Graph::default().iter().next_back().is_none());
}
