//! Trees: roots, rows, children, lists and walks.
mod common;
use common::{enough, line, read, words};
use shigthapul::{Infix, Kind, Mode, Prefix, Suffix, Tree, ROW_WORDS};

/// Reads a text by an entry and looks at its tree.
fn with_tree<T>(entry: &str, text: &str, look: impl FnOnce(Tree) -> T) -> T {
    let tokens = words(text);
    let mut pool = vec![0; ROW_WORDS * enough(&tokens)];
    look(read(entry, &tokens, &mut pool, Mode::Strict).unwrap())
}

#[test]
fn a_lone_empty_token_has_no_root() {
    with_tree("S", "_E", |tree| {
        assert_eq!((tree.root(), tree.len(), tree.last_place()), (None, 0, 0));
        assert!(tree.is_empty() && tree.words().is_empty());
        assert_eq!((tree.nodes().count(), tree.walk().count()), (0, 0));
    });
}

#[test]
fn references() {
    with_tree("X", "a + b", |tree| {
        assert_eq!(tree.words().len(), 3 * ROW_WORDS);
        assert_eq!([0, 4, u32::MAX].map(|reference| tree.node(reference)), [None; 3]);
        let references: Vec<u32> = tree.nodes().map(|node| node.reference()).collect();
        assert_eq!(references, [1, 2, 3]);
        assert_eq!(tree.root().unwrap().reference(), 3);
        assert_eq!(tree.node(1).unwrap().row().words()[..], tree.words()[..ROW_WORDS]);
    });
}

#[test]
fn children_and_lists() {
    with_tree("S", "if ( a ) { b ; c } else { }", |tree| {
        let choice = tree.root().unwrap();
        let kinds: Vec<Kind> = choice.children().map(|child| child.kind()).collect();
        assert_eq!(kinds, [Kind::Identifier, Kind::Block, Kind::Block]);
        let body = choice.child(1).unwrap();
        let places: Vec<usize> = body.list(0).map(|statement| statement.place()).collect();
        assert_eq!(places, [5, 7]);
        assert_eq!(body.child(0).unwrap().next_in_list(), body.list(0).last());
        assert_eq!(choice.child(2).unwrap().list(0).count(), 0);
        assert_eq!((choice.child(3), choice.child(4)), (None, None));
        assert_eq!(choice.list(9).count(), 0);
    });
}

#[test]
fn places_and_ends() {
    with_tree("S", "x = ( a + b ) * c ;", |tree| {
        let spans: Vec<_> = tree.nodes().map(|node| (node.place(), node.end())).collect();
        assert_eq!(spans, [(0, 0), (3, 3), (5, 5), (4, 5), (8, 8), (7, 9), (1, 9), (0, 9)]);
        let root = tree.root().unwrap();
        assert_eq!((root.row().end, root.row().words()[ROW_WORDS - 1]), (9, 9));
    });
}

#[test]
fn nodes_of_a_kind() {
    with_tree("W", "f ( a , 1 ) ; var x = g ( b ) ;", |tree| {
        let calls: Vec<usize> = tree.of_kind(Kind::Call).map(|call| call.place()).collect();
        assert_eq!(calls, [1, 11]);
        assert_eq!(tree.of_kind(Kind::Identifier).count(), 4);
        assert_eq!(tree.of_kind(Kind::Lambda).count(), 0);
    });
}

#[test]
fn a_walk_visits_every_row_once_and_wholes_first() {
    let text = "try { a } catch e { f ( b , { c : d } ) } finally { } lambda x , y => [ z ]";
    with_tree("W", text, |tree| {
        let walked: Vec<_> = tree.walk().collect();
        let mut references: Vec<u32> = walked.iter().map(|(_, node)| node.reference()).collect();
        references.sort_unstable();
        assert_eq!(references, (1..=tree.len() as u32).collect::<Vec<_>>());
        assert_eq!((walked[0].0, Some(walked[0].1)), (0, tree.root()));
        for pair in walked.windows(2) {
            assert!(pair[1].0 <= pair[0].0 + 1);
        }
    });
}

#[test]
fn a_walk_of_a_deep_tree() {
    let (name, increment) = (words("a _NOEOF"), words("++ _NOEOF"));
    let tokens = [name, increment.repeat(30_000), words("")].concat();
    let mut pool = vec![0; ROW_WORDS * enough(&tokens)];
    let tree = read("X", &tokens, &mut pool, Mode::Strict).unwrap();
    let (depth, deepest) = tree.walk().last().unwrap();
    assert_eq!((depth, deepest.kind()), (30_000, Kind::Identifier));
}

#[test]
fn operators() {
    with_tree("X", "! ( a <= b ) && c --", |tree| {
        let not = tree.root().unwrap();
        assert_eq!((not.prefix(), not.infix(), not.suffix()), (Some(Prefix::Not), None, None));
        let both = not.child(0).unwrap();
        assert_eq!(both.infix(), Some(Infix::LogicalAnd));
        let group = both.child(0).unwrap();
        assert_eq!((group.infix(), group.is_grouped()), (Some(Infix::LesserThanEqual), true));
        assert_eq!(both.child(1).unwrap().suffix(), Some(Suffix::PostDecrement));
    });
}

#[test]
fn nodes_in_words() {
    let cases = [
        ("true", "bool true at 0"),
        ("( false ; )", "bool false grouped at 1"),
        ("$ . a", "shell raw at 0"),
        ("$ a", "shell at 0"),
        ("thread async f ( )", "call thread async at 3"),
        ("a %= b", "infix %= at 1"),
        ("~ a", "prefix ~ at 0"),
        ("none", "none at 0"),
    ];
    for (text, expected) in cases {
        with_tree("X", text, |tree| assert_eq!(tree.root().unwrap().to_string(), expected));
    }
}

#[test]
fn flags_are_those_of_their_kind() {
    with_tree("X", "a - b", |tree| {
        let minus = tree.root().unwrap();
        assert_eq!((minus.row().mark, minus.infix()), (1, Some(Infix::Minus)));
        assert!(!minus.is_true() && !minus.is_thread() && !minus.is_raw() && !minus.is_async());
    });
}

#[test]
fn trees_compare_and_print() {
    with_tree("X", "a", |tree| {
        assert_eq!(tree, tree);
        assert!(format!("{:?}", tree).contains("Identifier"));
        assert_eq!(line(tree.root()), "identifier@0");
    });
}
