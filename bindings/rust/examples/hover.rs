//! Reads a token file on standard input, and prints for each token of its script the smallest formula
//! around it: a line with the token's place, and the formula's row in words with its first and its last
//! token.
//!
//! ```text
//! hover            reads in the old mode
//! hover --strict   reads in strict mode
//! ```
//!
//! A formula is a row of an expression. Its last token is the row's end. Its first token is the row's
//! own, or that of the part to its left, with the brackets around that part. The brackets around the
//! formula itself are not part of it, as its row knows only that it is grouped; nor are the words
//! thread and async before a call.
//!
//! The status is 0 where the script is accepted, 1 where it is refused, 2 where the command or its
//! input can't be read.
mod command;
use command::TOKENS;
use shigthapul::{
    read_file, whole_script, Kind, Mode, Node, Refusal, Symbol, Token, Tree, TOKEN_WORDS,
};
use std::process::ExitCode;

fn main() -> ExitCode {
    command::run("hover", lines)
}

/// The lines of a file's tokens.
fn lines(file: &[u8], mode: Mode) -> Result<String, Refusal> {
    let mut words = vec![0; TOKENS];
    let tokens = read_file(file, &mut words)?;
    let mut pool = vec![0; TOKEN_WORDS * tokens.len()];
    let tree = whole_script(tokens, &mut pool, mode)?;
    let firsts = firsts(tree, tokens);
    let around = formulas(tree, &firsts, tokens.len());
    let line = |(place, formula): (usize, &Option<Node>)| match formula {
        None => format!("{}: no formula\n", place),
        Some(node) => {
            format!("{}: {}, from {} to {}\n", place, node, first(&firsts, *node), node.end())
        }
    };
    Ok(around.iter().enumerate().map(line).collect())
}

fn is_formula(node: Node) -> bool {
    node.kind() <= Kind::Attribute
}

/// The first token of a node.
fn first(firsts: &[usize], node: Node) -> usize {
    firsts[node.reference() as usize - 1]
}

/// The part to the left of a node's own token: that of an index, a call, an infix or a suffix form.
fn left(node: Node) -> Option<Node> {
    match node.kind() {
        Kind::Index | Kind::Call | Kind::Infix | Kind::Suffix => node.child(0),
        _ => None,
    }
}

/// The first token of a part with the brackets around it, from its own first token: as many open
/// before it as close behind its end, up to the token of the row that it is a part of.
fn opening(tokens: &[u16], mut at: usize, end: usize, sign: usize) -> usize {
    let is_sign = |word: &u16, symbol| *word == Token::Operator(symbol).word();
    let closing = tokens[end + 1..sign].iter().filter(|word| is_sign(word, Symbol::SRparen));
    let mut open = closing.count();
    while open > 0 && at > 0 {
        at -= 1;
        open -= is_sign(&tokens[at], Symbol::SLParen) as usize;
    }
    at
}

/// The first token of each row. Children stand before their parents, so theirs are known. No token is
/// looked at twice as a bracket that closes, or twice as one that opens.
fn firsts(tree: Tree, tokens: &[u16]) -> Vec<usize> {
    let mut firsts = vec![];
    for node in tree.nodes() {
        let first = match left(node) {
            None => node.place(),
            Some(left) => opening(tokens, first(&firsts, left), left.end(), node.place()),
        };
        firsts.push(first);
    }
    firsts
}

/// The smallest formula around each token: the lowest row that is a formula and has the token between
/// its first and its last one. Ends never fall from row to row. So the tokens up to a row's end that no
/// formula has yet can wait on a stack, the last one on top; the row takes off those from its first
/// token on. Each is put there once.
fn formulas<'a>(tree: Tree<'a>, firsts: &[usize], tokens: usize) -> Vec<Option<Node<'a>>> {
    let mut around = vec![None; tokens];
    let (mut waiting, mut next) = (vec![], 0);
    for formula in tree.nodes().filter(|&node| is_formula(node)) {
        waiting.extend(next..=formula.end());
        next = next.max(formula.end() + 1);
        let first = first(firsts, formula);
        while waiting.last().map_or(false, |&place| place >= first) {
            around[waiting.pop().expect("there is a last one")] = Some(formula);
        }
    }
    around
}

#[cfg(test)]
#[path = "../tests/common/mod.rs"]
mod common;

#[cfg(test)]
mod tests {
    use super::*;
    use common::{enough, field, read, text_of, words};
    use shigthapul::Symbol::{SEq, SLParen, SMul, SPlus, SRparen, SSemiColon};
    use shigthapul::ROW_WORDS;

    /// The bracket that the one at a place closes, in tokens in which each that opens is closed.
    fn matching(tokens: &[u16], place: usize) -> usize {
        let mut open = 0;
        let step = |word: u16| match Token::from_word(word) {
            Some(Token::Operator(SRparen)) => 1,
            Some(Token::Operator(SLParen)) => -1,
            _ => 0,
        };
        let falls = |&at: &usize| {
            open += step(tokens[at]);
            open == 0
        };
        (0..=place).rev().find(falls).expect("a bracket that opens")
    }

    /// The first token of a node: its own, or that of its left part; where brackets are around that,
    /// the one that the last of them closes.
    fn begin(tokens: &[u16], node: Node) -> usize {
        match left(node) {
            None => node.place(),
            Some(left) if left.end() + 1 == node.place() => begin(tokens, left),
            Some(_) => matching(tokens, node.place() - 1),
        }
    }

    /// Compares all that is found in a tree with what it is defined as.
    fn compare(tree: Tree, tokens: &[u16], text: &str) {
        let begins: Vec<usize> = tree.nodes().map(|node| begin(tokens, node)).collect();
        assert_eq!(firsts(tree, tokens), begins, "{}", text);
        let around = formulas(tree, &begins, tokens.len());
        for (place, found) in around.into_iter().enumerate() {
            let has = |node: &Node| first(&begins, *node) <= place && place <= node.end();
            let smallest = tree.nodes().find(|node| is_formula(*node) && has(node));
            assert_eq!(found, smallest, "{} at {}", text, place);
        }
    }

    #[test]
    fn the_worked_examples() {
        let mut trees = 0;
        let is_entry = |line: &&str| line.starts_with(&['X', 'S', 'W'][..]);
        for name in ["examples", "modes", "ends"] {
            for line in text_of(&format!("oracle/{}.txt", name)).lines().filter(is_entry) {
                let tokens = words(line.split_once(' ').unwrap_or((line, "")).1);
                let mut pool = vec![0; ROW_WORDS * enough(&tokens)];
                if let Ok(tree) = read(&line[..1], &tokens, &mut pool, Mode::Strict) {
                    compare(tree, &tokens, line);
                    trees += 1;
                }
            }
        }
        assert!(trees >= 110, "{} trees", trees);
    }

    #[test]
    fn a_deep_tree_and_a_wide_one() {
        let deep = [words("a _NOEOF"), words("= a _NOEOF").repeat(300), words("")].concat();
        let wide = [words("f ( a , b ) ; _NOEOF").repeat(100), words("")].concat();
        for tokens in [deep, wide] {
            let mut pool = vec![0; ROW_WORDS * enough(&tokens)];
            compare(read("W", &tokens, &mut pool, Mode::Strict).unwrap(), &tokens, "long");
        }
    }

    #[test]
    fn lines_of_a_file() {
        // x = ( a + b ) * c ;
        let signs = [SEq, SLParen, SPlus, SRparen, SMul, SSemiColon].map(sign);
        let name = field(Token::Identifier, b"a");
        let [equal, open, plus, close, times, semicolon] = &signs;
        let fields = [&name, equal, open, &name, plus, &name, close, times, &name, semicolon];
        let file = [fields.map(|field| &field[..]).concat(), field(Token::EOF, b"")].concat();
        let expected = [
            "0: identifier at 0, from 0 to 0",
            "1: infix = at 1, from 0 to 9",
            "2: infix * at 7, from 2 to 9",
            "3: identifier at 3, from 3 to 3",
            "4: infix + grouped at 4, from 3 to 5",
            "5: identifier at 5, from 5 to 5",
            "6: infix * at 7, from 2 to 9",
            "7: infix * at 7, from 2 to 9",
            "8: identifier at 8, from 8 to 8",
            "9: infix * at 7, from 2 to 9",
            "10: no formula\n",
        ];
        assert_eq!(lines(&file, Mode::Strict).unwrap(), expected.join("\n"));
    }

    /// The field of an operator, whose payload is its code.
    fn sign(symbol: Symbol) -> Vec<u8> {
        let token = Token::Operator(symbol);
        field(token, &[token.word() as u8])
    }
}
