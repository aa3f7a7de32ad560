//! The written form of a tree: its token words, and the places of those with a payload.
use super::held::Tree;
use crate::kinds::{self, *};
use crate::words::{self, *};

/// The words of the tokens, EOF included, and beside each the place word of the row that it comes
/// from, 0 if it has no payload.
#[derive(Clone, Debug, Default, PartialEq)]
pub struct Written {
    pub words: Vec<u16>,
    pub places: Vec<u32>,
}

/// Writes a root's tree: a block without its braces, and EOF behind it.
pub fn written(tree: &Tree) -> Written {
    let mut out = Written::default();
    if tree.kind == BLOCK {
        out.list(&tree.slots[0], None);
    } else {
        out.tree(tree);
    }
    out.sign(EOF);
    out
}

impl Written {
    fn put(&mut self, word: u16, place: u32) {
        self.words.push(word);
        self.places.push(place);
    }

    fn sign(&mut self, word: u16) {
        self.put(word, 0);
    }

    /// Trees one behind the other, with a sign between them.
    fn list(&mut self, trees: &[Tree], between: Option<u16>) {
        for (index, tree) in trees.iter().enumerate() {
            if let (Some(sign), true) = (between, index > 0) {
                self.sign(sign);
            }
            self.tree(tree);
        }
    }

    /// Each part with a sign before it.
    fn signed(&mut self, tree: &Tree, signs: &[u16]) {
        for (&sign, slot) in signs.iter().zip(&tree.slots) {
            self.sign(sign);
            self.list(slot, None);
        }
    }

    /// A slot that may be empty, with a sign before it if it isn't.
    fn maybe(&mut self, sign: u16, trees: &[Tree]) {
        if !trees.is_empty() {
            self.sign(sign);
            self.list(trees, None);
        }
    }

    fn tree(&mut self, tree: &Tree) {
        match tree.kind {
            kinds::NONE..=BOOL | NAME => self.leaf(tree),
            ARRAY => self.between(LBOX, RBOX, |out| out.list(&tree.slots[0], Some(COMMA))),
            HASH => self.between(LBRACE, RBRACE, |out| out.list(&tree.slots[0], Some(COMMA))),
            ATTRIBUTE => {
                self.list(&tree.slots[0], None);
                self.sign(DOT);
                self.list(&tree.slots[1], Some(DOT));
            }
            PAIR => {
                self.list(&tree.slots[0], None);
                self.sign(COLON);
                self.list(&tree.slots[1], None);
            }
            INDEX..=SHELL => self.between(LPAREN, RPAREN, |out| out.bracketed(tree)),
            BLOCK => self.between(LBRACE, RBRACE, |out| out.list(&tree.slots[0], None)),
            kinds::BREAK..=EXPRESSION | kinds::ASSERT => {
                self.simple(tree);
                self.sign(SEMICOLON);
            }
            _ => self.with_blocks(tree),
        }
    }

    fn between(&mut self, opener: u16, closer: u16, inside: impl FnOnce(&mut Self)) {
        self.sign(opener);
        inside(self);
        self.sign(closer);
    }

    fn leaf(&mut self, tree: &Tree) {
        match tree.kind {
            kinds::NONE => self.sign(words::NONE),
            INT => self.put(INTEGER, tree.place),
            kinds::FLOAT => self.put(words::FLOAT, tree.place),
            kinds::CHAR => self.put(words::CHAR, tree.place),
            STRING => self.put(STR, tree.place),
            BOOL => self.sign([FALSE, TRUE][(tree.mark % GROUPED) as usize]),
            _ => self.put(words::IDENTIFIER, tree.place),
        }
    }

    /// What is written in brackets of its own.
    fn bracketed(&mut self, tree: &Tree) {
        let [first, second, ..] = &tree.slots;
        let mark = tree.mark % GROUPED;
        match tree.kind {
            INDEX => {
                self.list(first, None);
                self.between(LBOX, RBOX, |out| out.list(second, None));
            }
            CALL => {
                self.flag(mark & kinds::THREAD, words::THREAD);
                self.flag(mark & kinds::ASYNC, words::ASYNC);
                self.list(first, None);
                self.between(LPAREN, RPAREN, |out| out.list(second, Some(COMMA)));
            }
            INFIX => {
                self.list(first, None);
                self.sign(INFIXES[mark as usize]);
                self.list(second, None);
            }
            PREFIX => self.signed(tree, &[PREFIXES[mark as usize]]),
            SUFFIX => {
                self.list(first, None);
                self.sign(SUFFIXES[mark as usize]);
            }
            kinds::LAMBDA => {
                self.sign(words::LAMBDA);
                self.list(first, Some(COMMA));
                self.sign(IMPL);
                self.list(second, None);
            }
            _ => {
                self.sign(DOLLAR);
                self.flag(mark, DOT);
                self.list(first, None);
            }
        }
    }

    fn flag(&mut self, flag: u32, word: u16) {
        if flag != 0 {
            self.sign(word);
        }
    }

    /// A statement without a block, but for its semicolon.
    fn simple(&mut self, tree: &Tree) {
        match tree.kind {
            kinds::BREAK => self.sign(words::BREAK),
            kinds::CONTINUE => self.sign(words::CONTINUE),
            kinds::VAR => {
                self.named(words::VAR, tree);
                self.maybe(EQ, &tree.slots[0]);
            }
            kinds::CONST => {
                self.named(words::CONST, tree);
                self.signed(tree, &[EQ]);
            }
            kinds::RETURN => self.signed(tree, &[words::RETURN]),
            kinds::THROW => self.signed(tree, &[words::THROW]),
            kinds::ASSERT => self.signed(tree, &[words::ASSERT, COMMA]),
            _ => self.list(&tree.slots[0], None),
        }
    }

    /// A keyword and the name behind it, which is the row's payload.
    fn named(&mut self, keyword: u16, tree: &Tree) {
        self.sign(keyword);
        self.put(words::IDENTIFIER, tree.place);
    }

    /// The condition of a statement.
    fn condition(&mut self, keyword: u16, tree: &Tree) {
        self.sign(keyword);
        self.between(LPAREN, RPAREN, |out| out.list(&tree.slots[0], None));
    }

    fn with_blocks(&mut self, tree: &Tree) {
        let [_, second, third, fourth] = &tree.slots;
        match tree.kind {
            kinds::TRY => {
                self.signed(tree, &[words::TRY, CATCH]);
                self.list(third, None);
                self.maybe(FINALLY, fourth);
            }
            FUNCTION => {
                self.named(FUNC, tree);
                self.between(LPAREN, RPAREN, |out| out.list(&tree.slots[0], Some(COMMA)));
                self.list(second, None);
            }
            kinds::FOR => self.signed(tree, &[words::FOR, IN, IMPL]),
            kinds::WHILE => {
                self.condition(words::WHILE, tree);
                self.list(second, None);
            }
            kinds::IF => {
                self.condition(words::IF, tree);
                self.list(second, None);
                self.maybe(ELSE, third);
            }
            _ => self.signed(tree, &[words::FOREACH, COMMA, COMMA, IMPL]),
        }
    }
}
