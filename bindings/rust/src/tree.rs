//! The tree that an entry laid out in the pool: its rows, and the way from a row to its children.
use crate::json::json_of;
use crate::walk::{List, Walk};
use crate::writing::tokens_of;
use crate::{Infix, Kind, Prefix, Refusal, Suffix, Tokens, ROW_WORDS};
use std::fmt;

/// What is added to the mark of a row that stands in brackets.
pub const GROUPED: u32 = 256;

/// The flags in the marks of a bool, a call and a shell row.
const TRUE: u32 = 1;
const THREAD: u32 = 1;
const ASYNC: u32 = 2;
const RAW: u32 = 1;

/// The words of a row. A reference is a row's number plus one, and 0 for none.
///
/// ```
/// use shigthapul::{Kind, Row, ROW_WORDS};
///
/// let row = Row::from_words([12, 0, 1, 1, 4, 0, 0, 0, 4]).unwrap();
/// assert_eq!((row.kind, row.place, row.children), (Kind::Infix, 1, [1, 4, 0, 0]));
/// assert_eq!(row.end, 4);
/// assert_eq!(row.words(), [12, 0, 1, 1, 4, 0, 0, 0, 4]);
/// assert_eq!(Row::from_words([0; ROW_WORDS]), None);
/// ```
#[derive(Clone, Copy, Debug, PartialEq, Eq, Hash)]
pub struct Row {
    /// What the row stands for.
    pub kind: Kind,
    /// An operator or flags, by the kind, and [`GROUPED`].
    pub mark: u32,
    /// The place of the token that the row stands for.
    pub place: u32,
    /// References of the children.
    pub children: [u32; 4],
    /// The reference of the next row in a list.
    pub next: u32,
    /// The place of the last token of the piece that the row stands for, as [`Node::end`] has it. The
    /// check and the writer don't look at it.
    pub end: u32,
}

impl Row {
    /// A row of a kind at a place, with no mark, no children and no next, and with end 0.
    pub fn new(kind: Kind, place: u32) -> Row {
        Row { kind, mark: 0, place, children: [0; 4], next: 0, end: 0 }
    }

    /// The row of a reference in a pool; none where the pool has no such row, or it is of no kind.
    pub fn at(pool: &[u32], reference: u32) -> Option<Row> {
        let number = (reference as usize).checked_sub(1)?;
        let words = pool.chunks_exact(ROW_WORDS).nth(number)?;
        Row::from_words(words.try_into().ok()?)
    }

    /// Puts the row into a pool in the place of a reference; false where the pool has no such row.
    ///
    /// ```
    /// use shigthapul::{Kind, Row, ROW_WORDS};
    ///
    /// let mut pool = [0; 2 * ROW_WORDS];
    /// let row = Row::new(Kind::Break, 4);
    /// assert!(row.put(&mut pool, 2));
    /// assert_eq!(Row::at(&pool, 2), Some(row));
    /// assert!(!row.put(&mut pool, 0) && !row.put(&mut pool, 3));
    /// ```
    pub fn put(self, pool: &mut [u32], reference: u32) -> bool {
        let number = (reference as usize).checked_sub(1);
        match number.and_then(|number| pool.chunks_exact_mut(ROW_WORDS).nth(number)) {
            Some(words) => words.copy_from_slice(&self.words()),
            None => return false,
        }
        true
    }

    /// The row of its words; none where the first is no kind.
    pub fn from_words(words: [u32; ROW_WORDS]) -> Option<Row> {
        let [kind, mark, place, c0, c1, c2, c3, next, end] = words;
        let kind = Kind::from_number(kind)?;
        Some(Row { kind, mark, place, children: [c0, c1, c2, c3], next, end })
    }

    /// The words of the row.
    pub fn words(self) -> [u32; ROW_WORDS] {
        let [c0, c1, c2, c3] = self.children;
        [self.kind.number(), self.mark, self.place, c0, c1, c2, c3, self.next, self.end]
    }
}

/// An accepted script, expression or statement: its tree in the lent pool.
///
/// ```
/// use shigthapul::{one_expression, Kind, Mode, ROW_WORDS};
///
/// // `f ( a , b )` and EOF
/// let tokens = [0x0700, 0x0805, 0x0700, 0x080C, 0x0700, 0x0806, 0x0200];
/// let mut pool = [0; 10 * ROW_WORDS];
/// let tree = one_expression(&tokens, &mut pool, 0, Mode::Strict).unwrap();
///
/// let call = tree.root().unwrap();
/// assert_eq!(call.kind(), Kind::Call);
/// assert_eq!(call.child(0).unwrap().place(), 0);
/// let arguments: Vec<usize> = call.list(1).map(|argument| argument.place()).collect();
/// assert_eq!(arguments, [2, 4]);
///
/// assert_eq!(tree.len(), 4);
/// assert_eq!(tree.of_kind(Kind::Identifier).count(), 3);
/// ```
#[derive(Clone, Copy, PartialEq, Eq)]
pub struct Tree<'a> {
    words: &'a [u32],
    root: u32,
    last_place: usize,
}

impl<'a> Tree<'a> {
    /// The tree in the first `rows` rows of the pool.
    pub(crate) fn new(pool: &'a [u32], root: u32, rows: usize, last_place: usize) -> Tree<'a> {
        Tree { words: &pool[..ROW_WORDS * rows], root, last_place }
    }

    /// The root: a block, a statement or an expression. Only a lone Empty token has none.
    pub fn root(self) -> Option<Node<'a>> {
        self.node(self.root)
    }

    /// The place of the last token that was used.
    pub fn last_place(self) -> usize {
        self.last_place
    }

    /// How many rows the tree has.
    pub fn len(self) -> usize {
        self.words.len() / ROW_WORDS
    }

    /// Whether the tree has no row.
    pub fn is_empty(self) -> bool {
        self.words.is_empty()
    }

    /// The words of the rows, [`ROW_WORDS`] to a row.
    pub fn words(self) -> &'a [u32] {
        self.words
    }

    /// The node of a reference, if there is such a row.
    pub fn node(self, reference: u32) -> Option<Node<'a>> {
        let row = Row::at(self.words, reference)?;
        Some(Node { tree: self, reference, row })
    }

    /// Every node in the order of the rows: parts come before wholes.
    ///
    /// ```
    /// use shigthapul::{one_expression, Mode, ROW_WORDS};
    ///
    /// // `! a` and EOF
    /// let mut pool = [0; 2 * ROW_WORDS];
    /// let tree = one_expression(&[0x080E, 0x0700, 0x0200], &mut pool, 0, Mode::Strict).unwrap();
    /// let lines: Vec<String> = tree.nodes().map(|node| node.to_string()).collect();
    /// assert_eq!(lines, ["identifier at 1", "prefix ! at 0"]);
    /// ```
    pub fn nodes(self) -> impl Iterator<Item = Node<'a>> {
        (1..=self.len() as u32).filter_map(move |reference| self.node(reference))
    }

    /// The nodes of a kind, in the order of the rows.
    pub fn of_kind(self, kind: Kind) -> impl Iterator<Item = Node<'a>> {
        self.nodes().filter(move |node| node.kind() == kind)
    }

    /// Every node with its depth, from the root down, a whole before its parts.
    ///
    /// A tree may be as deep as it has rows, and this takes no recursion.
    ///
    /// ```
    /// use shigthapul::{one_expression, Mode, ROW_WORDS};
    ///
    /// // `a + b` and EOF
    /// let mut pool = [0; 10 * ROW_WORDS];
    /// let tokens = [0x0700, 0x0801, 0x0700, 0x0200];
    /// let tree = one_expression(&tokens, &mut pool, 0, Mode::Strict).unwrap();
    /// let lines: Vec<_> = tree.walk().map(|(depth, node)| format!("{depth} {node}")).collect();
    /// assert_eq!(lines, ["0 infix + at 1", "1 identifier at 0", "1 identifier at 2"]);
    /// ```
    pub fn walk(self) -> Walk<'a> {
        Walk::new(self.root())
    }

    /// The tree as a script again, as [`write`](crate::write) writes it: every operation and call in
    /// brackets, every simple statement with its semicolon. A tree with no root is refused.
    pub fn to_tokens(self) -> Result<Tokens, Refusal> {
        tokens_of(self.words, self.root)
    }

    /// The tree as a JSON text, as [`json`](crate::json()) writes it, with the payloads of the token file
    /// that it was read from. A tree with no root is refused. Where rows share a long field the text can be
    /// far longer than the file: for a tree that others have made lend a buffer to `json` instead.
    ///
    /// ```
    /// use shigthapul::{one_expression, Mode, TokenFile, ROW_WORDS};
    ///
    /// // `"C:\\temp"` and EOF
    /// let bytes = b"\x04\0\x08C:\\\\temp\x02\0\0";
    /// let mut words = [0; 2];
    /// let file = TokenFile::read(bytes, &mut words).unwrap();
    /// let mut pool = [0; ROW_WORDS];
    /// let tree = one_expression(file.words(), &mut pool, 0, Mode::Strict).unwrap();
    /// let text = r#"{"kind":"string","mark":0,"place":0,"payload":"C:\\temp"}"#;
    /// assert_eq!(tree.to_json(bytes).unwrap(), text);
    /// ```
    pub fn to_json(self, file: &[u8]) -> Result<String, Refusal> {
        json_of(self.words, self.root, file)
    }
}

impl fmt::Debug for Tree<'_> {
    fn fmt(&self, f: &mut fmt::Formatter<'_>) -> fmt::Result {
        f.debug_list().entries(self.nodes().map(|node| node.row)).finish()
    }
}

/// A row of a tree, with the tree that its references belong to.
///
/// It is displayed in words: kind, operator or flags, place.
///
/// ```
/// use shigthapul::{one_expression, Mode, ROW_WORDS};
///
/// // `( thread f ( ) )` and EOF
/// let tokens = [0x0805, 0x091A, 0x0700, 0x0805, 0x0806, 0x0806, 0x0200];
/// let mut pool = [0; 10 * ROW_WORDS];
/// let call = one_expression(&tokens, &mut pool, 0, Mode::Strict).unwrap().root().unwrap();
/// assert!(call.is_thread() && call.is_grouped() && !call.is_async());
/// assert_eq!(call.to_string(), "call thread grouped at 3");
/// ```
#[derive(Clone, Copy, PartialEq, Eq)]
pub struct Node<'a> {
    tree: Tree<'a>,
    reference: u32,
    row: Row,
}

impl<'a> Node<'a> {
    /// The node's reference: its row's number plus one.
    pub fn reference(self) -> u32 {
        self.reference
    }

    /// The node's row.
    pub fn row(self) -> Row {
        self.row
    }

    /// What the node stands for.
    pub fn kind(self) -> Kind {
        self.row.kind
    }

    /// The place of the token that the node stands for.
    pub fn place(self) -> usize {
        self.row.place as usize
    }

    /// The place of the last token of the piece that the node stands for: of the token that was the
    /// current one when its row was built.
    ///
    /// A semicolon that was eaten belongs to the piece; the brackets around it don't. The guide,
    /// `docs/GUIDE.md`, says by kind where a piece ends.
    ///
    /// ```
    /// use shigthapul::{one_statement, Mode, ROW_WORDS};
    ///
    /// // `( a + b ) ;` and EOF
    /// let tokens = [0x0805, 0x0700, 0x0801, 0x0700, 0x0806, 0x080B, 0x0200];
    /// let mut pool = [0; 10 * ROW_WORDS];
    /// let statement = one_statement(&tokens, &mut pool, 0, Mode::Strict).unwrap().root().unwrap();
    /// assert_eq!((statement.place(), statement.end()), (0, 5));
    /// let sum = statement.child(0).unwrap();
    /// assert_eq!((sum.place(), sum.end()), (2, 3));
    /// ```
    pub fn end(self) -> usize {
        self.row.end as usize
    }

    /// The child of a slot, 0 to 3, or the first where the slot has a list. [`Kind`] says which
    /// child is where.
    pub fn child(self, slot: usize) -> Option<Node<'a>> {
        self.tree.node(*self.row.children.get(slot)?)
    }

    /// The node behind this one in its list.
    pub fn next_in_list(self) -> Option<Node<'a>> {
        self.tree.node(self.row.next)
    }

    /// The members of a slot, 0 to 3: none, one child, or a list.
    ///
    /// ```
    /// use shigthapul::{one_expression, Mode, ROW_WORDS};
    ///
    /// // `[ a , b ]` and EOF
    /// let tokens = [0x0822, 0x0700, 0x080C, 0x0700, 0x0823, 0x0200];
    /// let mut pool = [0; 10 * ROW_WORDS];
    /// let array = one_expression(&tokens, &mut pool, 0, Mode::Strict).unwrap().root().unwrap();
    /// assert_eq!(array.list(0).count(), 2);
    /// assert_eq!(array.list(1).count(), 0);
    /// ```
    pub fn list(self, slot: usize) -> List<'a> {
        List::new(self.child(slot))
    }

    /// The members of all slots, one slot after the other.
    pub fn children(self) -> impl Iterator<Item = Node<'a>> {
        (0..self.row.children.len()).flat_map(move |slot| self.list(slot))
    }

    /// Whether the node stands in brackets.
    pub fn is_grouped(self) -> bool {
        self.row.mark & GROUPED != 0
    }

    /// The operator of an infix node.
    pub fn infix(self) -> Option<Infix> {
        self.mark_of(Kind::Infix).and_then(Infix::from_number)
    }

    /// The operator of a prefix node.
    pub fn prefix(self) -> Option<Prefix> {
        self.mark_of(Kind::Prefix).and_then(Prefix::from_number)
    }

    /// The operator of a suffix node.
    pub fn suffix(self) -> Option<Suffix> {
        self.mark_of(Kind::Suffix).and_then(Suffix::from_number)
    }

    /// Whether the node is the bool `true`.
    pub fn is_true(self) -> bool {
        self.has(Kind::Bool, TRUE)
    }

    /// Whether the node is a call that is started on a thread.
    pub fn is_thread(self) -> bool {
        self.has(Kind::Call, THREAD)
    }

    /// Whether the node is a call that is not waited for.
    pub fn is_async(self) -> bool {
        self.has(Kind::Call, ASYNC)
    }

    /// Whether the node is a raw shell expression.
    pub fn is_raw(self) -> bool {
        self.has(Kind::Shell, RAW)
    }

    /// The mark without the flag of brackets, where the node is of a kind.
    fn mark_of(self, kind: Kind) -> Option<u32> {
        (self.row.kind == kind).then_some(self.row.mark & !GROUPED)
    }

    /// Whether the node is of a kind and has a flag in its mark.
    fn has(self, kind: Kind, flag: u32) -> bool {
        self.mark_of(kind).map_or(false, |mark| mark & flag != 0)
    }

    /// The operator or the word of a bool, empty for other kinds.
    fn sign(self) -> &'static str {
        let of_bool =
            self.mark_of(Kind::Bool).map(|_| if self.is_true() { "true" } else { "false" });
        of_bool
            .or_else(|| self.infix().map(Infix::text))
            .or_else(|| self.prefix().map(Prefix::text))
            .or_else(|| self.suffix().map(Suffix::text))
            .unwrap_or("")
    }
}

impl fmt::Display for Node<'_> {
    fn fmt(&self, f: &mut fmt::Formatter<'_>) -> fmt::Result {
        let flags = [
            (true, self.sign()),
            (self.is_thread(), "thread"),
            (self.is_async(), "async"),
            (self.is_raw(), "raw"),
            (self.is_grouped(), "grouped"),
        ];
        write!(f, "{}", self.kind())?;
        for (_, word) in flags.iter().filter(|(is, word)| *is && !word.is_empty()) {
            write!(f, " {}", word)?;
        }
        write!(f, " at {}", self.place())
    }
}

impl fmt::Debug for Node<'_> {
    fn fmt(&self, f: &mut fmt::Formatter<'_>) -> fmt::Result {
        self.row.fmt(f)
    }
}
