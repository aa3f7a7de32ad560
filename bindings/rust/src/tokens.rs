//! A script that was written from a tree, and its text.
use crate::{Keyword, Symbol, Token};
use std::fmt::{Display, Write};

/// A script that was written from a tree: its token words, EOF last, and the places of their payloads.
///
/// ```
/// use shigthapul::{one_expression, Mode, Symbol, Token, ROW_WORDS};
///
/// // `a + b * c` and EOF
/// let (plus, times) = (Token::Operator(Symbol::SPlus), Token::Operator(Symbol::SMul));
/// let name = Token::Identifier;
/// let read = [name, plus, name, times, name, Token::EOF].map(Token::word);
/// let mut pool = [0; 5 * ROW_WORDS];
/// let tree = one_expression(&read, &mut pool, 0, Mode::Strict).unwrap();
///
/// let tokens = tree.to_tokens().unwrap();
/// assert_eq!(tokens.words().len(), 10);
/// assert_eq!(tokens.places(), [0, 0, 0, 0, 2, 0, 4, 0, 0, 0]);
/// let names = ["a", "+", "b", "*", "c"];
/// assert_eq!(tokens.text(|_, place| names[place]), "( a + ( b * c ) )");
/// ```
#[derive(Clone, Debug, PartialEq, Eq, Hash)]
pub struct Tokens {
    words: Vec<u16>,
    places: Vec<u32>,
}

impl Tokens {
    /// Words with their places.
    pub(crate) fn new(words: Vec<u16>, places: Vec<u32>) -> Tokens {
        Tokens { words, places }
    }

    /// The token words. They can be read like those of any script.
    pub fn words(&self) -> &[u16] {
        &self.words
    }

    /// For each word the place of its payload, by the row that it comes from; 0 where it has none.
    pub fn places(&self) -> &[u32] {
        &self.places
    }

    /// The script as text; see [`script_text`].
    pub fn text<T: Display>(&self, payload: impl FnMut(Token, usize) -> T) -> String {
        script_text(&self.words, &self.places, payload)
    }
}

/// The text of a script that was written: its tokens with blanks between, a line for each statement,
/// indented by the blocks around it. EOF is left out.
///
/// `payload` gives the text of a token that has a payload, by the token and its place.
pub fn script_text<T: Display>(
    words: &[u16],
    places: &[u32],
    mut payload: impl FnMut(Token, usize) -> T,
) -> String {
    let mut text = String::new();
    let mut layout = Layout { edge: Edge::Start, before: Token::EOF, blocks: 0, brackets: 0 };
    for (&word, &place) in words.iter().zip(places) {
        let token = Token::from_word(word).unwrap_or(Token::Unknown);
        if token == Token::EOF {
            break;
        }
        layout.step(token, &mut text);
        let done = match token {
            Token::Operator(symbol) => write!(text, "{}", symbol),
            Token::Keyword(keyword) => write!(text, "{}", keyword),
            _ if token.has_payload() => write!(text, "{}", payload(token, place as usize)),
            _ => write!(text, "#{:04X}", word),
        };
        done.expect("a string takes all");
    }
    text
}

/// What stands before the next token.
#[derive(Clone, Copy, PartialEq)]
enum Edge {
    /// Nothing.
    Start,
    /// The opening brace of a block.
    Opened,
    /// The closing brace of a block.
    Closed,
    /// A semicolon.
    Ended,
    /// A part of a statement.
    Inside,
}

/// How far a text has come. Brackets are all but the braces of blocks; a block never stands in one.
struct Layout {
    edge: Edge,
    before: Token,
    blocks: usize,
    brackets: usize,
}

impl Layout {
    /// Goes on to the next token: writes what comes before it, a blank or a new line, and takes it into
    /// account.
    fn step(&mut self, token: Token, text: &mut String) {
        use Symbol::{SLBox, SLBrace, SLParen, SRBox, SRBrace, SRparen, SSemiColon};
        let block = self.is_block(token);
        let closes = block && token == Token::Operator(SRBrace);
        if closes {
            self.blocks = self.blocks.saturating_sub(1);
        }
        match self.edge {
            Edge::Start => {}
            Edge::Inside if !closes => text.push(' '),
            Edge::Closed if goes_on(token) => text.push(' '),
            _ => *text += &format!("\n{:indent$}", "", indent = 4 * self.blocks),
        }
        self.blocks += usize::from(block && !closes);
        self.before = token;
        self.edge = match token {
            Token::Operator(SSemiColon) => Edge::Ended,
            _ if closes => Edge::Closed,
            _ if block => Edge::Opened,
            _ => Edge::Inside,
        };
        match token {
            Token::Operator(SLParen | SLBox | SLBrace) if !block => self.brackets += 1,
            Token::Operator(SRparen | SRBox | SRBrace) if !block => {
                self.brackets = self.brackets.saturating_sub(1)
            }
            _ => {}
        }
    }

    /// Whether the next token is the brace of a block, and not of a hash: a hash stands where a value
    /// or a statement starts.
    fn is_block(&self, token: Token) -> bool {
        match token {
            _ if self.brackets > 0 => false,
            Token::Operator(Symbol::SLBrace) => {
                self.edge == Edge::Inside && !takes_value(self.before)
            }
            _ => token == Token::Operator(Symbol::SRBrace),
        }
    }
}

/// Whether a value comes behind a token of a statement, outside of brackets.
fn takes_value(token: Token) -> bool {
    use Keyword::{KAssert, KCatch, KFor, KForEach, KIn, KReturn, KThrow};
    match token {
        Token::Operator(symbol) => matches!(symbol, Symbol::SComma | Symbol::SEq),
        Token::Keyword(keyword) => {
            matches!(keyword, KReturn | KThrow | KAssert | KFor | KIn | KForEach | KCatch)
        }
        _ => false,
    }
}

/// Whether a token goes on with a statement behind the closing brace of a block.
fn goes_on(token: Token) -> bool {
    use Keyword::{KCatch, KElse, KFinally};
    matches!(token, Token::Keyword(KElse | KCatch | KFinally))
}
