//! Signatures made of types, and of text.
//!
//! The grammar of the text is that of `flakuzhen_text.h`; the two are held to each other by a test.
//! What is accepted the library decides: the bytes are handed to it, and a refusal is told at the
//! token that the refused item was made of.

use crate::{read_signature, Convention, Refusal};
use std::error::Error;
use std::fmt;
use std::ops::Deref;
use std::str::FromStr;

/// A type of an argument, a result or a field.
#[derive(Clone, Debug, PartialEq, Eq)]
pub enum Type {
    I8,
    U8,
    I16,
    U16,
    I32,
    U32,
    I64,
    U64,
    Pointer,
    Single,
    Double,
    LongDouble,
    Struct(Vec<Type>),
}

const CONVENTION: u8 = 0x01;
const RESULT: u8 = 0x02;
const ARGUMENTS: u8 = 0x03;
const ELLIPSIS: u8 = 0x04;
const INTEGER: u8 = 0x10;
const FLOAT: u8 = 0x11;
const STRUCT: u8 = 0x12;
/// A header's tag and its length.
const HEADER: usize = 3;

/// The words of items whose body is one byte, with tag and code.
const WORDS: [(&str, u8, u8); 16] = [
    ("ppc64", CONVENTION, 1),
    ("z", CONVENTION, 2),
    ("aix", CONVENTION, 3),
    ("ppc64b", CONVENTION, 4),
    ("i8", INTEGER, 0),
    ("u8", INTEGER, 1),
    ("i16", INTEGER, 2),
    ("u16", INTEGER, 3),
    ("i32", INTEGER, 4),
    ("u32", INTEGER, 5),
    ("i64", INTEGER, 6),
    ("u64", INTEGER, 7),
    ("pointer", INTEGER, 8),
    ("single", FLOAT, 0),
    ("double", FLOAT, 1),
    ("longdouble", FLOAT, 2),
];

/// A signature that the library accepts. It stands for its bytes wherever these are taken.
///
/// ```
/// use flakuzhen::{Convention, Signature, Type};
///
/// let corner = Type::Struct(vec![Type::Double, Type::Double]);
/// let built = Signature::of(Convention::Ppc64)
///     .result(Type::I64)
///     .argument(Type::I32)
///     .argument(corner)
///     .build()?;
/// let parsed: Signature = "ppc64 i64(i32, {double, double})".parse()?;
/// assert_eq!(built, parsed);
/// assert_eq!(parsed.to_string(), "ppc64 i64(i32, {double, double})");
/// assert_eq!(flakuzhen::measure(&parsed)?.values, 20);
///
/// let fault = "ppc64 void(i32,\n  {longdouble})".parse::<Signature>().unwrap_err();
/// assert_eq!((fault.line, fault.column), (2, 4));
/// assert_eq!(fault.refusal().map(|refusal| refusal.number), Some(5));
/// let fault = "ppc64 void(int)".parse::<Signature>().unwrap_err();
/// let said = "line 1, column 12: expected a type, '...' or ')'";
/// assert_eq!(fault.to_string(), said);
/// # Ok::<(), Box<dyn std::error::Error>>(())
/// ```
#[derive(Clone, Debug, PartialEq, Eq, Hash)]
pub struct Signature {
    bytes: Vec<u8>,
}

impl Signature {
    /// Begins a signature, without a result and without arguments.
    pub fn of(convention: Convention) -> Builder {
        Builder {
            convention,
            result: None,
            ellipsis: false,
            arguments: Vec::new(),
        }
    }

    /// The signature with these bytes.
    pub fn from_bytes(bytes: &[u8]) -> Result<Signature, Refusal> {
        accepted(bytes.to_vec())
    }

    pub fn as_bytes(&self) -> &[u8] {
        &self.bytes
    }
}

impl Deref for Signature {
    type Target = [u8];

    fn deref(&self) -> &[u8] {
        &self.bytes
    }
}

impl AsRef<[u8]> for Signature {
    fn as_ref(&self) -> &[u8] {
        &self.bytes
    }
}

fn accepted(bytes: Vec<u8>) -> Result<Signature, Refusal> {
    read_signature(&bytes)?;
    Ok(Signature { bytes })
}

/// A signature in the making.
#[derive(Clone, Debug)]
pub struct Builder {
    convention: Convention,
    result: Option<Type>,
    ellipsis: bool,
    arguments: Vec<Type>,
}

impl Builder {
    pub fn result(mut self, of: Type) -> Builder {
        self.result = Some(of);
        self
    }

    pub fn argument(mut self, of: Type) -> Builder {
        self.arguments.push(of);
        self
    }

    pub fn arguments(mut self, of: impl IntoIterator<Item = Type>) -> Builder {
        self.arguments.extend(of);
        self
    }

    /// The prototype has an ellipsis.
    pub fn ellipsis(mut self) -> Builder {
        self.ellipsis = true;
        self
    }

    /// The signature, or why the library refuses it.
    pub fn build(&self) -> Result<Signature, Refusal> {
        let code = match self.convention {
            Convention::Ppc64 => 1,
            Convention::Z => 2,
            Convention::Aix => 3,
            Convention::Ppc64b => 4,
        };
        let mut bytes = item(CONVENTION, &[code]);
        bytes.extend(item(RESULT, &items(&self.result)));
        if self.ellipsis {
            bytes.extend(item(ELLIPSIS, &[]));
        }
        bytes.extend(item(ARGUMENTS, &items(&self.arguments)));
        accepted(bytes)
    }
}

impl Type {
    /// The type's item, for a walk.
    pub fn item(&self) -> Vec<u8> {
        let (tag, code) = match self {
            Type::Struct(fields) => return item(STRUCT, &items(fields)),
            Type::I8 => (INTEGER, 0),
            Type::U8 => (INTEGER, 1),
            Type::I16 => (INTEGER, 2),
            Type::U16 => (INTEGER, 3),
            Type::I32 => (INTEGER, 4),
            Type::U32 => (INTEGER, 5),
            Type::I64 => (INTEGER, 6),
            Type::U64 => (INTEGER, 7),
            Type::Pointer => (INTEGER, 8),
            Type::Single => (FLOAT, 0),
            Type::Double => (FLOAT, 1),
            Type::LongDouble => (FLOAT, 2),
        };
        item(tag, &[code])
    }
}

/// An item. A body of over 65,535 bytes has no length that says so: the library refuses it as too
/// long a signature before it looks at any length.
fn item(tag: u8, body: &[u8]) -> Vec<u8> {
    let [high, low] = (body.len() as u16).to_be_bytes();
    [&[tag, high, low], body].concat()
}

fn items<'a>(types: impl IntoIterator<Item = &'a Type>) -> Vec<u8> {
    types.into_iter().flat_map(Type::item).collect()
}

// ---- bytes to text ----

impl fmt::Display for Signature {
    /// The one text of this signature: one space after the convention and after each comma.
    fn fmt(&self, to: &mut fmt::Formatter<'_>) -> fmt::Result {
        let bytes = &self.bytes[..];
        let result = 4 + HEADER;
        let result_end = result + body_length(&bytes[4..]);
        let ellipsis = bytes[result_end] == ELLIPSIS;
        let arguments = result_end + if ellipsis { 2 * HEADER } else { HEADER };
        write!(to, "{} ", word(bytes[0], bytes[3]))?;
        match result == result_end {
            true => to.write_str("void")?,
            false => write_types(to, &bytes[result..result_end])?,
        }
        to.write_str("(")?;
        write_types(to, &bytes[arguments..])?;
        to.write_str(match (ellipsis, arguments == bytes.len()) {
            (false, _) => ")",
            (true, true) => "...)",
            (true, false) => ", ...)",
        })
    }
}

fn body_length(header: &[u8]) -> usize {
    usize::from(u16::from_be_bytes([header[1], header[2]]))
}

fn word(tag: u8, code: u8) -> &'static str {
    let known = WORDS.iter().find(|&&(_, of, its)| (of, its) == (tag, code));
    known.map_or("?", |(word, _, _)| word)
}

/// The types of an accepted signature, with commas between them.
fn write_types(to: &mut fmt::Formatter<'_>, mut items: &[u8]) -> fmt::Result {
    while !items.is_empty() {
        let (item, rest) = items.split_at(HEADER + body_length(items));
        if item[0] == STRUCT {
            to.write_str("{")?;
            write_types(to, &item[HEADER..])?;
            to.write_str("}")?;
        } else {
            to.write_str(word(item[0], item[HEADER]))?;
        }
        if !rest.is_empty() {
            to.write_str(", ")?;
        }
        items = rest;
    }
    Ok(())
}

// ---- text to bytes ----

/// Why a text is no signature, and where: lines and columns count from 1, columns in bytes.
#[derive(Clone, Debug, PartialEq, Eq)]
pub struct TextFault {
    pub line: usize,
    pub column: usize,
    kind: Fault,
}

#[derive(Clone, Debug, PartialEq, Eq)]
enum Fault {
    Expected(&'static str),
    Refused(Refusal),
}

impl TextFault {
    /// What stands there by the grammar, where the text does not follow it.
    pub fn expected(&self) -> Option<&'static str> {
        match self.kind {
            Fault::Expected(what) => Some(what),
            Fault::Refused(_) => None,
        }
    }

    /// The library's refusal, where the text follows the grammar.
    pub fn refusal(&self) -> Option<Refusal> {
        match &self.kind {
            Fault::Expected(_) => None,
            Fault::Refused(refusal) => Some(*refusal),
        }
    }
}

impl fmt::Display for TextFault {
    fn fmt(&self, to: &mut fmt::Formatter<'_>) -> fmt::Result {
        write!(to, "line {}, column {}: ", self.line, self.column)?;
        match &self.kind {
            Fault::Expected(what) => write!(to, "expected {what}"),
            Fault::Refused(refusal) => write!(to, "{refusal}"),
        }
    }
}

impl Error for TextFault {}

impl FromStr for Signature {
    type Err = TextFault;

    fn from_str(text: &str) -> Result<Signature, TextFault> {
        let mut parser = Parser::of(text);
        parser.signature()?;
        let (bytes, tokens) = (parser.bytes, parser.tokens);
        accepted(bytes).map_err(|refusal| {
            // the last token to give bytes up to the place
            let token = tokens.iter().rfind(|token| token.0 as u64 <= refusal.place);
            let (_, line, column) = token.copied().unwrap_or((0, 1, 1));
            TextFault {
                line,
                column,
                kind: Fault::Refused(refusal),
            }
        })
    }
}

/// Reads a text token by token, and writes the bytes.
struct Parser<'a> {
    rest: &'a str,
    /// The token that comes next: a word, `...` or one other character; none at the text's end.
    token: &'a str,
    line: usize,
    column: usize,
    /// Where the text after the token is.
    next: (usize, usize),
    bytes: Vec<u8>,
    /// Where the bytes of each item begin, and line and column of its token.
    tokens: Vec<(usize, usize, usize)>,
}

impl<'a> Parser<'a> {
    fn of(text: &'a str) -> Parser<'a> {
        let mut parser = Parser {
            rest: text,
            token: "",
            line: 1,
            column: 1,
            next: (1, 1),
            bytes: Vec::new(),
            tokens: Vec::new(),
        };
        parser.advance();
        parser
    }

    /// Goes over so many bytes that are white space or in a comment.
    fn skip(&mut self, count: usize) {
        for byte in self.rest.bytes().take(count) {
            self.next = match byte {
                b'\n' => (self.next.0 + 1, 1),
                _ => (self.next.0, self.next.1 + 1),
            };
        }
        self.rest = &self.rest[count..];
    }

    fn advance(&mut self) {
        loop {
            let spaces = self.rest.find(|mark| !" \t\r\n\x0c".contains(mark));
            self.skip(spaces.unwrap_or(self.rest.len()));
            if !self.rest.starts_with('#') {
                break;
            }
            self.skip(self.rest.find('\n').unwrap_or(self.rest.len()));
        }
        (self.line, self.column) = self.next;
        let is_word = |mark: char| mark.is_ascii_alphanumeric() || mark == '_';
        let word = self.rest.find(|mark| !is_word(mark));
        let length = match word.unwrap_or(self.rest.len()) {
            0 if self.rest.starts_with("...") => 3,
            0 => self.rest.chars().next().map_or(0, char::len_utf8),
            length => length,
        };
        (self.token, self.rest) = self.rest.split_at(length);
        self.next.1 += length;
    }

    /// Goes on where the token is this one.
    fn takes(&mut self, token: &str) -> bool {
        let taken = self.token == token;
        if taken {
            self.advance();
        }
        taken
    }

    fn expected(&self, what: &'static str) -> TextFault {
        TextFault {
            line: self.line,
            column: self.column,
            kind: Fault::Expected(what),
        }
    }

    /// Begins an item, and gives where it does.
    fn open(&mut self, tag: u8) -> usize {
        let at = self.bytes.len();
        self.tokens.push((at, self.line, self.column));
        self.bytes.extend([tag, 0, 0]);
        at
    }

    fn close(&mut self, at: usize) {
        let length = (self.bytes.len() - at - HEADER) as u16;
        self.bytes[at + 1..at + HEADER].copy_from_slice(&length.to_be_bytes());
    }

    /// Adds the item whose word the token is, if it has one of these tags.
    fn word(&mut self, tags: &[u8]) -> bool {
        let known = WORDS
            .iter()
            .find(|(word, tag, _)| *word == self.token && tags.contains(tag));
        if let Some(&(_, tag, code)) = known {
            let at = self.open(tag);
            self.bytes.push(code);
            self.close(at);
            self.advance();
        }
        known.is_some()
    }

    fn signature(&mut self) -> Result<(), TextFault> {
        if !self.word(&[CONVENTION]) {
            return Err(self.expected("a convention: ppc64, z, aix or ppc64b"));
        }
        let result = self.open(RESULT);
        if !self.takes("void") {
            self.of_type("the result's type, or 'void'")?;
        }
        self.close(result);
        if self.token != "(" {
            return Err(self.expected("'('"));
        }
        let arguments = self.open(ARGUMENTS);
        self.advance();
        let ellipsis = self.arguments()?;
        self.close(arguments);
        if !self.token.is_empty() {
            return Err(self.expected("nothing more"));
        }
        if ellipsis {
            // the bytes have it before the arguments
            self.bytes.splice(arguments..arguments, [ELLIPSIS, 0, 0]);
            for token in &mut self.tokens {
                token.0 += if token.0 > arguments { HEADER } else { 0 };
            }
        }
        Ok(())
    }

    /// The types after `(`, and `)`. Gives whether there is an ellipsis.
    fn arguments(&mut self) -> Result<bool, TextFault> {
        if self.takes(")") {
            return Ok(false);
        }
        let mut expected = "a type, '...' or ')'";
        loop {
            if self.takes("...") {
                return match self.takes(")") {
                    true => Ok(true),
                    false => Err(self.expected("')': nothing comes after '...'")),
                };
            }
            self.of_type(expected)?;
            if self.takes(")") {
                return Ok(false);
            }
            if !self.takes(",") {
                return Err(self.expected("',' or ')'"));
            }
            expected = "a type, or '...'";
        }
    }

    /// One type, however deep.
    fn of_type(&mut self, mut expected: &'static str) -> Result<(), TextFault> {
        let mut structs = Vec::new();
        loop {
            if self.token == "{" {
                structs.push(self.open(STRUCT));
                self.advance();
                expected = "a type, or '}'";
                if self.token != "}" {
                    continue;
                }
            } else if !self.word(&[INTEGER, FLOAT]) {
                return Err(self.expected(expected));
            }
            while !structs.is_empty() && self.takes("}") {
                let at = structs.pop().expect("one is open");
                self.close(at);
            }
            if structs.is_empty() {
                return Ok(());
            }
            if !self.takes(",") {
                return Err(self.expected("',' or '}'"));
            }
            expected = "a type";
        }
    }
}
