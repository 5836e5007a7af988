//! The symbol reader: one pass over the bytes, refusals 2, 3, 4 and 6.

use crate::lines::{later_lines, line_end, Spot};
use crate::reserved::{self, Form, Word};
use crate::Refusal;

const LONGEST_WORD: usize = 255;
pub const MOST_DIGITS: usize = 18;

/// What a byte may be in a word: nothing, a capital or digit, another byte.
const OUTSIDE: u8 = 0;
const CAPITAL: u8 = 1;
const SMALL: u8 = 2;

static IN_WORD: [u8; 256] = {
    let mut table = [OUTSIDE; 256];
    let mut byte = 0;
    while byte < 256 {
        table[byte] = match byte as u8 {
            b'A'..=b'Z' | b'0'..=b'9' => CAPITAL,
            b'a'..=b'z' | b'_' => SMALL,
            _ => OUTSIDE,
        };
        byte += 1;
    }
    table
};

/// What a byte may begin between symbols: nothing, a blank, a line end, a comment.
const NOTHING: u8 = 0;
const BLANK: u8 = 1;
const LINE_END: u8 = 2;
const COMMENT: u8 = 3;

static BETWEEN: [u8; 256] = {
    let mut table = [NOTHING; 256];
    table[b' ' as usize] = BLANK;
    table[b'\t' as usize] = BLANK;
    table[b'\r' as usize] = LINE_END;
    table[b'\n' as usize] = LINE_END;
    table[b'!' as usize] = COMMENT;
    table[b'/' as usize] = COMMENT;
    table
};

/// A number as written, without its dot.
#[derive(Clone, Copy, Debug, PartialEq, Eq)]
pub struct Number {
    pub value: i64,
    pub decimals: u8,
    /// Neither a sign nor a dot was written.
    pub plain: bool,
}

#[derive(Clone, Copy, Debug, PartialEq, Eq)]
pub enum Kind {
    Name,
    Form(Form),
    Number,
    String,
    Open,
    Close,
    OpenBracket,
    CloseBracket,
    Comma,
    Semicolon,
    Colon,
    Equals,
    Star,
    Dot,
    Dots,
    End,
}

#[derive(Clone, Copy, Debug, PartialEq, Eq)]
pub struct Symbol {
    pub kind: Kind,
    pub at: Spot,
    pub length: u32,
}

impl Symbol {
    /// What stands for the symbol before one is read.
    pub const NONE: Symbol = Symbol {
        kind: Kind::End,
        at: Spot::FIRST,
        length: 0,
    };
}

/// The place reached in a text, and the line it is on.
#[derive(Clone, Copy, Debug)]
pub struct Cursor<'t> {
    text: &'t [u8],
    at: usize,
    line: usize,
    /// Where the line begins.
    beginning: usize,
    number: Number,
}

impl<'t> Cursor<'t> {
    pub fn new(text: &'t [u8]) -> Self {
        let number = Number {
            value: 0,
            decimals: 0,
            plain: true,
        };
        Cursor {
            text,
            at: 0,
            line: 1,
            beginning: 0,
            number,
        }
    }

    /// The number that was read last.
    pub fn last_number(&self) -> Number {
        self.number
    }

    /// Reads the next symbol; at the end of the text that is `Kind::End`. It is
    /// written where it is wanted, since copying it takes a good part of the time.
    pub fn next(&mut self, symbol: &mut Symbol) -> Result<(), Refusal> {
        self.skip()?;
        let place = self.at;
        let kind = match self.peek(0) {
            None => Kind::End,
            Some(b'A'..=b'Z' | b'a'..=b'z') => self.word()?,
            Some(b'0'..=b'9') => self.number()?,
            Some(b'+' | b'-') if is_digit(self.peek(1)) => self.number()?,
            Some(b'"') => self.string()?,
            Some(byte) => self.mark(byte)?,
        };
        symbol.kind = kind;
        symbol.at = self.spot(place);
        symbol.length = (self.at - place) as u32;
        Ok(())
    }

    /// A place behind the line end that was passed last. No symbol holds one, so
    /// this serves for any place from the symbol's first byte on.
    fn spot(&self, place: usize) -> Spot {
        Spot::on_line(place, self.line, self.beginning)
    }

    fn refusal(&self, number: u8, place: usize) -> Refusal {
        Refusal::new(number, self.spot(place))
    }

    fn peek(&self, ahead: usize) -> Option<u8> {
        self.text.get(self.at + ahead).copied()
    }

    /// Passes separators and comments.
    fn skip(&mut self) -> Result<(), Refusal> {
        while let Some(byte) = self.peek(0) {
            match BETWEEN[usize::from(byte)] {
                NOTHING => break,
                BLANK => self.at += 1,
                LINE_END => self.end_line(byte),
                _ if self.peek(1) == Some(b'!') && byte == b'!' => self.line_comment(),
                _ if self.peek(1) == Some(b'*') && byte == b'/' => self.block_comment()?,
                _ => break,
            }
        }
        Ok(())
    }

    /// Passes a line end, which begins with this byte.
    fn end_line(&mut self, first: u8) {
        self.at += line_end(first, self.peek(1));
        self.line += 1;
        self.beginning = self.at;
    }

    fn line_comment(&mut self) {
        let rest = &self.text[self.at..];
        let length = rest.iter().position(|&byte| byte == b'\r' || byte == b'\n');
        self.at += length.unwrap_or(rest.len());
    }

    fn block_comment(&mut self) -> Result<(), Refusal> {
        // From behind the opening: its star does not close the comment.
        let first = self.at + 2;
        let inside = &self.text[first..];
        let Some(length) = inside.windows(2).position(|pair| pair == b"*/") else {
            return Err(self.refusal(3, self.at));
        };
        self.at = first + length + 2;
        for beginning in later_lines(&inside[..length]) {
            self.line += 1;
            self.beginning = first + beginning;
        }
        Ok(())
    }

    fn word(&mut self) -> Result<Kind, Refusal> {
        let place = self.at;
        let rest = &self.text[place..];
        let mut found = OUTSIDE;
        let mut length = 0;
        while let Some(&byte) = rest.get(length) {
            let class = IN_WORD[usize::from(byte)];
            if class == OUTSIDE {
                break;
            }
            found |= class;
            length += 1;
        }
        if length > LONGEST_WORD {
            return Err(self.refusal(4, place));
        }
        self.at += length;
        // Reserved words have capitals and digits only.
        if found != CAPITAL {
            return Ok(Kind::Name);
        }
        match reserved::classify(&rest[..length]) {
            Word::Name => Ok(Kind::Name),
            Word::Form(form) => Ok(Kind::Form(form)),
            Word::Foreign => Err(self.refusal(6, place)),
        }
    }

    fn number(&mut self) -> Result<Kind, Refusal> {
        let place = self.at;
        let signed = !is_digit(self.peek(0));
        self.at += usize::from(signed);
        let (whole_digits, whole) = self.digits(0);
        let dotted = self.peek(0) == Some(b'.') && is_digit(self.peek(1));
        self.at += usize::from(dotted);
        let (decimals, value) = self.digits(whole);
        if whole_digits + decimals > MOST_DIGITS {
            return Err(self.refusal(4, place));
        }
        let negative = self.text[place] == b'-';
        self.number = Number {
            value: if negative { -value } else { value },
            decimals: decimals as u8,
            plain: !signed && !dotted,
        };
        Ok(Kind::Number)
    }

    /// Passes digits; gives their count and the value with them appended,
    /// which is of no use beyond `MOST_DIGITS`.
    fn digits(&mut self, before: i64) -> (usize, i64) {
        let start = self.at;
        let mut value = before;
        while let Some(digit @ b'0'..=b'9') = self.peek(0) {
            value = value.wrapping_mul(10).wrapping_add(i64::from(digit - b'0'));
            self.at += 1;
        }
        (self.at - start, value)
    }

    fn string(&mut self) -> Result<Kind, Refusal> {
        let opening = self.at;
        self.at += 1;
        loop {
            match self.peek(0) {
                None => return Err(self.refusal(3, opening)),
                Some(b'"') => break,
                Some(0..=31) => return Err(self.refusal(2, self.at)),
                Some(b'\\') => self.escape()?,
                Some(_) => self.at += 1,
            }
        }
        self.at += 1;
        Ok(Kind::String)
    }

    fn escape(&mut self) -> Result<(), Refusal> {
        let length = match self.peek(1) {
            Some(b'"' | b'\\') => 2,
            Some(b'u') if (2..6).all(|ahead| is_hexadecimal(self.peek(ahead))) => 6,
            _ => return Err(self.refusal(2, self.at)),
        };
        self.at += length;
        Ok(())
    }

    fn mark(&mut self, byte: u8) -> Result<Kind, Refusal> {
        let kind = match byte {
            b'(' => Kind::Open,
            b')' => Kind::Close,
            b'[' => Kind::OpenBracket,
            b']' => Kind::CloseBracket,
            b',' => Kind::Comma,
            b';' => Kind::Semicolon,
            b':' => Kind::Colon,
            b'=' => Kind::Equals,
            b'*' => Kind::Star,
            b'.' if self.peek(1) == Some(b'.') => Kind::Dots,
            b'.' => Kind::Dot,
            _ => return Err(self.refusal(2, self.at)),
        };
        self.at += if kind == Kind::Dots { 2 } else { 1 };
        Ok(kind)
    }
}

fn is_digit(byte: Option<u8>) -> bool {
    byte.is_some_and(|byte| byte.is_ascii_digit())
}

fn is_hexadecimal(byte: Option<u8>) -> bool {
    byte.is_some_and(|byte| byte.is_ascii_hexdigit())
}
