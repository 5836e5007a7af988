//! From symbols to bytes: blanks, line ends and comments between, or nothing.

use crate::random::Random;
use crate::sketch::Style;

const BLANKS: [&str; 6] = [" ", "\n", "\t", "\r\n", "  ", "\r"];
const COMMENTS: [&str; 8] = [
    "/**/",
    "/* a comment */",
    "!!\n",
    "!! to the end of the line\r",
    "/* !! */",
    "!! /* \n",
    "/*/*/",
    "/* \u{E9} * / \0 **/",
];

/// The line ends that a text has: always the same, or any, several in a row too.
const LINE_ENDS: [&[&str]; 6] = [
    &["\n"],
    &["\r"],
    &["\r\n"],
    &["\n\r"],
    &["\n", "\r", "\r\n", "\n\r"],
    &["\n\n", "\r\r", "\r\n\r\n", "\r\r\n", "\r\n\n", "\n\r\n\r"],
];

/// How a text is laid out. Its line ends are drawn beside all else, so that the
/// same seed gives the same symbols with and without them.
struct Layout {
    style: Style,
    dense: bool,
    comments: bool,
    aside: Random,
    line_ends: Option<&'static [&'static str]>,
}

pub fn laid_out(random: &mut Random, symbols: &[String], style: Style) -> Vec<u8> {
    let mut layout = Layout::new(random, style);
    let mut text = Vec::new();
    for symbol in symbols {
        layout.gap(random, &mut text, symbol);
        text.extend_from_slice(symbol.as_bytes());
    }
    if random.chance(1, 8) {
        text.extend_from_slice(random.pick(&[" ", "\n", "!! end", "/* end */ "]).as_bytes());
    }
    let last = layout.line_end((1, 4));
    text.extend_from_slice(last.unwrap_or("").as_bytes());
    text
}

impl Layout {
    fn new(random: &mut Random, style: Style) -> Self {
        let mut aside = random.aside();
        let line_ends = LINE_ENDS[aside.below(LINE_ENDS.len())];
        Layout {
            style,
            dense: style == Style::Small || random.chance(1, 3),
            comments: random.chance(1, if style == Style::Small { 12 } else { 3 }),
            line_ends: aside.chance(2, 3).then_some(line_ends),
            aside,
        }
    }

    /// A line end of the text, in so many of so many cases, if it has some.
    fn line_end(&mut self, (part, whole): (usize, usize)) -> Option<&'static str> {
        let line_ends = self.line_ends.filter(|_| self.aside.chance(part, whole))?;
        Some(self.aside.pick(line_ends))
    }

    fn gap(&mut self, random: &mut Random, text: &mut Vec<u8>, next: &str) {
        let in_word = |byte: &u8| byte.is_ascii_alphanumeric() || *byte == b'_';
        let glued =
            text.last().is_some_and(in_word) && next.as_bytes().first().is_some_and(in_word);
        let filler = if self.comments && random.chance(1, 12) {
            let comment = random.pick(&COMMENTS);
            self.commented(comment)
        } else if self.dense || random.chance(1, 2) {
            self.nothing(text.last(), glued).to_owned()
        } else {
            let blank = random.pick(&BLANKS);
            self.line_end((1, 2)).unwrap_or(blank).to_owned()
        };
        text.extend_from_slice(filler.as_bytes());
    }

    /// What is between two symbols that need nothing between, or no more than a
    /// blank: a line end now and then, behind a comma more often.
    fn nothing(&mut self, before: Option<&u8>, glued: bool) -> &'static str {
        let part = match (self.style, before) {
            _ if glued => (1, 3),
            (_, Some(b',')) => (1, 2),
            (Style::Small, _) => (1, 16),
            (Style::Large, _) => (1, 8),
        };
        let usual = if glued { " " } else { "" };
        self.line_end(part).unwrap_or(usual)
    }

    /// A comment, its last line end or one within it another.
    fn commented(&mut self, comment: &str) -> String {
        let Some(line_end) = self.line_end((2, 3)) else {
            return comment.to_owned();
        };
        match comment.strip_suffix("*/") {
            Some(open) if self.aside.chance(1, 2) => format!("{open}{line_end}*/"),
            Some(_) => comment.replacen("/*", &format!("/*{line_end}"), 1),
            None => format!("{}{line_end}", comment.trim_end_matches(['\r', '\n'])),
        }
    }
}
