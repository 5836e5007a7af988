//! What a case says of units of numbers, of classes over structures and of lines
//! and columns, by its text and its answer: the ways in which requests No. 1, 2
//! and 6 can show, so that they can be counted.

mod lines;
mod over_structures;

use std::ops::Range;

use crate::Case;
use peer::{Answer, UnitAt};

/// Every flavour: of request No. 1, then of No. 2, then of No. 6.
pub const FLAVOURS: [&str; 72] = [
    "a unit",
    "a unit in a topic",
    "a unit that is ABSTRACT",
    "a unit that extends one",
    "an empty run of units",
    "a domain in a unit",
    "an attribute in a unit",
    "NUMERIC in a unit",
    "brackets with a qualified reference",
    "a unit over the base's",
    "MANDATORY alone over a number in a unit",
    "5 at a bracket",
    "5 within brackets",
    "5 at UNIT",
    "9 at a unit",
    "9 at a domain named like a unit",
    "9 at another definition named like a unit",
    "10 after a unit's EXTENDS",
    "10 in a domain's brackets",
    "10 in an attribute's brackets",
    "11 after a unit's EXTENDS",
    "11 in a domain's brackets",
    "11 in an attribute's brackets",
    "11 at a class or structure that extends a unit",
    "11 at a domain that extends a unit",
    "11 at an attribute typed by a unit",
    "10 after EXTENDS, the brackets at fault too",
    "10 at an attribute's name, the brackets at fault too",
    "10 in brackets after a wrong EXTENDS",
    "11 after EXTENDS, the brackets at fault too",
    "11 in brackets after EXTENDS of what is FINAL",
    "13 at a unit",
    "17 where the unit is at fault too",
    "19 at a unit",
    "19 at a number in a unit",
    "22 at a domain, the unit missing",
    "22 at a domain, a unit added",
    "22 at a domain, the unit no descendant",
    "22 at an attribute, the unit missing",
    "22 at an attribute, a unit added",
    "22 at an attribute, the unit no descendant",
    "a class over a structure",
    "a class over a class over a structure",
    "an attribute over a structure's",
    "MANDATORY alone over a structure's attribute",
    "256 attributes, some from a structure",
    "4 at an attribute, others from a structure",
    "9 at an attribute that a class has from a structure",
    "11 at a structure that extends a class",
    "11 at a structure that extends a class over a structure",
    "11 at an attribute typed by a class over a structure",
    "11 at an attribute typed by a class below the base's structure",
    "12 at a class that extends a FINAL structure",
    "12 at an attribute over a structure's",
    "16 at an attribute over a structure's",
    "17 at an attribute over a structure's",
    "18 at an attribute over a structure's",
    "19 at a class over a structure",
    "19 at an attribute over a structure's",
    "22 at an attribute over a structure's",
    "a refusal on a line behind an LF",
    "a refusal on a line behind a CR",
    "a refusal on a line behind a CR LF",
    "a refusal on a line behind an LF CR",
    "a refusal on a line behind an empty one",
    "a refusal on a line behind a `!!` comment",
    "a refusal on a line that begins within a comment",
    "a refusal on a line that begins with a comment's end",
    "2 at a CR in a string",
    "2 at an LF in a string",
    "5 at the end of the text behind a line end",
    "9 at an element twice, on a later line than its unit begins",
];

/// The flavours that take a longer text than a small case has.
pub const LARGE_ONLY: [&str; 2] = [
    "256 attributes, some from a structure",
    "4 at an attribute, others from a structure",
];

/// The flavours of a case.
pub fn flavours(case: &Case) -> Vec<&'static str> {
    let mut buffer = vec![0; case.buffer_len];
    let answer = peer::check(&case.text, &mut buffer);
    let view = View::new(&case.text);
    match answer {
        Answer::Accepted { book_len, .. } => {
            let book = &buffer[..book_len];
            [view.accepted(book), over_structures::accepted(&view, book)].concat()
        }
        Answer::Refused {
            number,
            place,
            line,
            column,
        } => [
            view.refused(number, place),
            over_structures::refused(&view, number, place),
            lines::refused(
                &view,
                lines::At {
                    number,
                    place,
                    line,
                    column,
                },
            ),
        ]
        .concat(),
    }
}

/// A text with its symbols and units.
struct View<'t> {
    text: &'t [u8],
    symbols: Vec<(usize, usize)>,
    units: Vec<UnitAt>,
}

/// The answer to a text that was changed, as number and place.
fn answer(text: &[u8]) -> (u8, usize) {
    match peer::check(text, &mut vec![0; peer::LONGEST_BOOK]) {
        Answer::Accepted { .. } => (0, 0),
        Answer::Refused { number, place, .. } => (number, place),
    }
}

fn is_number(symbol: &[u8]) -> bool {
    matches!(symbol.first(), Some(b'0'..=b'9' | b'+' | b'-'))
}

impl<'t> View<'t> {
    fn new(text: &'t [u8]) -> Self {
        View {
            text,
            symbols: peer::symbols(text)
                .into_iter()
                .map(|(at, length)| (at.place as usize, length))
                .collect(),
            units: peer::units(text).0,
        }
    }

    /// The symbol with this number; an empty one if there is none.
    fn symbol(&self, number: usize) -> &'t [u8] {
        match self.symbols.get(number) {
            Some(&(place, length)) => &self.text[place..place + length],
            None => b"",
        }
    }

    /// The number of the symbol at a place.
    fn number_at(&self, place: usize) -> usize {
        self.symbols.partition_point(|symbol| symbol.0 < place)
    }

    /// The unit that holds a place, at or behind its name.
    fn unit(&self, place: usize) -> Option<UnitAt> {
        let before = self.units.partition_point(|unit| unit.place <= place);
        self.units[..before].last().copied()
    }

    /// The names of a reference, which begins at this symbol.
    fn names(&self, first: usize) -> Vec<&'t [u8]> {
        let dots = (0..2).take_while(|dot| self.symbol(first + 1 + 2 * dot) == b".");
        (0..=dots.count())
            .map(|part| self.symbol(first + 2 * part))
            .collect()
    }

    /// Whether a unit of numbers of this name stands before the place.
    fn is_measure(&self, name: &[u8], place: usize) -> bool {
        let before = self.units.iter().filter(|unit| unit.place < place);
        let mut measures = before.filter(|unit| unit.kind == "unit");
        measures.any(|unit| self.symbol(self.number_at(unit.place)) == name)
    }

    /// The numbers of the symbols from one on to the unit's `;`.
    fn rest(&self, first: usize) -> Range<usize> {
        let mut end = first;
        while !matches!(self.symbol(end), b";" | b"") {
            end += 1;
        }
        first..end
    }

    /// The numbers of the symbols from `open` to `close`, behind `first`.
    fn part(&self, first: usize, open: &[u8], close: &[u8]) -> Option<Range<usize>> {
        let mut rest = self.rest(first);
        let start = rest.find(|&number| self.symbol(number) == open)?;
        let end = rest.find(|&number| self.symbol(number) == close)?;
        Some(start..end + 1)
    }

    /// The text with other bytes instead of these symbols.
    fn changed(&self, symbols: &Range<usize>, bytes: &[u8]) -> Vec<u8> {
        let (last, length) = self.symbols[symbols.end - 1];
        let (before, after) = (self.symbols[symbols.start].0, last + length);
        [&self.text[..before], bytes, &self.text[after..]].concat()
    }

    fn refused(&self, number: u8, place: usize) -> Vec<&'static str> {
        let at = self.number_at(place);
        if number == 5 {
            return self.impossible(at);
        }
        let Some(unit) = self.unit(place).filter(|_| number >= 7) else {
            return Vec::new();
        };
        match number {
            9 => self.taken(unit, place).into_iter().collect(),
            10 | 11 => {
                let one = self.reference(number, unit, at);
                one.into_iter().chain(self.two(number, unit, at)).collect()
            }
            13 if unit.kind == "unit" => vec!["13 at a unit"],
            17 => self.beyond(at).into_iter().collect(),
            19 if unit.kind == "unit" => vec!["19 at a unit"],
            19 if self.part(at, b"[", b"]").is_some() => vec!["19 at a number in a unit"],
            22 => vec![self.foreign(unit, at)],
            _ => Vec::new(),
        }
    }

    fn impossible(&self, at: usize) -> Vec<&'static str> {
        match (
            at.checked_sub(1).map(|before| self.symbol(before)),
            self.symbol(at),
        ) {
            (_, b"UNIT") => vec!["5 at UNIT"],
            (Some(b"["), b"]") => vec!["5 at a bracket", "5 within brackets"],
            (_, b"[" | b"]") => vec!["5 at a bracket"],
            (Some(b"["), _) => vec!["5 within brackets"],
            _ => Vec::new(),
        }
    }

    fn taken(&self, unit: UnitAt, place: usize) -> Option<&'static str> {
        let like = self.is_measure(self.symbol(self.number_at(place)), place);
        match unit.kind {
            "unit" => Some("9 at a unit"),
            "attribute" => None,
            _ if !like || unit.place != place => None,
            "domain" => Some("9 at a domain named like a unit"),
            _ => Some("9 at another definition named like a unit"),
        }
    }

    /// A reference that is unknown, or of a wrong sort, at this symbol.
    fn reference(&self, number: u8, unit: UnitAt, at: usize) -> Option<&'static str> {
        let names = self.names(at);
        let of_measure = self.is_measure(names[names.len() - 1], self.symbols[at].0);
        match (number, unit.kind, self.symbol(at - 1)) {
            (10, "unit", _) => Some("10 after a unit's EXTENDS"),
            (11, "unit", _) => Some("11 after a unit's EXTENDS"),
            (10, "domain", b"[") => Some("10 in a domain's brackets"),
            (11, "domain", b"[") => Some("11 in a domain's brackets"),
            (10, _, b"[") => Some("10 in an attribute's brackets"),
            (_, _, b"[") => Some("11 in an attribute's brackets"),
            (11, "domain", b"EXTENDS") if of_measure => Some("11 at a domain that extends a unit"),
            (11, _, b"EXTENDS") if of_measure => {
                Some("11 at a class or structure that extends a unit")
            }
            (11, "attribute", _) if of_measure => Some("11 at an attribute typed by a unit"),
            _ => None,
        }
    }

    /// Where a second reference of the unit is at fault too: that shows once
    /// the first, which is refused at this symbol, is taken out.
    fn two(&self, number: u8, unit: UnitAt, at: usize) -> Option<&'static str> {
        let name = self.number_at(unit.place);
        let brackets = self.part(name, b"[", b"]")?;
        let in_brackets = self.symbols[brackets.start + 1].0;
        let taken_out = match self.symbol(at - 1) {
            b"EXTENDS" => at - 1..self.part(name, b"EXTENDS", b"=")?.end - 1,
            b"[" => brackets,
            _ => self.part(name, b"(", b")")?,
        };
        let text = self.changed(&taken_out, b"");
        let (other, place) = answer(&text);
        let in_brackets_too = place + self.text.len() - text.len() == in_brackets;
        let extends = self.part(name, b"EXTENDS", b"=");
        let extends = extends.is_some_and(|part| self.symbols[part.start + 1].0 == place);
        match (number, self.symbol(at - 1), other) {
            (10, b"[", 11 | 12) if extends => Some("10 in brackets after a wrong EXTENDS"),
            (11, b"[", 12) if extends => Some("11 in brackets after EXTENDS of what is FINAL"),
            (10, b"EXTENDS", 10 | 11) if in_brackets_too => {
                Some("10 after EXTENDS, the brackets at fault too")
            }
            (11, b"EXTENDS", 11) if in_brackets_too => {
                Some("11 after EXTENDS, the brackets at fault too")
            }
            (10, _, 10 | 11) if in_brackets_too && at == name => {
                Some("10 at an attribute's name, the brackets at fault too")
            }
            _ => None,
        }
    }

    /// A range that is refused by 17: another one of the text, such as the
    /// base's, shows what is said of the unit.
    fn beyond(&self, at: usize) -> Option<&'static str> {
        let is_range =
            |first: &usize| is_number(self.symbol(*first)) && self.symbol(first + 1) == b"..";
        let own = Some(at).filter(is_range)?;
        let place = self.symbols[own].0;
        let mut others = (0..own)
            .filter(is_range)
            .map(|first| [self.symbol(first), b"..", self.symbol(first + 2)].concat());
        let shows = |range: Vec<u8>| answer(&self.changed(&(own..own + 3), &range)) == (22, place);
        others
            .any(shows)
            .then_some("17 where the unit is at fault too")
    }

    fn foreign(&self, unit: UnitAt, at: usize) -> &'static str {
        let missing = (22, self.symbols[at].0);
        let without = |part: Range<usize>| answer(&self.changed(&part, b"")) == missing;
        match (unit.kind, self.part(at, b"[", b"]").map(without)) {
            ("domain", None) => "22 at a domain, the unit missing",
            ("domain", Some(false)) => "22 at a domain, a unit added",
            ("domain", Some(true)) => "22 at a domain, the unit no descendant",
            (_, None) => "22 at an attribute, the unit missing",
            (_, Some(false)) => "22 at an attribute, a unit added",
            (_, Some(true)) => "22 at an attribute, the unit no descendant",
        }
    }

    /// The numbers of the symbols that are written so.
    fn written<'v>(&'v self, symbol: &'v [u8]) -> impl Iterator<Item = usize> + 'v {
        (0..self.symbols.len()).filter(move |&number| self.symbol(number) == symbol)
    }

    fn accepted(&self, book: &[u8]) -> Vec<&'static str> {
        let mut found = in_book(book);
        let qualified = self.written(b"[").any(|open| self.symbol(open + 2) == b".");
        let empty = self.written(b"UNIT").any(|word| {
            let next = self.symbol(word + 1);
            [
                &b"UNIT"[..],
                b"DOMAIN",
                b"CLASS",
                b"STRUCTURE",
                b"TOPIC",
                b"END",
            ]
            .contains(&next)
        });
        let measured = records(book)
            .iter()
            .filter(|record| record[0] == 19)
            .count();
        let more = [
            (qualified, "brackets with a qualified reference"),
            (empty, "an empty run of units"),
            (
                measured > self.written(b"[").count(),
                "MANDATORY alone over a number in a unit",
            ),
        ];
        found.extend(
            more.iter()
                .filter(|(holds, _)| *holds)
                .map(|(_, word)| *word),
        );
        found
    }
}

/// The whole length of a record of each kind.
const LENGTHS: [usize; 20] = [
    0, 6, 6, 1, 11, 11, 11, 11, 5, 5, 18, 1, 5, 2, 6, 1, 1, 5, 11, 5,
];

fn records(book: &[u8]) -> Vec<&[u8]> {
    let mut records = Vec::new();
    let mut rest = book;
    while let Some(&kind) = rest.first() {
        let (record, behind) = rest.split_at(LENGTHS[usize::from(kind)]);
        records.push(record);
        rest = behind;
    }
    records
}

/// What the records say, each once.
fn in_book(book: &[u8]) -> Vec<&'static str> {
    let records = records(book);
    let base = |record: &[u8]| u32::from_le_bytes([record[7], record[8], record[9], record[10]]);
    // The unit of a definition's number.
    let unit = |record: u32| {
        records
            .get(record as usize + 2)
            .filter(|record| record[0] == 19)
    };
    let mut in_topic = false;
    let mut found = Vec::new();
    for (number, record) in records.iter().enumerate() {
        let before = |back: usize| records[number.saturating_sub(back)][0];
        match record[0] {
            2 | 3 => in_topic = record[0] == 2,
            18 => {
                let extends = base(record) != u32::MAX;
                found.push("a unit");
                found.extend(in_topic.then_some("a unit in a topic"));
                found.extend((record[6] == 1).then_some("a unit that is ABSTRACT"));
                found.extend(extends.then_some("a unit that extends one"));
            }
            19 if before(1) == 11 => found.push("NUMERIC in a unit"),
            19 if before(2) == 6 => found.push("an attribute in a unit"),
            19 => found.push("a domain in a unit"),
            6 | 7 if base(record) != u32::MAX => {
                let (own, over) = (unit(number as u32), unit(base(record)));
                let finer = own.is_some() && over.is_some() && own != over;
                found.extend(finer.then_some("a unit over the base's"));
            }
            _ => {}
        }
    }
    found.sort_unstable();
    found.dedup();
    found
}
