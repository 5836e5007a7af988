//! The ways in which request No. 2, a class over a structure, can show: by the
//! records of an accepted text, or by those of what stands before a refused unit.

use std::collections::HashSet;
use std::iter::successors;

use super::{records, View};
use peer::{Answer, UnitAt};

const TOPIC: u8 = 2;
const END_OF_TOPIC: u8 = 3;
const CLASS: u8 = 4;
const STRUCTURE: u8 = 5;
const ATTRIBUTE: u8 = 6;
const TYPED_BY_STRUCTURE: u8 = 12;
const END_OF_CLASS: u8 = 16;

fn number(bytes: &[u8]) -> usize {
    u32::from_le_bytes(bytes.try_into().expect("four bytes")) as usize
}

/// A book, its records by their numbers.
struct Book<'t> {
    text: &'t [u8],
    records: Vec<&'t [u8]>,
}

impl<'t> Book<'t> {
    fn kind(&self, record: usize) -> u8 {
        self.records[record][0]
    }

    /// The place of a record's name.
    fn place(&self, record: usize) -> usize {
        number(&self.records[record][1..5])
    }

    fn name(&self, record: usize) -> &'t [u8] {
        &self.text[self.place(record)..][..usize::from(self.records[record][5])]
    }

    fn base(&self, record: usize) -> Option<usize> {
        let base = number(&self.records[record][7..]);
        (base < self.records.len()).then_some(base)
    }

    /// A class, its base, the base's base, and so on.
    fn chain(&self, class: usize) -> impl Iterator<Item = usize> + '_ {
        successors(Some(class), |&class| self.base(class))
    }

    /// Whether a class descends from a structure.
    fn is_over_structure(&self, class: usize) -> bool {
        self.chain(class).any(|base| self.kind(base) == STRUCTURE)
    }

    /// The class or structure whose head is the last one before a record.
    fn class(&self, record: usize) -> usize {
        let is_head = |head: &usize| matches!(self.kind(*head), CLASS | STRUCTURE);
        (0..record).rev().find(is_head).expect("a head before it")
    }

    /// The topic that is open at a record.
    fn topic(&self, record: usize) -> Option<usize> {
        let is_bound = |bound: &usize| matches!(self.kind(*bound), TOPIC | END_OF_TOPIC);
        let last = (0..record).rev().find(is_bound);
        last.filter(|&last| self.kind(last) == TOPIC)
    }

    /// The attributes that a class has of its own.
    fn own(&self, class: usize) -> impl Iterator<Item = usize> + '_ {
        let behind = class + 1..self.records.len();
        let inside = behind.take_while(|&record| self.kind(record) != END_OF_CLASS);
        inside.filter(|&record| self.kind(record) == ATTRIBUTE)
    }

    /// The attributes of a class, own and inherited, the nearest first.
    fn attributes(&self, class: usize) -> impl Iterator<Item = usize> + '_ {
        self.chain(class).flat_map(|class| self.own(class))
    }

    /// Whether a class has this attribute from a structure.
    fn crosses(&self, class: usize, attribute: usize) -> bool {
        self.kind(class) == CLASS && self.kind(self.class(attribute)) == STRUCTURE
    }

    /// Whether a class has some attribute from a structure.
    fn inherits(&self, class: usize) -> bool {
        let mut all = self.attributes(class);
        all.any(|attribute| self.crosses(class, attribute))
    }

    /// The class or structure that the parts of a reference at the book's end name.
    fn named(&self, parts: &[&[u8]]) -> Option<usize> {
        let (name, path) = parts.split_last()?;
        let open = self.topic(self.records.len());
        let reached = |topic: Option<usize>| match path {
            [] => topic.is_none() || topic == open,
            [_, within] => topic.is_some_and(|topic| self.name(topic) == *within),
            _ => topic.is_none(),
        };
        (0..self.records.len()).find(|&record| {
            matches!(self.kind(record), CLASS | STRUCTURE)
                && self.name(record) == *name
                && reached(self.topic(record))
        })
    }
}

/// What the records of an accepted text say, each once.
pub fn accepted(view: &View, bytes: &[u8]) -> Vec<&'static str> {
    let (text, records) = (view.text, records(bytes));
    let book = Book { text, records };
    let mut found = Vec::new();
    for record in 0..book.records.len() {
        match book.kind(record) {
            CLASS if book.is_over_structure(record) => found.extend(over(&book, record)),
            ATTRIBUTE => found.extend(extended(view, &book, record)),
            _ => {}
        }
    }
    found.sort_unstable();
    found.dedup();
    found
}

/// A class that descends from a structure.
fn over(book: &Book, class: usize) -> Vec<&'static str> {
    let base = book.base(class).map(|base| book.kind(base));
    let names = book.attributes(class).map(|attribute| book.name(attribute));
    let full = names.collect::<HashSet<_>>().len() == 256 && book.inherits(class);
    let mut found = vec![if base == Some(STRUCTURE) {
        "a class over a structure"
    } else {
        "a class over a class over a structure"
    }];
    found.extend(full.then_some("256 attributes, some from a structure"));
    found
}

/// An attribute whose base, if it has one, may be a structure's.
fn extended(view: &View, book: &Book, attribute: usize) -> Vec<&'static str> {
    let class = book.class(attribute);
    let base = book.base(attribute);
    if !base.is_some_and(|base| book.crosses(class, base)) {
        return Vec::new();
    }
    let written = view.rest(view.number_at(book.place(attribute)));
    let alone = view.symbol(written.end - 1) == b"MANDATORY";
    let mut found = vec!["an attribute over a structure's"];
    found.extend(alone.then_some("MANDATORY alone over a structure's attribute"));
    found
}

/// The text up to a unit, with all that is open closed, and how many records the
/// ENDs make.
fn closed(view: &View, unit: UnitAt) -> (Vec<u8>, usize) {
    let name = view.number_at(unit.place);
    let first = if unit.kind == "attribute" {
        name
    } else {
        name - 1
    };
    let mut text = view.text[..view.symbols[first].0].to_vec();
    let mut open = Vec::new();
    for before in view.units.iter().filter(|before| before.place < unit.place) {
        match before.kind {
            "model" | "topic" | "class" | "structure" => open.push(view.number_at(before.place)),
            "end of class" | "end of topic" => drop(open.pop()),
            _ => {}
        }
    }
    let ends = open.len() - 1;
    for (outer, name) in open.into_iter().enumerate().rev() {
        let mark: &[u8] = if outer == 0 { b"." } else { b";" };
        text.extend([b" END ", view.symbol(name), mark].concat());
    }
    (text, ends)
}

/// What the refusal of a head or of an attribute says.
pub fn refused(view: &View, number: u8, place: usize) -> Vec<&'static str> {
    let unit = view.unit(place);
    let Some(unit) = unit.filter(|unit| matches!(unit.kind, "class" | "structure" | "attribute"))
    else {
        return Vec::new();
    };
    let (text, ends) = closed(view, unit);
    let mut buffer = vec![0; peer::LONGEST_BOOK];
    // What stands before the unit passes, unless the ENDs make it too long.
    let Answer::Accepted { book_len, .. } = peer::check(&text, &mut buffer) else {
        return Vec::new();
    };
    let mut records = records(&buffer[..book_len]);
    records.truncate(records.len() - ends);
    let book = Book {
        text: &text,
        records,
    };
    match unit.kind {
        "attribute" => attribute(view, &book, number, unit, place),
        _ => head(view, &book, number, unit).into_iter().collect(),
    }
}

/// A class or structure that is refused for its base, or for want of room.
fn head(view: &View, book: &Book, number: u8, unit: UnitAt) -> Option<&'static str> {
    let extends = view.part(view.number_at(unit.place), b"EXTENDS", b"=")?;
    let base = book.named(&view.names(extends.start + 1))?;
    match (number, unit.kind, book.kind(base)) {
        (11, "structure", CLASS) if book.is_over_structure(base) => {
            Some("11 at a structure that extends a class over a structure")
        }
        (11, "structure", CLASS) => Some("11 at a structure that extends a class"),
        (12, "class", STRUCTURE) => Some("12 at a class that extends a FINAL structure"),
        (19, "class", STRUCTURE) => Some("19 at a class over a structure"),
        _ => None,
    }
}

fn attribute(
    view: &View,
    book: &Book,
    number: u8,
    unit: UnitAt,
    place: usize,
) -> Vec<&'static str> {
    let class = book.class(book.records.len());
    let name = view.symbol(view.number_at(unit.place));
    let base = book.attributes(class).find(|&one| book.name(one) == name);
    let found = match number {
        4 if place == unit.place && book.inherits(class) => {
            "4 at an attribute, others from a structure"
        }
        11 => return typed_by_class(view, book, base, view.number_at(place)),
        _ if !base.is_some_and(|base| book.crosses(class, base)) => return Vec::new(),
        9 if place == unit.place => "9 at an attribute that a class has from a structure",
        12 => "12 at an attribute over a structure's",
        16 => "16 at an attribute over a structure's",
        17 => "17 at an attribute over a structure's",
        18 => "18 at an attribute over a structure's",
        19 => "19 at an attribute over a structure's",
        22 => "22 at an attribute over a structure's",
        _ => return Vec::new(),
    };
    vec![found]
}

/// An attribute that names a class over a structure where a type belongs.
fn typed_by_class(view: &View, book: &Book, base: Option<usize>, at: usize) -> Vec<&'static str> {
    let in_brackets = view.symbol(at - 1) == b"[";
    let named = book.named(&view.names(at)).filter(|_| !in_brackets);
    let Some(class) = named.filter(|&named| book.is_over_structure(named)) else {
        return Vec::new();
    };
    let held = base.map(|base| book.records[base + 1]);
    let structure = held.filter(|held| held[0] == TYPED_BY_STRUCTURE);
    let above = structure.map(|held| number(&held[1..]));
    let below = above.is_some_and(|above| book.chain(class).any(|one| one == above));
    let mut found = vec!["11 at an attribute typed by a class over a structure"];
    found.extend(below.then_some("11 at an attribute typed by a class below the base's structure"));
    found
}
