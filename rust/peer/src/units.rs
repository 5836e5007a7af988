//! What the grammar hands to the judge: a text cut into units. Since a unit
//! here is a part of the text, a unit of numbers is called a measure.

use crate::lines::Spot;
use crate::symbols::Number;

/// The number of a name: equal names have equal numbers.
pub type Id = u32;

/// A name as it stands in the text. Of an element there is no more than this, so
/// that long lists stay small.
#[derive(Clone, Copy, Debug, PartialEq, Eq)]
pub struct Word {
    pub id: Id,
    pub place: u32,
    pub length: u8,
}

/// The name of a unit, with its line and column.
#[derive(Clone, Copy, Debug, PartialEq, Eq)]
pub struct Name {
    pub word: Word,
    pub line: u32,
    pub column: u32,
}

/// One to three names with dots between.
#[derive(Clone, Copy, Debug, PartialEq, Eq)]
pub struct Reference {
    pub at: Spot,
    pub parts: Parts,
}

#[derive(Clone, Copy, Debug, PartialEq, Eq)]
pub enum Parts {
    Bare(Id),
    InModel { model: Id, name: Id },
    InTopic { model: Id, topic: Id, name: Id },
}

#[derive(Clone, Copy, Debug, Default, PartialEq, Eq)]
pub struct Properties {
    pub is_abstract: bool,
    pub is_final: bool,
    pub is_extended: bool,
    /// Some property is written twice.
    pub doubled: bool,
}

/// A type written in place.
#[derive(Clone, Copy, Debug, PartialEq, Eq)]
pub enum InPlace {
    Text(Length),
    Mtext(Length),
    Range {
        first: Number,
        second: Number,
    },
    Numeric,
    /// Where the enumeration opens among the pieces.
    Enumeration(usize),
}

/// The length of a text type, zero where none is written.
#[derive(Clone, Copy, Debug, PartialEq, Eq)]
pub struct Length {
    pub value: u32,
    /// Where the length is written.
    pub written: Option<Spot>,
}

/// What stands where a type or a reference may stand.
#[derive(Clone, Copy, Debug, PartialEq, Eq)]
pub enum Written {
    /// MANDATORY alone: the base's type.
    Nothing,
    Type {
        at: Spot,
        form: InPlace,
        /// In brackets behind a range or NUMERIC.
        measure: Option<Reference>,
    },
    Named(Reference),
}

#[derive(Clone, Copy, Debug, PartialEq, Eq)]
pub struct ClassHead {
    pub name: Name,
    pub is_structure: bool,
    pub properties: Properties,
    pub base: Option<Reference>,
}

#[derive(Clone, Copy, Debug, PartialEq, Eq)]
pub struct Measure {
    pub name: Name,
    pub properties: Properties,
    pub base: Option<Reference>,
}

#[derive(Clone, Copy, Debug, PartialEq, Eq)]
pub struct Domain {
    pub name: Name,
    pub properties: Properties,
    pub base: Option<Reference>,
    pub mandatory: bool,
    pub written: Written,
}

#[derive(Clone, Copy, Debug, PartialEq, Eq)]
pub struct Attribute {
    pub name: Name,
    pub properties: Properties,
    pub mandatory: bool,
    pub written: Written,
}

/// What an END closes.
#[derive(Clone, Copy, Debug, PartialEq, Eq)]
pub enum Closed {
    Class,
    Topic,
    Model,
}

#[derive(Clone, Copy, Debug, PartialEq, Eq)]
pub enum Unit {
    Header { version: Spot, length: usize },
    Model { name: Name },
    Topic { name: Name },
    Class(ClassHead),
    Measure(Measure),
    Domain(Domain),
    Attribute(Attribute),
    End { name: Name, closed: Closed },
}

impl Unit {
    /// A word for the unit's kind.
    pub fn kind(&self) -> &'static str {
        match self {
            Unit::Header { .. } => "header",
            Unit::Model { .. } => "model",
            Unit::Topic { .. } => "topic",
            Unit::Class(head) if head.is_structure => "structure",
            Unit::Class(_) => "class",
            Unit::Measure(_) => "unit",
            Unit::Domain(_) => "domain",
            Unit::Attribute(_) => "attribute",
            Unit::End { closed, .. } => match closed {
                Closed::Class => "end of class",
                Closed::Topic => "end of topic",
                Closed::Model => "end of model",
            },
        }
    }

    /// The place of the unit's name, or of the header's number.
    pub fn place(&self) -> usize {
        let name = match self {
            Unit::Header { version, .. } => return version.place as usize,
            Unit::Model { name } | Unit::Topic { name } | Unit::End { name, .. } => name,
            Unit::Class(head) => &head.name,
            Unit::Measure(measure) => &measure.name,
            Unit::Domain(domain) => &domain.name,
            Unit::Attribute(attribute) => &attribute.name,
        };
        name.word.place as usize
    }
}

impl Name {
    pub fn new(word: Word, at: Spot) -> Name {
        Name {
            word,
            line: at.line,
            column: at.column,
        }
    }

    pub fn at(&self) -> Spot {
        Spot {
            place: self.word.place,
            line: self.line,
            column: self.column,
        }
    }
}
