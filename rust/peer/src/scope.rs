//! The name space that topics, measures, domains, structures and classes share.

use crate::tables::Pairs;
use crate::units::{Id, Parts};

/// What a name stands for; the number counts topics from 1, measures and
/// domains from 0, and classes and structures together from 0.
#[derive(Clone, Copy, Debug, PartialEq, Eq)]
pub enum Known {
    Topic(u32),
    Measure(u32),
    Domain(u32),
    Structure(u32),
    Class(u32),
}

impl Known {
    pub fn number(self) -> u32 {
        match self {
            Known::Topic(number) | Known::Measure(number) | Known::Domain(number) => number,
            Known::Structure(number) | Known::Class(number) => number,
        }
    }

    pub fn is_measure(self) -> bool {
        matches!(self, Known::Measure(_))
    }

    pub fn is_domain(self) -> bool {
        matches!(self, Known::Domain(_))
    }

    pub fn is_structure(self) -> bool {
        matches!(self, Known::Structure(_))
    }

    pub fn is_class_or_structure(self) -> bool {
        matches!(self, Known::Class(_) | Known::Structure(_))
    }

    /// Whether an attribute may name it.
    pub fn is_type(self) -> bool {
        self.is_domain() || self.is_structure()
    }
}

const MODEL_LEVEL: u32 = 0;

pub struct Scope {
    model: Option<Id>,
    /// Topics are numbered from 1; zero is the model's level.
    topics: u32,
    open: u32,
    places: Pairs,
    known: Vec<Known>,
}

impl Scope {
    pub fn new() -> Self {
        Scope {
            model: None,
            topics: 0,
            open: MODEL_LEVEL,
            places: Pairs::new(),
            known: Vec::new(),
        }
    }

    pub fn set_model(&mut self, name: Id) {
        self.model = Some(name);
    }

    pub fn open_topic(&mut self, name: Id) {
        self.topics += 1;
        self.define(name, Known::Topic(self.topics));
        self.open = self.topics;
    }

    pub fn close_topic(&mut self) {
        self.open = MODEL_LEVEL;
    }

    /// Makes a name known at the model's level or in the open topic.
    pub fn define(&mut self, name: Id, known: Known) {
        let number = self.known.len() as u32;
        self.known.push(known);
        self.places.insert(self.open, name, number);
    }

    fn within(&self, level: u32, name: Id) -> Option<Known> {
        let number = self.places.get(level, name)?;
        Some(self.known[number as usize])
    }

    /// What a bare name stands for; a new name is taken if this is something.
    pub fn bare(&self, name: Id) -> Option<Known> {
        match self.within(MODEL_LEVEL, name) {
            None if self.open != MODEL_LEVEL => self.within(self.open, name),
            found => found,
        }
    }

    pub fn find(&self, parts: &Parts) -> Option<Known> {
        match *parts {
            Parts::Bare(name) => self.bare(name),
            Parts::InModel { model, name } if self.is_model(model) => {
                self.within(MODEL_LEVEL, name)
            }
            Parts::InTopic { model, topic, name } if self.is_model(model) => {
                match self.within(MODEL_LEVEL, topic)? {
                    Known::Topic(number) => self.within(number, name),
                    _ => None,
                }
            }
            _ => None,
        }
    }

    fn is_model(&self, name: Id) -> bool {
        self.model == Some(name)
    }
}
