//! Measures in a sketch, which are the units of numbers: their declarations, and
//! the references in brackets behind numbers.

use super::{descendants, Fault, Sketch};
use crate::shapes::Shape;

pub struct Measure {
    pub name: String,
    pub topic: Option<usize>,
    base: Option<usize>,
}

/// A type, and the number of its measure.
#[derive(Clone)]
pub struct Typed {
    pub shape: Shape,
    pub measure: Option<usize>,
}

impl Typed {
    pub fn plain(shape: Shape) -> Self {
        let measure = None;
        Typed { shape, measure }
    }
}

/// The faults that need numbers, and measures.
const OF_MEASURES: [Fault; 7] = [
    Fault::Unmeasured,
    Fault::Measured,
    Fault::Foreign,
    Fault::BeyondForeign,
    Fault::NoMeasure,
    Fault::TwoReferences,
    Fault::Brackets,
];

impl Sketch<'_> {
    pub(super) fn wants_measures(&self) -> bool {
        self.faults.iter().any(|fault| OF_MEASURES.contains(fault))
    }

    pub(super) fn measure(&mut self) {
        let name = self.new_name();
        let seldom = if self.faults.contains(&Fault::Foreign) {
            2
        } else {
            4
        };
        let known: Vec<usize> = (0..self.measures.len()).collect();
        let base = match self.random.chance(1, seldom) {
            true => None,
            false => self.random.any(&known).copied(),
        };
        self.put(&name);
        if self.fault(Fault::Properties) {
            let words = [
                "( ABSTRACT , ABSTRACT )",
                "( ABSTRACT , ABSTRACT )",
                "( FINAL )",
            ];
            let written = self.random.pick(&words);
            self.put(written);
        } else if self.random.chance(1, 6) {
            self.put("( ABSTRACT )");
        }
        if self.random.chance(1, 3) && self.fault(Fault::NoMeasure) {
            self.put("EXTENDS");
            self.no_measure();
        } else if let Some(number) = base {
            self.put("EXTENDS");
            self.measure_named(number);
        }
        self.put(";");
        let topic = self.open;
        self.measures.push(Measure { name, topic, base });
    }

    fn measure_named(&mut self, number: usize) {
        let Measure { name, topic, .. } = &self.measures[number];
        let (name, topic) = (name.clone(), *topic);
        self.reference(&name, topic);
    }

    /// A reference to any definition but a measure, or to nothing.
    fn no_measure(&mut self) {
        let mut names = self.taken();
        names.retain(|name| self.measures.iter().all(|measure| measure.name != *name));
        match self.random.any(&names).cloned() {
            Some(name) if self.random.chance(2, 3) => self.put(&name),
            _ => self.unknown("q"),
        }
    }

    /// A reference to some measure, where another definition may be meant.
    pub(super) fn any_measure(&mut self) {
        let number = self.random.below(self.measures.len());
        self.measure_named(number);
    }

    /// Brackets behind a number with this measure, or by a fault broken ones.
    pub(super) fn in_brackets(&mut self, measure: Option<usize>) {
        if self.fault(Fault::Brackets) {
            let broken = [
                "[ ]",
                "[ INTERLIS . m ]",
                "[ A",
                "] ;",
                "[ A ] [ A ]",
                "[ A , B ]",
            ];
            let broken = self.random.pick(&broken);
            return self.put(broken);
        }
        if let Some(number) = measure {
            self.put("[");
            if self.fault(Fault::NoMeasure) {
                self.no_measure();
            } else {
                self.measure_named(number);
            }
            self.put("]");
        }
    }

    /// The measure of a number without a base, or none.
    pub(super) fn fresh_measure(&mut self) -> Option<usize> {
        let part = if self.faults.contains(&Fault::Measured) {
            2
        } else if self.wants_measures() {
            7
        } else {
            4
        };
        let known: Vec<usize> = (0..self.measures.len()).collect();
        match self.random.chance(part, 8) {
            true => self.random.any(&known).copied(),
            false => None,
        }
    }

    /// The measure of a number over a base with this one, or by a fault another.
    pub(super) fn measure_over(&mut self, base: Option<usize>) -> Option<usize> {
        let Some(number) = base else {
            let added = !self.measures.is_empty() && self.fault(Fault::Measured);
            return added.then(|| self.random.below(self.measures.len()));
        };
        if self.fault(Fault::Unmeasured) {
            return None;
        }
        let (fitting, others) = self.fitting(number);
        let foreign = !others.is_empty() && self.fault(Fault::Foreign);
        let among = if foreign { &others } else { &fitting };
        self.random.any(among).copied()
    }

    /// A measure that does not fit over this one, if there is one.
    pub(super) fn wrong_measure(&mut self, base: Option<usize>) -> Option<usize> {
        let all = || (0..self.measures.len()).collect();
        let others: Vec<usize> = base.map_or_else(all, |base| self.fitting(base).1);
        if base.is_some() && self.random.chance(1, 2) {
            return None;
        }
        self.random.any(&others).copied()
    }

    /// The measure and those that descend from it, and all the others.
    fn fitting(&self, measure: usize) -> (Vec<usize>, Vec<usize>) {
        let bases: Vec<Option<usize>> = self.measures.iter().map(|known| known.base).collect();
        let fitting = descendants(&bases, measure);
        let others = (0..bases.len()).filter(|number| !fitting.contains(number));
        let others = others.collect();
        (fitting, others)
    }

    /// A domain with two references, each likely at fault.
    pub(super) fn two_references(&mut self, name: &str) {
        self.put(&format!("{name} EXTENDS"));
        self.any_reference();
        self.put("= 1 .. 2 [");
        self.any_reference();
        self.put("] ;");
    }

    /// A reference to anything, or to nothing.
    pub(super) fn any_reference(&mut self) {
        let names = self.taken();
        match self.random.any(&names).cloned() {
            Some(name) if self.random.chance(3, 4) => self.put(&name),
            _ => self.unknown("q"),
        }
    }
}
