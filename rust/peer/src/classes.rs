//! Classes and structures with their attributes, own and inherited.

use std::rc::Rc;

use crate::types::Attribute;
use crate::units::Id;

pub const MOST_ATTRIBUTES: usize = 256;

/// The number of an attribute in `Classes::attributes`.
type AttributeNumber = u32;

/// A closed class or structure.
#[derive(Clone)]
pub struct Class {
    pub record: u32,
    pub is_final: bool,
    /// One attribute for each different name; shared with the base where
    /// the class has none of its own.
    attributes: Rc<Vec<AttributeNumber>>,
}

/// Where a name stands among the attributes of the open class, if the stamp
/// is that of the open class.
#[derive(Clone, Copy, Default)]
struct Slot {
    stamp: u32,
    position: u32,
}

/// All closed classes and structures, and the one that is open.
#[derive(Default)]
pub struct Classes {
    closed: Vec<Class>,
    attributes: Vec<Attribute>,
    /// The open class: its inherited and own attributes, each name once.
    open: Rc<Vec<AttributeNumber>>,
    first_own: AttributeNumber,
    /// The slots are filled when the first attribute comes, and not at all
    /// if they still stand for the base.
    slots: Vec<Slot>,
    stamp: u32,
    filled: bool,
    filled_for: Option<u32>,
}

/// How a name stands in the open class.
#[derive(Clone, Copy)]
pub enum Standing {
    New,
    Inherited(Attribute),
    Own,
}

impl Classes {
    pub fn get(&self, number: u32) -> &Class {
        &self.closed[number as usize]
    }

    /// Opens a class with the attributes of its base.
    pub fn open(&mut self, base: Option<u32>) {
        self.first_own = self.attributes.len() as u32;
        self.filled = base.is_some() && base == self.filled_for;
        self.open = match base {
            Some(number) => Rc::clone(&self.get(number).attributes),
            None => Rc::default(),
        };
    }

    fn fill(&mut self) {
        self.filled = true;
        self.stamp += 1;
        for position in 0..self.open.len() {
            let name = self.attributes[self.open[position] as usize].name;
            self.note(name, position);
        }
    }

    /// Closes the open class and gives its number.
    pub fn close(&mut self, record: u32, is_final: bool) -> u32 {
        let number = self.closed.len() as u32;
        self.closed.push(Class {
            record,
            is_final,
            attributes: std::mem::take(&mut self.open),
        });
        if self.filled {
            self.filled_for = Some(number);
        }
        number
    }

    /// Whether one more different name would pass the count.
    pub fn is_full(&self) -> bool {
        self.open.len() == MOST_ATTRIBUTES
    }

    pub fn standing(&mut self, name: Id) -> Standing {
        if !self.filled {
            self.fill();
        }
        let Some(position) = self.position(name) else {
            return Standing::New;
        };
        let number = self.open[position];
        if number >= self.first_own {
            return Standing::Own;
        }
        Standing::Inherited(self.attributes[number as usize])
    }

    /// Adds an attribute, in the place of an inherited one of its name.
    pub fn add(&mut self, attribute: Attribute) {
        let number = self.attributes.len() as u32;
        self.attributes.push(attribute);
        let position = self.position(attribute.name);
        let open = Rc::make_mut(&mut self.open);
        match position {
            Some(position) => open[position] = number,
            None => {
                open.push(number);
                let position = open.len() - 1;
                self.note(attribute.name, position);
            }
        }
    }

    fn position(&self, name: Id) -> Option<usize> {
        let slot = self.slots.get(name as usize)?;
        (slot.stamp == self.stamp).then_some(slot.position as usize)
    }

    fn note(&mut self, name: Id, position: usize) {
        let id = name as usize;
        if id >= self.slots.len() {
            self.slots.resize(id + 1, Slot::default());
        }
        self.slots[id] = Slot {
            stamp: self.stamp,
            position: position as u32,
        };
    }
}
