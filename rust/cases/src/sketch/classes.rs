//! Classes and structures in a sketch: their bases, and the structures that
//! attributes name.

use std::iter::successors;

use super::{descendants, Attribute, Fault, Holds, Sketch};

pub struct Class {
    pub name: String,
    pub topic: Option<usize>,
    base: Option<usize>,
    is_structure: bool,
    is_final: bool,
    attributes: Vec<Attribute>,
}

impl Sketch<'_> {
    pub(super) fn class(&mut self, is_structure: bool) {
        let name = self.new_name();
        let base = self.class_base(is_structure);
        let is_final = self.rarely(Fault::FinalBase);
        let is_abstract = !is_final && self.random.chance(1, 6);
        self.put(if is_structure { "STRUCTURE" } else { "CLASS" });
        self.put(&name);
        let named = base.map(|number| {
            (
                self.classes[number].name.clone(),
                self.classes[number].topic,
            )
        });
        self.rest_of_head(is_abstract, is_final, named);
        self.put("=");
        if self.random.chance(1, 5) {
            self.put("ATTRIBUTE");
        }
        let inherited = base.map_or(Vec::new(), |number| self.classes[number].attributes.clone());
        let attributes = self.attributes(inherited);
        self.end(&name, ";");
        self.classes.push(Class {
            name,
            topic: self.open,
            base,
            is_structure,
            is_final,
            attributes,
        });
    }

    /// A class extends any class or structure; a structure one of its sort, or by
    /// a fault a class.
    fn class_base(&mut self, is_structure: bool) -> Option<usize> {
        let any_class = self.classes.iter().any(|class| !class.is_structure);
        if is_structure && any_class && self.fault(Fault::OverClass) {
            return self.class_among((0..self.classes.len()).collect());
        }
        let classes = self.classes.iter().enumerate();
        let fitting: Vec<(usize, bool)> = classes
            .filter(|(_, class)| class.is_structure || !is_structure)
            .map(|(number, class)| (number, class.is_final))
            .collect();
        self.base_among(&fitting, 5)
    }

    /// Whether a class descends from a structure.
    fn is_over_structure(&self, class: usize) -> bool {
        let mut chain = successors(Some(class), |&class| self.classes[class].base);
        chain.any(|base| self.classes[base].is_structure)
    }

    /// One of the classes among these, rather one over a structure.
    fn class_among(&mut self, mut numbers: Vec<usize>) -> Option<usize> {
        numbers.retain(|&number| !self.classes[number].is_structure);
        let mut over = numbers.clone();
        over.retain(|&number| self.is_over_structure(number));
        if self.random.chance(1, 2) && !over.is_empty() {
            numbers = over;
        }
        self.random.any(&numbers).copied()
    }

    /// One of the structures among these, or by a fault one of the classes.
    fn structure_among(&mut self, mut numbers: Vec<usize>) -> Option<usize> {
        let is_class = |number: &usize| !self.classes[*number].is_structure;
        if numbers.iter().any(is_class) && self.fault(Fault::ClassAsType) {
            return self.class_among(numbers);
        }
        numbers.retain(|&number| self.classes[number].is_structure);
        self.random.any(&numbers).copied()
    }

    fn structure(&mut self, number: usize) -> Holds {
        let (name, topic) = (
            self.classes[number].name.clone(),
            self.classes[number].topic,
        );
        self.reference(&name, topic);
        Holds::Structure(number)
    }

    /// Names any structure, or by a fault a class; seldom, so that the fault is
    /// left for an attribute over a base.
    pub(super) fn named_structure(&mut self) -> Option<Holds> {
        let mut numbers: Vec<usize> = (0..self.classes.len()).collect();
        if self.random.chance(2, 3) {
            numbers.retain(|&number| self.classes[number].is_structure);
        }
        let number = self.structure_among(numbers)?;
        Some(self.structure(number))
    }

    /// Names the structure or one that descends from it.
    pub(super) fn descendant_structure(&mut self, ancestor: usize) -> Holds {
        let bases: Vec<Option<usize>> = self.classes.iter().map(|class| class.base).collect();
        let fitting = self.structure_among(descendants(&bases, ancestor));
        self.structure(fitting.unwrap_or(ancestor))
    }

    /// A class or structure with 255 to 257 attributes, or a class over one.
    pub(super) fn crowded_class(&mut self) {
        let count = 255 + self.random.below(3).max(self.random.below(3));
        let split = if self.random.chance(3, 4) {
            self.random.below(count)
        } else {
            count
        };
        let sort = self.random.pick(&["CLASS", "STRUCTURE"]);
        self.put(&format!("{sort} Crowd ="));
        for number in 0..count {
            if number == split {
                self.put("END Crowd ; CLASS Crowd2 EXTENDS Crowd =");
            }
            self.put(&format!("c{number} : TEXT ;"));
        }
        let name = if split < count { "Crowd2" } else { "Crowd" };
        self.end(name, ";");
    }
}
