//! The judge of units: the attribute count of 4, then refusals 7 to 18, 22 and
//! 19 in their order, then the unit's records.

use crate::book::{flag, kind, Book, Full, NO_BASE};
use crate::chains::Chains;
use crate::classes::{Classes, Standing};
use crate::enumerations::{index_lists, is_empty, list, merge, reads, Piece};
use crate::grammar::Reader;
use crate::lines::Spot;
use crate::scope::{Known, Scope};
use crate::tables::Pairs;
use crate::types::{self, Measured, Type};
use crate::units::*;
use crate::Refusal;

/// Judges a text unit by unit and writes its book.
pub fn judge(text: &[u8], book: &mut Book) -> Result<(), Refusal> {
    let mut reader = Reader::new(text);
    let mut judge = Judge::new(text, book);
    while let Some(unit) = reader.next()? {
        judge.unit(&unit, &mut reader.pieces)?;
    }
    Ok(())
}

/// The class or structure that is open.
struct OpenClass {
    name: Id,
    is_structure: bool,
    is_final: bool,
    base: Option<u32>,
    record: u32,
}

struct Judge<'t, 'j, 'b> {
    text: &'t [u8],
    book: &'j mut Book<'b>,
    scope: Scope,
    model: Option<Id>,
    topic: Option<Id>,
    class: Option<OpenClass>,
    classes: Classes,
    class_chains: Chains,
    domains: Vec<types::Domain>,
    domain_chains: Chains,
    /// The records of the measures.
    measures: Vec<u32>,
    measure_chains: Chains,
    /// The elements of the enumerations written so far.
    elements: Pairs,
}

fn refuse<T>(number: u8, at: Spot) -> Result<T, Refusal> {
    Err(Refusal::new(number, at))
}

/// Refuses if the condition holds.
fn refuse_if(condition: bool, number: u8, at: Spot) -> Result<(), Refusal> {
    if condition {
        return refuse(number, at);
    }
    Ok(())
}

/// Refusal 19 for a unit whose records did not fit, at its name.
fn fitting(written: Result<(), Full>, name: &Name) -> Result<(), Refusal> {
    written.map_err(|Full| Refusal::new(19, name.at()))
}

/// Refusal 14.
fn sound(written: &Written) -> Result<(), Refusal> {
    let Written::Type { at, form, .. } = *written else {
        return Ok(());
    };
    match form {
        InPlace::Range { first, second } => {
            let unlike = first.decimals != second.decimals;
            refuse_if(unlike || first.value > second.value, 14, at)
        }
        InPlace::Text(length) | InPlace::Mtext(length) => match length.written {
            Some(at) => refuse_if(length.value == 0, 14, at),
            None => Ok(()),
        },
        InPlace::Numeric | InPlace::Enumeration(_) => Ok(()),
    }
}

/// Refusal 15, for a type without a base.
fn rooted(written: &Written, pieces: &[Piece]) -> Result<(), Refusal> {
    match *written {
        Written::Type {
            at,
            form: InPlace::Enumeration(open),
            ..
        } => refuse_if(is_empty(pieces, open), 15, at),
        _ => Ok(()),
    }
}

/// A reference, if there is one, and whether it may stand for something.
type Expected<'u> = (Option<&'u Reference>, fn(Known) -> bool);

/// The reference in a type, or instead of one.
fn within(written: &Written) -> Expected<'_> {
    match written {
        Written::Nothing => (None, Known::is_type),
        Written::Type { measure, .. } => (measure.as_ref(), Known::is_measure),
        Written::Named(reference) => (Some(reference), Known::is_type),
    }
}

/// The type written or, with MANDATORY alone, the base's; `found` is what the
/// reference in it stands for, of a right sort by 10 and 11.
fn meant(written: &Written, found: Option<Known>, base: Option<Measured>) -> Measured {
    match (written, found, base) {
        (Written::Type { form, .. }, measure, _) => Measured {
            written: Type::of(*form),
            measure: measure.map(Known::number),
        },
        (Written::Named(_), Some(Known::Domain(number)), _) => {
            Measured::plain(Type::Domain(number))
        }
        (Written::Named(_), Some(Known::Structure(number)), _) => {
            Measured::plain(Type::Structure(number))
        }
        (Written::Nothing, _, Some(base)) => base,
        _ => unreachable!("judged by the grammar, 10 and 11"),
    }
}

fn flags(properties: Properties, mandatory: bool) -> u8 {
    let bit = |set, bit| if set { bit } else { 0 };
    bit(properties.is_abstract, flag::ABSTRACT)
        | bit(properties.is_final, flag::FINAL)
        | bit(properties.is_extended, flag::EXTENDED)
        | bit(mandatory, flag::MANDATORY)
}

impl<'t, 'j, 'b> Judge<'t, 'j, 'b> {
    fn new(text: &'t [u8], book: &'j mut Book<'b>) -> Self {
        Judge {
            text,
            book,
            scope: Scope::new(),
            model: None,
            topic: None,
            class: None,
            classes: Classes::default(),
            class_chains: Chains::default(),
            domains: Vec::new(),
            domain_chains: Chains::default(),
            measures: Vec::new(),
            measure_chains: Chains::default(),
            elements: Pairs::new(),
        }
    }

    fn unit(&mut self, unit: &Unit, pieces: &mut Vec<Piece>) -> Result<(), Refusal> {
        match unit {
            Unit::Header { version, length } => self.header(*version, *length),
            Unit::Model { name } => self.model(name),
            Unit::Topic { name } => self.topic(name),
            Unit::Class(head) => self.class_head(head),
            Unit::Measure(measure) => self.measure(measure),
            Unit::Domain(domain) => self.domain(domain, pieces),
            Unit::Attribute(attribute) => self.attribute(attribute, pieces),
            Unit::End { name, closed } => match closed {
                Closed::Class => self.end_of_class(name),
                Closed::Topic => self.end_of_topic(name),
                Closed::Model => self.same_name(self.model, name),
            },
        }
    }

    fn header(&self, version: Spot, length: usize) -> Result<(), Refusal> {
        let written = &self.text[version.place as usize..][..length];
        refuse_if(written != b"2.4", 7, version)
    }

    fn model(&mut self, name: &Name) -> Result<(), Refusal> {
        fitting(self.book.named(kind::MODEL, name.word), name)?;
        self.model = Some(name.word.id);
        self.scope.set_model(name.word.id);
        Ok(())
    }

    fn topic(&mut self, name: &Name) -> Result<(), Refusal> {
        self.free(name)?;
        fitting(self.book.named(kind::TOPIC, name.word), name)?;
        self.topic = Some(name.word.id);
        self.scope.open_topic(name.word.id);
        Ok(())
    }

    fn end_of_topic(&mut self, name: &Name) -> Result<(), Refusal> {
        self.same_name(self.topic, name)?;
        fitting(self.book.put([kind::END_OF_TOPIC]), name)?;
        self.scope.close_topic();
        Ok(())
    }

    /// Refusal 8.
    fn same_name(&self, opened: Option<Id>, name: &Name) -> Result<(), Refusal> {
        refuse_if(opened != Some(name.word.id), 8, name.at())
    }

    /// Refusal 9 for a name that is taken.
    fn free(&self, name: &Name) -> Result<(), Refusal> {
        refuse_if(self.scope.bare(name.word.id).is_some(), 9, name.at())
    }

    /// Refusal 9 for an element that stands twice in one list.
    fn undoubled(&mut self, written: &Written, pieces: &[Piece]) -> Result<(), Refusal> {
        let Written::Type {
            form: InPlace::Enumeration(open),
            ..
        } = *written
        else {
            return Ok(());
        };
        match index_lists(pieces, open, &mut self.elements) {
            // The place is all there is of an element.
            Some(name) => refuse(9, Spot::of(self.text, name.place as usize)),
            None => Ok(()),
        }
    }

    /// Refusal 10 for a reference.
    fn find(&self, reference: &Reference) -> Result<Known, Refusal> {
        let unknown = Refusal::new(10, reference.at);
        self.scope.find(&reference.parts).ok_or(unknown)
    }

    /// Refusals 10 and 11 for a unit's references, in text order: by number
    /// first. Gives what they stand for.
    fn sorts<const COUNT: usize>(
        &self,
        expected: [Expected; COUNT],
    ) -> Result<[Option<Known>; COUNT], Refusal> {
        let mut found = [None; COUNT];
        for (known, (reference, _)) in found.iter_mut().zip(expected) {
            *known = reference.map(|it| self.find(it)).transpose()?;
        }
        for (known, (reference, fits)) in found.iter().zip(expected) {
            if let (Some(known), Some(reference)) = (*known, reference) {
                refuse_if(!fits(known), 11, reference.at)?;
            }
        }
        Ok(found)
    }

    fn class_head(&mut self, head: &ClassHead) -> Result<(), Refusal> {
        self.free(&head.name)?;
        let base = self.class_base(head)?;
        let properties = head.properties;
        let contrary = properties.is_abstract && properties.is_final;
        refuse_if(properties.doubled || contrary, 13, head.name.at())?;
        let record = self.book.next_record();
        let base_record = base.map_or(NO_BASE, |number| self.classes.get(number).record);
        let kind = if head.is_structure {
            kind::STRUCTURE
        } else {
            kind::CLASS
        };
        let written =
            (self.book).definition(kind, head.name.word, flags(properties, false), base_record);
        fitting(written, &head.name)?;
        self.classes.open(base);
        self.class = Some(OpenClass {
            name: head.name.word.id,
            is_structure: head.is_structure,
            is_final: properties.is_final,
            base,
            record,
        });
        Ok(())
    }

    /// Refusals 10 to 12 for the base of a class, which is a class or a
    /// structure, or of a structure, which is a structure.
    fn class_base(&self, head: &ClassHead) -> Result<Option<u32>, Refusal> {
        let Some(reference) = &head.base else {
            return Ok(None);
        };
        let fits = if head.is_structure {
            Known::is_structure
        } else {
            Known::is_class_or_structure
        };
        let [base] = self.sorts([(Some(reference), fits)])?;
        let number = base.map(Known::number);
        let is_final = number.is_some_and(|number| self.classes.get(number).is_final);
        refuse_if(is_final, 12, reference.at)?;
        Ok(number)
    }

    fn end_of_class(&mut self, name: &Name) -> Result<(), Refusal> {
        self.same_name(self.class.as_ref().map(|class| class.name), name)?;
        fitting(self.book.put([kind::END_OF_CLASS]), name)?;
        if let Some(class) = self.class.take() {
            let number = self.classes.close(class.record, class.is_final);
            self.class_chains.add(class.base);
            let known = if class.is_structure {
                Known::Structure(number)
            } else {
                Known::Class(number)
            };
            self.scope.define(class.name, known);
        }
        Ok(())
    }

    fn domain(&mut self, unit: &Domain, pieces: &mut Vec<Piece>) -> Result<(), Refusal> {
        self.free(&unit.name)?;
        self.undoubled(&unit.written, pieces)?;
        let based: Expected = (unit.base.as_ref(), Known::is_domain);
        let [named, found] = self.sorts([based, within(&unit.written)])?;
        let number = named.map(Known::number);
        let base = self.domain_base(unit.base.as_ref(), number)?;
        let over = base.map(|base| base.held);
        let meant = meant(&unit.written, found, over);
        let properties = unit.properties;
        let contrary = properties.is_abstract && properties.is_final;
        let open = meant.written == Type::Numeric && !properties.is_abstract;
        refuse_if(properties.doubled || contrary || open, 13, unit.name.at())?;
        sound(&unit.written)?;
        let whole = self.whole(&unit.written, meant, over, pieces)?;
        let mandatory = unit.mandatory || base.is_some_and(|base| base.mandatory);
        let known = types::Domain {
            record: self.book.next_record(),
            is_abstract: properties.is_abstract,
            is_final: properties.is_final,
            mandatory,
            held: whole,
        };
        let base_record = base.map_or(NO_BASE, |base| base.record);
        let bits = flags(properties, mandatory);
        let head = (self.book).definition(kind::DOMAIN, unit.name.word, bits, base_record);
        fitting(head, &unit.name)?;
        fitting(self.put_type(whole, pieces), &unit.name)?;
        self.scope
            .define(unit.name.word.id, Known::Domain(self.domains.len() as u32));
        self.domains.push(known);
        self.domain_chains.add(number);
        Ok(())
    }

    /// Refusal 12 for a domain; gives its base.
    fn domain_base(
        &self,
        reference: Option<&Reference>,
        number: Option<u32>,
    ) -> Result<Option<types::Domain>, Refusal> {
        let (Some(reference), Some(number)) = (reference, number) else {
            return Ok(None);
        };
        let base = self.domains[number as usize];
        refuse_if(base.is_final, 12, reference.at)?;
        Ok(Some(base))
    }

    fn measure(&mut self, unit: &Measure) -> Result<(), Refusal> {
        self.free(&unit.name)?;
        let [base] = self.sorts([(unit.base.as_ref(), Known::is_measure)])?;
        refuse_if(unit.properties.doubled, 13, unit.name.at())?;
        let number = base.map(Known::number);
        let record = self.book.next_record();
        let base_record = number.map_or(NO_BASE, |number| self.measures[number as usize]);
        let bits = flags(unit.properties, false);
        let head = (self.book).definition(kind::MEASURE, unit.name.word, bits, base_record);
        fitting(head, &unit.name)?;
        self.scope.define(
            unit.name.word.id,
            Known::Measure(self.measures.len() as u32),
        );
        self.measures.push(record);
        self.measure_chains.add(number);
        Ok(())
    }

    /// Refusals 15 to 18, and 22; gives the type, an enumeration merged.
    fn whole(
        &self,
        written: &Written,
        meant: Measured,
        base: Option<Measured>,
        pieces: &mut Vec<Piece>,
    ) -> Result<Measured, Refusal> {
        let Some(base) = base else {
            rooted(written, pieces)?;
            return Ok(meant);
        };
        match written {
            Written::Nothing => Ok(meant),
            Written::Type { at, .. } => self.extended(*at, meant, base, pieces),
            Written::Named(reference) => {
                self.named(reference.at, meant.written, base.written, pieces)?;
                Ok(meant)
            }
        }
    }

    /// The type itself, or that of the domain it names.
    fn resolved(&self, named: Measured) -> Measured {
        match named.written {
            Type::Domain(number) => self.domains[number as usize].held,
            _ => named,
        }
    }

    /// Refusals 16, 17 and 22 for a type written in place over a base.
    fn extended(
        &self,
        at: Spot,
        own: Measured,
        base: Measured,
        pieces: &mut Vec<Piece>,
    ) -> Result<Measured, Refusal> {
        let base = self.resolved(base);
        refuse_if(!own.written.same_kind(base.written), 16, at)?;
        if let (Type::Enumeration(written), Type::Enumeration(base)) = (own.written, base.written) {
            let merged = merge(pieces, &self.elements, base, written);
            let merged = merged.map_err(|_| Refusal::new(17, at))?;
            return Ok(Measured::plain(Type::Enumeration(merged)));
        }
        refuse_if(!own.written.reads(base.written), 17, at)?;
        refuse_if(!self.measure_fits(own.measure, base.measure), 22, at)?;
        Ok(own)
    }

    /// Whether a measure is the base's or descends from it, or both have none.
    fn measure_fits(&self, own: Option<u32>, base: Option<u32>) -> bool {
        match (own, base) {
            (Some(own), Some(base)) => self.measure_chains.descends(own, base),
            (own, base) => own == base,
        }
    }

    /// Refusals 16 to 18 for a domain or structure named over a base.
    fn named(&self, at: Spot, own: Type, base: Type, pieces: &[Piece]) -> Result<(), Refusal> {
        let descends = match (own, base) {
            (Type::Domain(own), Type::Domain(base)) => self.domain_chains.descends(own, base),
            (Type::Structure(own), Type::Structure(base)) => self.class_chains.descends(own, base),
            _ => false,
        };
        if descends {
            return Ok(());
        }
        let resolved = |named| self.resolved(Measured::plain(named)).written;
        let (own, base) = (resolved(own), resolved(base));
        refuse_if(!own.same_kind(base), 16, at)?;
        let legal = match (own, base) {
            (Type::Enumeration(own), Type::Enumeration(base)) => {
                // The base may be a merged one, whose lists have no index.
                let mut index = Pairs::new();
                index_lists(pieces, base, &mut index);
                reads(pieces, &index, own, base)
            }
            _ => own.reads(base),
        };
        refuse_if(!legal, 17, at)?;
        refuse(18, at)
    }

    fn attribute(&mut self, unit: &Attribute, pieces: &mut Vec<Piece>) -> Result<(), Refusal> {
        let base = self.inherited(unit)?;
        self.undoubled(&unit.written, pieces)?;
        let found = self.attribute_sorts(unit, base.is_some())?;
        let name = unit.name.at();
        refuse_if(base.is_some_and(|base| base.is_final), 12, name)?;
        let over = base.map(|base| base.held);
        let meant = meant(&unit.written, found, over);
        let named = match meant.written {
            Type::Domain(number) => Some(self.domains[number as usize]),
            _ => None,
        };
        let open = meant.written == Type::Numeric || named.is_some_and(|domain| domain.is_abstract);
        refuse_if(unit.properties.doubled || open, 13, name)?;
        sound(&unit.written)?;
        let whole = self.whole(&unit.written, meant, over, pieces)?;
        let mandatory = unit.mandatory
            || named.is_some_and(|domain| domain.mandatory)
            || base.is_some_and(|base| base.mandatory);
        let record = self.book.next_record();
        let base_record = base.map_or(NO_BASE, |base| base.record);
        let bits = flags(unit.properties, mandatory);
        let head = (self.book).definition(kind::ATTRIBUTE, unit.name.word, bits, base_record);
        fitting(head, &unit.name)?;
        fitting(self.put_type(whole, pieces), &unit.name)?;
        self.classes.add(types::Attribute {
            name: unit.name.word.id,
            record,
            is_final: unit.properties.is_final,
            mandatory,
            held: whole,
        });
        Ok(())
    }

    /// The attribute count of 4, and 9 for the name; gives the base.
    fn inherited(&mut self, unit: &Attribute) -> Result<Option<types::Attribute>, Refusal> {
        let at = unit.name.at();
        match self.classes.standing(unit.name.word.id) {
            Standing::New if self.classes.is_full() => refuse(4, at),
            Standing::New => Ok(None),
            Standing::Inherited(base) if unit.properties.is_extended => Ok(Some(base)),
            Standing::Inherited(_) | Standing::Own => refuse(9, at),
        }
    }

    /// Refusals 10 and 11; gives what the reference stands for.
    fn attribute_sorts(&self, unit: &Attribute, based: bool) -> Result<Option<Known>, Refusal> {
        let unfounded = unit.properties.is_extended && !based;
        refuse_if(unfounded, 10, unit.name.at())?;
        let [found] = self.sorts([within(&unit.written)])?;
        Ok(found)
    }

    /// The records of a type, that of its measure last.
    fn put_type(&mut self, held: Measured, pieces: &[Piece]) -> Result<(), Full> {
        self.put_form(held.written, pieces)?;
        match held.measure {
            Some(number) => (self.book).number(kind::IN_MEASURE, self.measures[number as usize]),
            None => Ok(()),
        }
    }

    fn put_form(&mut self, written: Type, pieces: &[Piece]) -> Result<(), Full> {
        match written {
            Type::Text(length) => self.book.number(kind::TEXT, length),
            Type::Mtext(length) => self.book.number(kind::MTEXT, length),
            Type::Range(range) => (self.book).range(range.decimals, range.first, range.second),
            Type::Numeric => self.book.put([kind::NUMERIC]),
            Type::Enumeration(open) => self.book.enumeration(list(pieces, open)),
            Type::Structure(number) => {
                let record = self.classes.get(number).record;
                self.book.number(kind::TYPED_BY_STRUCTURE, record)
            }
            Type::Domain(number) => {
                let record = self.domains[number as usize].record;
                self.book.number(kind::TYPED_BY_DOMAIN, record)
            }
        }
    }
}
