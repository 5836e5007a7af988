//! The grammar, unit by unit: refusals 2 to 6 at the first symbol at fault.
//!
//! A unit is handed out as soon as its last symbol has been read; the
//! symbol after it is not looked at before the next unit is asked for.

use crate::enumerations::Piece;
use crate::reserved::Form;
use crate::symbols::{Cursor, Kind, Number, Symbol};
use crate::tables::Names;
use crate::units::*;
use crate::Refusal;

const DEEPEST: usize = 8;
const LONGEST_TEXT_LENGTH: i64 = 4_294_967_295;

/// The run that is open in the model or a topic.
#[derive(Clone, Copy)]
enum Run {
    None,
    Measures,
    Domains,
}

/// What may come next.
#[derive(Clone, Copy)]
enum Stage {
    Header,
    Model,
    /// In the model or a topic.
    Definitions(Run),
    /// In a class or structure; ATTRIBUTE may stand right after the head.
    Attributes {
        fresh: bool,
    },
    Tail,
}

/// The reader of units.
pub struct Reader<'t> {
    cursor: Cursor<'t>,
    symbol: Symbol,
    names: Names<'t>,
    stage: Stage,
    in_topic: bool,
    /// Every enumeration read so far, and the merged ones of the judge.
    pub pieces: Vec<Piece>,
}

impl<'t> Reader<'t> {
    pub fn new(text: &'t [u8]) -> Self {
        Reader {
            cursor: Cursor::new(text),
            symbol: Symbol::NONE,
            names: Names::new(text),
            stage: Stage::Header,
            in_topic: false,
            pieces: Vec::new(),
        }
    }

    /// The next unit, or none behind the model's END.
    pub fn next(&mut self) -> Result<Option<Unit>, Refusal> {
        self.step()?;
        match self.stage {
            Stage::Header => self.header().map(Some),
            Stage::Model => self.model().map(Some),
            Stage::Definitions(run) => self.definition(run).map(Some),
            Stage::Attributes { fresh } => self.in_class(fresh).map(Some),
            Stage::Tail if self.symbol.kind == Kind::End => Ok(None),
            Stage::Tail => Err(self.impossible()),
        }
    }

    fn header(&mut self) -> Result<Unit, Refusal> {
        self.pass(Kind::Form(Form::Interlis))?;
        let number = self.symbol;
        self.number()?;
        self.last(Kind::Semicolon)?;
        self.stage = Stage::Model;
        Ok(Unit::Header {
            version: number.at,
            length: number.length as usize,
        })
    }

    fn model(&mut self) -> Result<Unit, Refusal> {
        self.pass(Kind::Form(Form::Model))?;
        let name = self.name()?;
        if self.take(Kind::Open)? {
            self.name()?;
            self.pass(Kind::Close)?;
        }
        self.pass(Kind::Form(Form::At))?;
        self.pass(Kind::String)?;
        self.pass(Kind::Form(Form::Version))?;
        self.pass(Kind::String)?;
        self.last(Kind::Equals)?;
        self.stage = Stage::Definitions(Run::None);
        Ok(Unit::Model { name })
    }

    fn definition(&mut self, open: Run) -> Result<Unit, Refusal> {
        let run = self.runs(open)?;
        self.stage = Stage::Definitions(run);
        match (self.symbol.kind, run) {
            (Kind::Name, Run::Domains) => self.domain(),
            (Kind::Name, Run::Measures) => self.measure(),
            (kind, _) => self.outside_runs(kind),
        }
    }

    /// Passes DOMAIN and UNIT, as often as they stand; the last opens the run.
    fn runs(&mut self, open: Run) -> Result<Run, Refusal> {
        let mut run = open;
        loop {
            run = match self.symbol.kind {
                Kind::Form(Form::Domain) => Run::Domains,
                Kind::Form(Form::Unit) => Run::Measures,
                _ => return Ok(run),
            };
            self.step()?;
        }
    }

    fn outside_runs(&mut self, kind: Kind) -> Result<Unit, Refusal> {
        match kind {
            Kind::Form(Form::Class) => self.class_head(false),
            Kind::Form(Form::Structure) => self.class_head(true),
            Kind::Form(Form::Topic) if !self.in_topic => self.topic(),
            Kind::Form(Form::End) if self.in_topic => self.end(Closed::Topic),
            Kind::Form(Form::End) => self.end(Closed::Model),
            _ => Err(self.impossible()),
        }
    }

    fn in_class(&mut self, fresh: bool) -> Result<Unit, Refusal> {
        if fresh {
            self.take(Kind::Form(Form::Attribute))?;
        }
        self.stage = Stage::Attributes { fresh: false };
        match self.symbol.kind {
            Kind::Name => self.attribute(),
            Kind::Form(Form::End) => self.end(Closed::Class),
            _ => Err(self.impossible()),
        }
    }

    fn topic(&mut self) -> Result<Unit, Refusal> {
        self.step()?;
        let name = self.name()?;
        self.last(Kind::Equals)?;
        self.in_topic = true;
        self.stage = Stage::Definitions(Run::None);
        Ok(Unit::Topic { name })
    }

    fn end(&mut self, closed: Closed) -> Result<Unit, Refusal> {
        self.step()?;
        let name = self.name()?;
        self.stage = Stage::Definitions(Run::None);
        match closed {
            Closed::Class => self.last(Kind::Semicolon)?,
            Closed::Topic => {
                self.last(Kind::Semicolon)?;
                self.in_topic = false;
            }
            Closed::Model => {
                self.last(Kind::Dot)?;
                self.stage = Stage::Tail;
            }
        }
        Ok(Unit::End { name, closed })
    }

    fn class_head(&mut self, is_structure: bool) -> Result<Unit, Refusal> {
        self.step()?;
        let name = self.name()?;
        let properties = self.properties(&[Form::Abstract, Form::Final])?;
        let base = self.extends()?;
        self.last(Kind::Equals)?;
        self.stage = Stage::Attributes { fresh: true };
        Ok(Unit::Class(ClassHead {
            name,
            is_structure,
            properties,
            base,
        }))
    }

    fn measure(&mut self) -> Result<Unit, Refusal> {
        let name = self.name()?;
        let properties = self.properties(&[Form::Abstract])?;
        let base = self.extends()?;
        self.last(Kind::Semicolon)?;
        Ok(Unit::Measure(Measure {
            name,
            properties,
            base,
        }))
    }

    fn domain(&mut self) -> Result<Unit, Refusal> {
        let name = self.name()?;
        let properties = self.properties(&[Form::Abstract, Form::Final])?;
        let base = self.extends()?;
        self.pass(Kind::Equals)?;
        let mandatory = self.take(Kind::Form(Form::Mandatory))?;
        let written = self.written(mandatory && base.is_some(), false)?;
        self.last(Kind::Semicolon)?;
        Ok(Unit::Domain(Domain {
            name,
            properties,
            base,
            mandatory,
            written,
        }))
    }

    fn attribute(&mut self) -> Result<Unit, Refusal> {
        let name = self.name()?;
        let properties = self.properties(&[Form::Extended, Form::Final])?;
        self.pass(Kind::Colon)?;
        let mandatory = self.take(Kind::Form(Form::Mandatory))?;
        let written = self.written(mandatory && properties.is_extended, true)?;
        self.last(Kind::Semicolon)?;
        Ok(Unit::Attribute(Attribute {
            name,
            properties,
            mandatory,
            written,
        }))
    }

    /// Optional properties, from those given.
    fn properties(&mut self, possible: &[Form]) -> Result<Properties, Refusal> {
        let mut properties = Properties::default();
        if !self.take(Kind::Open)? {
            return Ok(properties);
        }
        loop {
            let Kind::Form(form) = self.symbol.kind else {
                return Err(self.impossible());
            };
            if !possible.contains(&form) {
                return Err(self.impossible());
            }
            let set = match form {
                Form::Final => &mut properties.is_final,
                Form::Abstract => &mut properties.is_abstract,
                _ => &mut properties.is_extended,
            };
            let before = std::mem::replace(set, true);
            properties.doubled |= before;
            self.step()?;
            if !self.take(Kind::Comma)? {
                break;
            }
        }
        self.pass(Kind::Close)?;
        Ok(properties)
    }

    fn extends(&mut self) -> Result<Option<Reference>, Refusal> {
        if self.take(Kind::Form(Form::Extends))? {
            return self.reference().map(Some);
        }
        Ok(None)
    }

    fn reference(&mut self) -> Result<Reference, Refusal> {
        let at = self.symbol.at;
        let first = self.word()?.id;
        if !self.take(Kind::Dot)? {
            let parts = Parts::Bare(first);
            return Ok(Reference { at, parts });
        }
        let second = self.word()?.id;
        let parts = if self.take(Kind::Dot)? {
            Parts::InTopic {
                model: first,
                topic: second,
                name: self.word()?.id,
            }
        } else {
            Parts::InModel {
                model: first,
                name: second,
            }
        };
        Ok(Reference { at, parts })
    }

    /// A type; a reference or nothing only where it may stand.
    fn written(&mut self, may_lack: bool, may_name: bool) -> Result<Written, Refusal> {
        let at = self.symbol.at;
        let form = match self.symbol.kind {
            Kind::Semicolon if may_lack => return Ok(Written::Nothing),
            Kind::Name if may_name => return self.reference().map(Written::Named),
            Kind::Form(Form::Text) => InPlace::Text(self.text_length()?),
            Kind::Form(Form::Mtext) => InPlace::Mtext(self.text_length()?),
            Kind::Form(Form::Numeric) => {
                self.step()?;
                InPlace::Numeric
            }
            Kind::Number => self.range()?,
            Kind::Open => InPlace::Enumeration(self.enumeration(1)?),
            _ => return Err(self.impossible()),
        };
        let measure = match form {
            InPlace::Range { .. } | InPlace::Numeric => self.bracketed()?,
            _ => None,
        };
        Ok(Written::Type { at, form, measure })
    }

    /// Optionally a reference in brackets.
    fn bracketed(&mut self) -> Result<Option<Reference>, Refusal> {
        if !self.take(Kind::OpenBracket)? {
            return Ok(None);
        }
        let reference = self.reference()?;
        self.pass(Kind::CloseBracket)?;
        Ok(Some(reference))
    }

    fn text_length(&mut self) -> Result<Length, Refusal> {
        self.step()?;
        if !self.take(Kind::Star)? {
            return Ok(Length {
                value: 0,
                written: None,
            });
        }
        let at = self.symbol.at;
        let number = self.number_here()?;
        if !number.plain {
            return Err(self.impossible());
        }
        if number.value > LONGEST_TEXT_LENGTH {
            return Err(Refusal::new(4, at));
        }
        self.step()?;
        Ok(Length {
            value: number.value as u32,
            written: Some(at),
        })
    }

    fn range(&mut self) -> Result<InPlace, Refusal> {
        let first = self.number()?;
        self.pass(Kind::Dots)?;
        let second = self.number()?;
        Ok(InPlace::Range { first, second })
    }

    /// Reads an enumeration from its `(`; gives where it opens.
    fn enumeration(&mut self, depth: usize) -> Result<usize, Refusal> {
        if depth > DEEPEST {
            return Err(Refusal::new(4, self.symbol.at));
        }
        self.step()?;
        let open = self.pieces.len();
        self.pieces.push(Piece::Close);
        let mut is_final = self.take(Kind::Form(Form::Final))?;
        if !is_final {
            self.element(depth)?;
            while self.take(Kind::Comma)? {
                self.element(depth)?;
            }
            if self.take(Kind::Colon)? {
                self.pass(Kind::Form(Form::Final))?;
                is_final = true;
            }
        }
        self.pass(Kind::Close)?;
        self.pieces.push(Piece::Close);
        let size = self.pieces.len() - open;
        self.pieces[open] = Piece::Open { is_final, size };
        Ok(open)
    }

    fn element(&mut self, depth: usize) -> Result<(), Refusal> {
        let name = self.word()?;
        self.pieces.push(Piece::Element(name));
        if self.symbol.kind == Kind::Open {
            self.enumeration(depth + 1)?;
        }
        Ok(())
    }

    fn name(&mut self) -> Result<Name, Refusal> {
        let at = self.symbol.at;
        let word = self.word()?;
        Ok(Name::new(word, at))
    }

    /// A name of which the place is enough.
    fn word(&mut self) -> Result<Word, Refusal> {
        let Symbol { kind, at, length } = self.symbol;
        if kind != Kind::Name {
            return Err(self.impossible());
        }
        let id = self.names.id(at.place, length);
        self.step()?;
        Ok(Word {
            id,
            place: at.place,
            length: length as u8,
        })
    }

    fn number(&mut self) -> Result<Number, Refusal> {
        let number = self.number_here()?;
        self.step()?;
        Ok(number)
    }

    fn number_here(&self) -> Result<Number, Refusal> {
        match self.symbol.kind {
            Kind::Number => Ok(self.cursor.last_number()),
            _ => Err(self.impossible()),
        }
    }

    fn step(&mut self) -> Result<(), Refusal> {
        self.cursor.next(&mut self.symbol)
    }

    /// Steps over the symbol if it is of this kind.
    fn take(&mut self, kind: Kind) -> Result<bool, Refusal> {
        let found = self.symbol.kind == kind;
        if found {
            self.step()?;
        }
        Ok(found)
    }

    fn pass(&mut self, kind: Kind) -> Result<(), Refusal> {
        self.last(kind)?;
        self.step()
    }

    /// The last symbol of a unit: nothing behind it is looked at.
    fn last(&self, kind: Kind) -> Result<(), Refusal> {
        if self.symbol.kind == kind {
            return Ok(());
        }
        Err(self.impossible())
    }

    fn impossible(&self) -> Refusal {
        Refusal::new(5, self.symbol.at)
    }
}
