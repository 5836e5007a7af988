//! Draws up a model that passes, but for the faults that are planned.

mod classes;
mod measures;

use crate::random::Random;
use crate::shapes::{extension, fresh, fresh_range, Shape};
use classes::Class;
use measures::{Measure, Typed};

#[derive(Clone, Copy, Debug, PartialEq, Eq)]
pub enum Style {
    /// Short names and types, for texts of at most 200 bytes.
    Small,
    Large,
}

/// A fault that is planned, after the refusal it is meant to bring about.
#[derive(Clone, Copy, Debug, PartialEq, Eq)]
pub enum Fault {
    Large,
    Version,
    End,
    Taken,
    Doubled,
    Inherited,
    Unknown,
    Unfounded,
    WrongSort,
    FinalBase,
    /// An attribute over a FINAL one.
    FinalAttribute,
    Properties,
    Numeric,
    AbstractDomain,
    Unsound,
    Rootless,
    Kind,
    Beyond,
    Astray,
    /// A number of the base's measure without one.
    Unmeasured,
    /// A number with a measure over one without.
    Measured,
    /// A measure that does not descend from the base's.
    Foreign,
    /// A number beyond the base's, in a wrong measure.
    BeyondForeign,
    /// A measure after EXTENDS or in brackets that is unknown, or is none.
    NoMeasure,
    /// A definition that names a measure.
    NotMeasured,
    /// Two references at fault in one unit.
    TwoReferences,
    Brackets,
    /// A structure that extends a class.
    OverClass,
    /// An attribute that names a class.
    ClassAsType,
}

impl Fault {
    /// Each fault with its weight, more where it seldom finds an occasion.
    const ALL: [(Fault, usize); 29] = {
        use Fault::*;
        [
            (Large, 2),
            (Version, 2),
            (End, 2),
            (Taken, 7),
            (Doubled, 2),
            (Inherited, 7),
            (Unknown, 2),
            (Unfounded, 2),
            (WrongSort, 4),
            (FinalBase, 7),
            (FinalAttribute, 11),
            (Properties, 3),
            (Numeric, 2),
            (AbstractDomain, 3),
            (Unsound, 2),
            (Rootless, 2),
            (Kind, 10),
            (Beyond, 7),
            (Astray, 21),
            (Unmeasured, 11),
            (Measured, 10),
            (Foreign, 18),
            (BeyondForeign, 6),
            (NoMeasure, 17),
            (NotMeasured, 6),
            (TwoReferences, 20),
            (Brackets, 2),
            (OverClass, 9),
            (ClassAsType, 14),
        ]
    };

    pub fn any(random: &mut Random) -> Fault {
        let all = Fault::ALL.iter().map(|(_, weight)| weight).sum();
        let mut left = random.below(all);
        for (fault, weight) in Fault::ALL {
            if left < weight {
                return fault;
            }
            left -= weight;
        }
        unreachable!("below the sum of all")
    }
}

struct Domain {
    name: String,
    topic: Option<usize>,
    base: Option<usize>,
    is_abstract: bool,
    is_final: bool,
    held: Typed,
}

#[derive(Clone)]
struct Attribute {
    name: String,
    is_final: bool,
    holds: Holds,
}

/// What an attribute is typed by.
#[derive(Clone)]
enum Holds {
    Type(Typed),
    Domain(usize),
    Structure(usize),
}

const NAMES: [&str; 12] = [
    "Road",
    "Zone",
    "Use",
    "Kind",
    "Colour",
    "A",
    "b",
    "Lot_1",
    "Text",
    "GENERICS",
    "x9",
    "SYMBOLOGY",
];

/// What small models are made of.
const PLANS: [&str; 34] = [
    "D", "DD", "DD", "DDD", "DC", "CC", "CC", "DCC", "DCC", "DDC", "SC", "SC", "SC", "SS", "SCC",
    "SCC", "SCC", "DSC", "USC", "T", "DT", "TD", "UD", "UU", "UDD", "UUDD", "UC", "UCC", "UT",
    "TU", "DUD", "UDCC", "UUDD", "UUCC",
];

pub struct Sketch<'r> {
    random: &'r mut Random,
    style: Style,
    faults: Vec<Fault>,
    symbols: Vec<String>,
    topics: Vec<String>,
    open: Option<usize>,
    /// The letter of the definition before.
    run: char,
    measures: Vec<Measure>,
    domains: Vec<Domain>,
    classes: Vec<Class>,
}

impl<'r> Sketch<'r> {
    pub fn new(random: &'r mut Random, style: Style, faults: Vec<Fault>) -> Self {
        Sketch {
            random,
            style,
            faults,
            symbols: Vec::new(),
            topics: Vec::new(),
            open: None,
            run: ' ',
            measures: Vec::new(),
            domains: Vec::new(),
            classes: Vec::new(),
        }
    }

    /// The planned faults that found no occasion.
    pub fn faults_left(&self) -> usize {
        self.faults.len()
    }

    /// The symbols of a model with about so many definitions.
    pub fn model(&mut self, definitions: usize) -> Vec<String> {
        self.head();
        if self.style == Style::Large && self.random.chance(1, 2) {
            (0..1 + self.random.below(3)).for_each(|_| self.definition('U', 0));
        }
        self.definitions(definitions);
        if self.style == Style::Large && self.random.chance(1, 50) {
            self.crowded_class();
        }
        self.end("M", ".");
        std::mem::take(&mut self.symbols)
    }

    /// Whether a planned fault of this sort is due here.
    fn fault(&mut self, sort: Fault) -> bool {
        let planned = self.faults.iter().position(|&fault| fault == sort);
        match planned {
            Some(position) if self.random.chance(2, 3) => {
                self.faults.remove(position);
                true
            }
            _ => false,
        }
    }

    /// True rarely, but more often where a planned fault depends on it.
    fn rarely(&mut self, helpful: Fault) -> bool {
        let planned = self.faults.contains(&helpful);
        self.random.chance(1, if planned { 2 } else { 8 })
    }

    fn small(&self) -> bool {
        self.style == Style::Small
    }

    /// Adds symbols, separated by blanks in `symbols`.
    fn put(&mut self, symbols: &str) {
        self.symbols
            .extend(symbols.split_whitespace().map(str::to_owned));
    }

    fn head(&mut self) {
        let version = if self.fault(Fault::Version) {
            self.random.pick(&["2.3", "+2.4", "2.40", "02.4", "24"])
        } else {
            "2.4"
        };
        self.put(&format!("INTERLIS {version} ; MODEL M"));
        if !self.small() && self.random.chance(1, 3) {
            self.put("( de )");
        }
        let long = [
            "\"u\"",
            "\"http://a.b/\\u00e9\"",
            "\"\"",
            "\"\\\"\\\\\"",
            "\"\u{E9}\"",
        ];
        let uri = if self.small() {
            "\"u\""
        } else {
            self.random.pick(&long)
        };
        self.put(&format!("AT {uri} VERSION \"1\" ="));
    }

    fn end(&mut self, name: &str, mark: &str) {
        let name = if self.fault(Fault::End) {
            self.random.pick(&["M", "X", "m", "T"])
        } else {
            name
        };
        self.put(&format!("END {name} {mark}"));
    }

    fn definitions(&mut self, count: usize) {
        if self.small() && count > 1 {
            let plan = self.plan();
            return plan.chars().for_each(|letter| self.definition(letter, 0));
        }
        // A class where a type belongs shows the more, the more classes there are.
        let letters = if self.faults.contains(&Fault::ClassAsType) {
            b"UDCCCCCSSST"
        } else {
            b"UDDDDCCCSST"
        };
        let mut left = count;
        while left > 0 {
            left -= 1;
            let letter = char::from(letters[self.random.below(11)]);
            self.definition(letter, left);
            if letter == 'T' {
                left /= 2;
            }
        }
    }

    /// The definitions of a small model, fit for the first planned fault.
    fn plan(&mut self) -> &'static str {
        let plans: &[&str] = match self.faults.first() {
            Some(Fault::Astray) => &["DCC", "DSC", "DSC", "DDSC", "SSCC", "SSSC"],
            Some(Fault::WrongSort) => &["DCC", "DSS", "SDD", "TDD", "CSC", "TDC"],
            Some(Fault::FinalBase) => &["DD", "CC", "SS", "DDD", "SC", "SC", "SC"],
            Some(Fault::Kind | Fault::Beyond) => &["DD", "DDD", "CC", "DCC", "SC", "SC", "SC"],
            Some(Fault::Inherited | Fault::FinalAttribute) => &["CC", "SS", "SC", "SC", "SC"],
            Some(Fault::AbstractDomain) => &["DC", "DS"],
            Some(Fault::Taken) => &["UU", "UD", "DU", "UC", "UT", "DD", "CD", "DC", "TD"],
            Some(Fault::Unmeasured | Fault::BeyondForeign) => &["UDD", "UCC", "USC", "UDSC", "UDD"],
            Some(Fault::Measured) => &["UDD", "DUD", "UCC", "SUC", "USC"],
            Some(Fault::Foreign) => &["UUDD", "UUCC", "UUSC"],
            Some(Fault::NoMeasure) => &["UU", "DUU", "UD", "CUD", "UC", "CUC", "DUC", "DUC"],
            Some(Fault::NotMeasured) => &["UD", "UC", "US", "UDC"],
            Some(Fault::TwoReferences) => &["CD", "UDD", "UCD", "DUD", "UC", "DD", "DD"],
            Some(Fault::Brackets) => &["UD", "UC", "UDD"],
            Some(Fault::OverClass) => &["CS", "SCS", "SCS"],
            Some(Fault::ClassAsType) => &["SCC", "SCC", "SCCC"],
            _ => &PLANS,
        };
        self.random.pick(plans)
    }

    /// One definition: domain, class, structure or topic.
    fn definition(&mut self, letter: char, left: usize) {
        match letter {
            'C' => self.class(false),
            'S' => self.class(true),
            'T' if self.open.is_none() => self.topic(left),
            'T' => {
                let word = self.random.pick(&["DOMAIN", "UNIT"]);
                self.put(word);
            }
            'U' => {
                self.run("UNIT", letter);
                self.measure();
            }
            _ => {
                self.run("DOMAIN", letter);
                self.domain();
            }
        }
        self.run = letter;
    }

    /// A run goes on unless something stood between; else the word opens one.
    fn run(&mut self, word: &str, letter: char) {
        let goes_on = self.symbols.last().is_some_and(|symbol| symbol == ";")
            && self.run == letter
            && self.random.chance(4, 5);
        if goes_on {
            return;
        }
        if self.random.chance(1, 15) {
            let empty = self.random.pick(&["DOMAIN", "UNIT"]);
            self.put(empty);
        }
        self.put(word);
    }

    fn topic(&mut self, inside: usize) {
        let name = self.new_name();
        self.put(&format!("TOPIC {name} ="));
        self.topics.push(name.clone());
        self.open = Some(self.topics.len() - 1);
        self.run = ' ';
        if self.small() {
            let letter = char::from(b"DDCCUU"[self.random.below(6)]);
            self.definition(letter, 0);
            if letter == 'U' && self.random.chance(1, 2) {
                self.definition('D', 0);
            }
        } else {
            let count = self.random.below(inside + 1);
            self.definitions(count);
        }
        self.end(&name, ";");
        self.open = None;
    }

    /// A name that is free here, or by a fault one that is taken.
    fn new_name(&mut self) -> String {
        let taken = self.taken();
        if !taken.is_empty() && self.fault(Fault::Taken) {
            return taken[self.random.below(taken.len())].clone();
        }
        loop {
            let name = self.any_name();
            if !taken.contains(&name) {
                return name;
            }
        }
    }

    fn taken(&self) -> Vec<String> {
        let here = |topic: Option<usize>| topic.is_none() || topic == self.open;
        let domains = self.domains.iter().filter(|domain| here(domain.topic));
        let classes = self.classes.iter().filter(|class| here(class.topic));
        let measures = self.measures.iter().filter(|measure| here(measure.topic));
        let names = measures.map(|measure| &measure.name);
        let names = names.chain(domains.map(|domain| &domain.name));
        let names = names.chain(classes.map(|class| &class.name));
        names.chain(&self.topics).cloned().collect()
    }

    fn any_name(&mut self) -> String {
        let name = if self.small() {
            self.random.pick(&["A", "B", "C", "D", "E", "M", "x", "y"])
        } else {
            self.random.pick(&NAMES)
        };
        match self.random.below(if self.small() { 60 } else { 3 }) {
            0 => format!("{name}{}", self.random.below(10)),
            _ => name.to_owned(),
        }
    }

    /// Properties that pass, or by a fault some that do not.
    fn properties(&mut self, chosen: &[&str], other: &str) {
        let mut words = chosen.to_vec();
        if self.fault(Fault::Properties) {
            words.push(self.random.pick(&["FINAL", other]));
            words.push(self.random.pick(&["FINAL", other]));
        }
        if !words.is_empty() {
            self.put(&format!("( {} )", words.join(" , ")));
        }
    }

    fn reference(&mut self, name: &str, topic: Option<usize>) {
        if self.fault(Fault::Unknown) {
            return self.unknown(name);
        }
        if self.fault(Fault::WrongSort) {
            let any = self.random.any(&self.taken()).cloned();
            return self.put(any.as_deref().unwrap_or("M"));
        }
        let here = topic.is_none() || topic == self.open;
        if here && self.random.chance(if self.small() { 14 } else { 11 }, 15) {
            return self.put(name);
        }
        match topic {
            None => self.put(&format!("M . {name}")),
            Some(number) => {
                let topic = self.topics[number].clone();
                self.put(&format!("M . {topic} . {name}"));
            }
        }
    }

    /// A reference that is likely unknown.
    fn unknown(&mut self, name: &str) {
        match self.random.below(5) {
            0 => self.put("Q"),
            1 => self.put(&format!("X . {name}")),
            2 => self.put(&format!("M . X . {name}")),
            3 => self.put(&format!("M . {name}")),
            _ => self.put("M"),
        }
    }

    /// What to extend among those that fit, each with whether it is final: a
    /// final one only by a fault, and nothing in one of `seldom` cases.
    fn base_among(&mut self, fitting: &[(usize, bool)], seldom: usize) -> Option<usize> {
        let of = |is_final: bool| -> Vec<usize> {
            let found = fitting.iter().filter(|(_, last)| *last == is_final);
            found.map(|(number, _)| *number).collect()
        };
        let (last, open) = (of(true), of(false));
        if !last.is_empty() && self.fault(Fault::FinalBase) {
            return self.random.any(&last).copied();
        }
        if self.random.chance(1, seldom) {
            return None;
        }
        self.random.any(&open).copied()
    }

    fn domain_base(&mut self) -> Option<usize> {
        let domains = self.domains.iter().enumerate();
        let fitting: Vec<(usize, bool)> = domains
            .map(|(number, domain)| (number, domain.is_final))
            .collect();
        self.base_among(&fitting, 3)
    }

    /// Properties and EXTENDS, behind the name of a domain or class.
    fn rest_of_head(
        &mut self,
        is_abstract: bool,
        is_final: bool,
        base: Option<(String, Option<usize>)>,
    ) {
        let chosen: &[&str] = match (is_abstract, is_final) {
            (true, _) => &["ABSTRACT"],
            (_, true) => &["FINAL"],
            _ => &[],
        };
        self.properties(chosen, "ABSTRACT");
        let possible = !self.measures.is_empty() && self.random.chance(1, 2);
        if possible && self.fault(Fault::NotMeasured) {
            self.put("EXTENDS");
            return self.any_measure();
        }
        if let Some((name, topic)) = base {
            self.put("EXTENDS");
            self.reference(&name, topic);
        }
    }

    fn domain(&mut self) {
        let name = self.new_name();
        let known = self.domains.len() + self.classes.len() > 0 || self.random.chance(1, 3);
        if known && self.fault(Fault::TwoReferences) {
            return self.two_references(&name);
        }
        let base = self.domain_base();
        let is_abstract = self.rarely(Fault::AbstractDomain);
        let is_final = !is_abstract && self.domain_is_final();
        self.put(&name);
        let named = base.map(|number| {
            (
                self.domains[number].name.clone(),
                self.domains[number].topic,
            )
        });
        self.rest_of_head(is_abstract, is_final, named);
        self.put("=");
        let over = base.map(|number| self.domains[number].held.clone());
        let held = self.domain_type(over.as_ref(), is_abstract);
        self.put(";");
        self.domains.push(Domain {
            name,
            topic: self.open,
            base,
            is_abstract,
            is_final,
            held,
        });
    }

    fn domain_is_final(&mut self) -> bool {
        let helpful = self.faults.contains(&Fault::TwoReferences) && self.random.chance(1, 2);
        helpful || self.rarely(Fault::FinalBase)
    }

    fn domain_type(&mut self, base: Option<&Typed>, is_abstract: bool) -> Typed {
        let numeric = is_abstract || self.fault(Fault::Numeric);
        let mandatory = self.random.chance(1, 6);
        if mandatory {
            self.put("MANDATORY");
        }
        let over_numeric = base.is_some_and(|base| matches!(base.shape, Shape::Numeric));
        match base {
            Some(base) if over_numeric && mandatory && numeric => base.clone(),
            Some(base) if !over_numeric && mandatory && self.random.chance(1, 2) => base.clone(),
            _ if (base.is_none() || over_numeric) && numeric && self.random.chance(2, 3) => {
                self.put("NUMERIC");
                let measure = match base {
                    Some(base) => self.measure_over(base.measure),
                    None => self.fresh_measure(),
                };
                self.in_brackets(measure);
                let shape = Shape::Numeric;
                Typed { shape, measure }
            }
            Some(base) => self.extended(base),
            None => self.first_type(),
        }
    }

    /// A type without a base.
    fn first_type(&mut self) -> Typed {
        let small = self.small();
        let helpful = !self.measures.is_empty() && self.random.chance(1, 2);
        let shape = if helpful || self.wants_measures() {
            fresh_range(self.random, small)
        } else {
            fresh(self.random, small)
        };
        let faulty = self.faulty_type();
        match &faulty {
            Some(written) => self.put(written),
            None => shape.written(&mut self.symbols),
        }
        let number = faulty.map_or(shape.is_number(), |written| written.contains(".."));
        let measure = if number { self.fresh_measure() } else { None };
        self.in_brackets(measure);
        Typed { shape, measure }
    }

    /// A type that is refused by itself.
    fn faulty_type(&mut self) -> Option<String> {
        if self.fault(Fault::Unsound) {
            let types = [
                "5 .. 4",
                "1 .. 2.0",
                "TEXT * 0",
                "-1.5 .. -1.6",
                "MTEXT * 000",
            ];
            return Some(self.random.pick(&types).to_owned());
        }
        if self.fault(Fault::Doubled) {
            let types = ["( a , b , a )", "( a ( b , b ) , a )", "( a ( a ) , a )"];
            return Some(self.random.pick(&types).to_owned());
        }
        if self.fault(Fault::Rootless) {
            return Some("( FINAL )".to_owned());
        }
        if self.fault(Fault::Large) {
            return Some(self.large_type());
        }
        None
    }

    /// A type at one side of a size.
    fn large_type(&mut self) -> String {
        let more = self.random.below(2);
        match self.random.below(4) {
            0 => format!("TEXT * 429496729{}", 5 + more),
            1 => format!("0 .. 1{}", "0".repeat(17 + more)),
            2 => format!("0.{0} .. 1.{0}", "0".repeat(17 + more)),
            _ => format!("{}( a{}", "( a ".repeat(7 + more), " )".repeat(8 + more)),
        }
    }

    /// A type written over a base.
    fn extended(&mut self, base: &Typed) -> Typed {
        if self.fault(Fault::Kind) {
            self.other_kind(&base.shape);
            return base.clone();
        }
        let foreign = base.shape.is_number() && self.fault(Fault::BeyondForeign);
        let beyond = foreign || self.fault(Fault::Beyond);
        let written = extension(self.random, &base.shape, beyond);
        written.written(&mut self.symbols);
        let measure = match written.is_number() {
            true if foreign => self.wrong_measure(base.measure),
            true => self.measure_over(base.measure),
            false => None,
        };
        self.in_brackets(measure);
        let shape = match (&base.shape, &written) {
            (Shape::Enumeration(base), Shape::Enumeration(tree)) => {
                Shape::Enumeration(base.merged(tree))
            }
            _ => written,
        };
        Typed { shape, measure }
    }

    /// Writes a type of another kind.
    fn other_kind(&mut self, base: &Shape) {
        let small = self.small();
        let other = (0..8)
            .map(|_| fresh(self.random, small))
            .find(|shape| !shape.same_kind(base));
        let other = other.unwrap_or(Shape::Numeric);
        other.written(&mut self.symbols);
        let measure = if other.is_number() {
            self.fresh_measure()
        } else {
            None
        };
        self.in_brackets(measure);
    }

    fn attributes(&mut self, inherited: Vec<Attribute>) -> Vec<Attribute> {
        let mut all = inherited.clone();
        let often = if self.small() { 5 } else { 4 };
        for (position, base) in inherited.iter().enumerate() {
            let allowed = !base.is_final || self.fault(Fault::FinalAttribute);
            if allowed && self.random.chance(often, 6) {
                all[position] = self.extended_attribute(base);
            }
        }
        let own = match (self.small(), inherited.is_empty()) {
            // A structure without attributes leaves room for classes with some.
            (true, _) if self.faults.contains(&Fault::ClassAsType) => {
                usize::from(!self.classes.is_empty())
            }
            (true, true) if self.wants_measures() => 1,
            (true, true) => usize::from(self.random.chance(3, 4)),
            (true, false) => usize::from(self.random.chance(1, 4)),
            (false, _) => self.random.below(4),
        };
        for _ in 0..own {
            let attribute = self.own_attribute(&all);
            all.push(attribute);
        }
        all
    }

    fn own_attribute(&mut self, known: &[Attribute]) -> Attribute {
        let mut name = self.any_name().to_lowercase();
        while known.iter().any(|attribute| attribute.name == name) {
            name = format!(
                "{}{}",
                self.any_name().to_lowercase(),
                self.random.below(10)
            );
        }
        if !known.is_empty() && self.fault(Fault::Taken) {
            name = known[self.random.below(known.len())].name.clone();
        }
        let is_final = self.rarely(Fault::FinalAttribute);
        self.put(&name);
        let holds = if self.random.chance(1, 4) && self.fault(Fault::TwoReferences) {
            self.put("( EXTENDED ) : 1 .. 2 [");
            self.any_reference();
            self.put("] ;");
            Holds::Type(Typed::plain(Shape::Numeric))
        } else {
            self.rest_of_attribute(is_final)
        };
        Attribute {
            name,
            is_final,
            holds,
        }
    }

    /// Properties and type, behind the name of an attribute without a base.
    fn rest_of_attribute(&mut self, is_final: bool) -> Holds {
        let chosen: &[&str] = if is_final { &["FINAL"] } else { &[] };
        if self.fault(Fault::Unfounded) {
            self.put("( EXTENDED )");
        } else {
            self.properties(chosen, "FINAL");
        }
        self.put(":");
        if self.random.chance(1, 6) {
            self.put("MANDATORY");
        }
        let holds = match self.random.below(6) {
            _ if self.wants_measures() && self.random.chance(2, 3) => None,
            _ if self.faults.contains(&Fault::ClassAsType) => self.named_structure(),
            0 | 1 => self.named_domain(None),
            2 | 3 => self.named_structure(),
            _ => None,
        };
        let holds = holds.unwrap_or_else(|| Holds::Type(self.attribute_type()));
        self.put(";");
        holds
    }

    /// A type written in place, often the same as some domain's.
    fn attribute_type(&mut self) -> Typed {
        if !self.measures.is_empty() && self.fault(Fault::NotMeasured) {
            self.any_measure();
            return Typed::plain(Shape::Numeric);
        }
        if self.fault(Fault::Numeric) {
            self.put("NUMERIC");
            let measure = self.fresh_measure();
            self.in_brackets(measure);
            return Typed::plain(Shape::Numeric);
        }
        let part = if self.faults.contains(&Fault::Astray) {
            8
        } else {
            3
        };
        match self.random.any(&self.domains) {
            Some(domain) if !domain.is_abstract && self.random.chance(part, 9) => {
                let held = domain.held.clone();
                held.shape.written(&mut self.symbols);
                self.in_brackets(held.measure);
                held
            }
            _ => self.first_type(),
        }
    }

    /// Names any domain that is not abstract, or by a fault one that is;
    /// over a base one of its kind.
    fn named_domain(&mut self, base: Option<&Shape>) -> Option<Holds> {
        let of = |is_abstract: bool| -> Vec<usize> {
            let fits = |domain: &Domain| {
                domain.is_abstract == is_abstract
                    && base.is_none_or(|base| base.same_kind(&domain.held.shape))
            };
            let numbers = 0..self.domains.len();
            numbers
                .filter(|&number| fits(&self.domains[number]))
                .collect()
        };
        let (open, fitting) = (of(true), of(false));
        let wrong = !open.is_empty() && self.fault(Fault::AbstractDomain);
        let number = *self.random.any(if wrong { &open } else { &fitting })?;
        let (name, topic) = (
            self.domains[number].name.clone(),
            self.domains[number].topic,
        );
        self.reference(&name, topic);
        Some(Holds::Domain(number))
    }

    fn extended_attribute(&mut self, base: &Attribute) -> Attribute {
        let is_final = self.rarely(Fault::FinalAttribute);
        let chosen: &[&str] = if is_final {
            &["EXTENDED", "FINAL"]
        } else {
            &["EXTENDED"]
        };
        self.put(&base.name);
        if self.fault(Fault::Inherited) {
            self.properties(&chosen[1..], "FINAL");
        } else {
            self.properties(chosen, "EXTENDED");
        }
        self.put(":");
        let mandatory = self.random.chance(1, 4);
        if mandatory {
            self.put("MANDATORY");
        }
        let holds = if mandatory && self.random.chance(1, 2) {
            base.holds.clone()
        } else {
            self.extended_type(&base.holds)
        };
        self.put(";");
        Attribute {
            name: base.name.clone(),
            is_final,
            holds,
        }
    }

    fn extended_type(&mut self, base: &Holds) -> Holds {
        if self.fault(Fault::Astray) {
            if let Some(holds) = self.astray(base) {
                return holds;
            }
        }
        match base {
            Holds::Type(held) => Holds::Type(self.extended(held)),
            Holds::Domain(number) if self.random.chance(1, 3) => {
                let held = self.domains[*number].held.clone();
                Holds::Type(self.extended(&held))
            }
            Holds::Domain(number) => self.descendant(*number),
            Holds::Structure(number) => self.descendant_structure(*number),
        }
    }

    /// Names a domain or structure of the base's kind, likely no descendant.
    fn astray(&mut self, base: &Holds) -> Option<Holds> {
        let shape = match base {
            Holds::Type(held) => held.shape.clone(),
            Holds::Domain(number) => self.domains[*number].held.shape.clone(),
            Holds::Structure(_) => return self.named_structure(),
        };
        self.named_domain(Some(&shape))
    }

    /// Names the domain or one that descends from it.
    fn descendant(&mut self, ancestor: usize) -> Holds {
        let bases: Vec<Option<usize>> = self.domains.iter().map(|domain| domain.base).collect();
        let mut fitting = descendants(&bases, ancestor);
        fitting.retain(|&number| !self.domains[number].is_abstract);
        let number = self.random.any(&fitting).copied().unwrap_or(ancestor);
        let (name, topic) = (
            self.domains[number].name.clone(),
            self.domains[number].topic,
        );
        self.reference(&name, topic);
        Holds::Domain(number)
    }
}

/// The number itself and all that descend from it.
fn descendants(bases: &[Option<usize>], ancestor: usize) -> Vec<usize> {
    let mut found = vec![ancestor];
    for (number, base) in bases.iter().enumerate() {
        if base.is_some_and(|base| found.contains(&base)) {
            found.push(number);
        }
    }
    found
}
