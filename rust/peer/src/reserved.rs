//! The 168 reserved words: the table of section 3.2.7, as that document
//! prints it. It already holds every capital word of the forms, and OTHERS.

/// The words that stand in a form under Grammar.
#[derive(Clone, Copy, Debug, PartialEq, Eq)]
pub enum Form {
    Abstract,
    At,
    Attribute,
    Class,
    Domain,
    End,
    Extended,
    Extends,
    Final,
    Interlis,
    Mandatory,
    Model,
    Mtext,
    Numeric,
    Structure,
    Text,
    Topic,
    Unit,
    Version,
}

/// What a word is. A foreign word is reserved but stands in no form.
#[derive(Clone, Copy, Debug, PartialEq, Eq)]
pub enum Word {
    Name,
    Form(Form),
    Foreign,
}

/// All reserved words, each with its form if it has one.
#[rustfmt::skip]
pub const WORDS: [(&str, Option<Form>); 168] = [
    ("ABSTRACT", Some(Form::Abstract)),
    ("ACCORDING", None),
    ("AGGREGATES", None),
    ("AGGREGATION", None),
    ("ALL", None),
    ("AND", None),
    ("ANY", None),
    ("ANYCLASS", None),
    ("ANYSTRUCTURE", None),
    ("ARCS", None),
    ("AREA", None),
    ("AS", None),
    ("ASSOCIATION", None),
    ("AT", Some(Form::At)),
    ("ATTRIBUTE", Some(Form::Attribute)),
    ("ATTRIBUTES", None),
    ("BAG", None),
    ("BASE", None),
    ("BASED", None),
    ("BASKET", None),
    ("BINARY", None),
    ("BLACKBOX", None),
    ("BLANK", None),
    ("BOOLEAN", None),
    ("BY", None),
    ("CARDINALITY", None),
    ("CHARSET", None),
    ("CIRCULAR", None),
    ("CLASS", Some(Form::Class)),
    ("CLOCKWISE", None),
    ("CODE", None),
    ("CONSTRAINT", None),
    ("CONSTRAINTS", None),
    ("CONTEXT", None),
    ("CONTINUE", None),
    ("CONTINUOUS", None),
    ("CONTOUR", None),
    ("CONTRACTED", None),
    ("COORD", None),
    ("COORD2", None),
    ("COORD3", None),
    ("COUNTERCLOCKWISE", None),
    ("DATE", None),
    ("DATETIME", None),
    ("DEFAULT", None),
    ("DEFERRED", None),
    ("DEFINED", None),
    ("DEGREES", None),
    ("DEPENDS", None),
    ("DERIVATIVES", None),
    ("DERIVED", None),
    ("DIM1", None),
    ("DIM2", None),
    ("DIRECTED", None),
    ("DOMAIN", Some(Form::Domain)),
    ("END", Some(Form::End)),
    ("ENUMTREEVAL", None),
    ("ENUMVAL", None),
    ("EQUAL", None),
    ("EXISTENCE", None),
    ("EXTENDED", Some(Form::Extended)),
    ("EXTENDS", Some(Form::Extends)),
    ("EXTERNAL", None),
    ("FINAL", Some(Form::Final)),
    ("FIRST", None),
    ("FIX", None),
    ("FONT", None),
    ("FORM", None),
    ("FORMAT", None),
    ("FREE", None),
    ("FROM", None),
    ("FUNCTION", None),
    ("GENERIC", None),
    ("GENERICCS", None),
    ("GRADS", None),
    ("GRAPHIC", None),
    ("HALIGNMENT", None),
    ("HIDING", None),
    ("I16", None),
    ("I32", None),
    ("IDENT", None),
    ("IMPORTS", None),
    ("IN", None),
    ("INHERITANCE", None),
    ("INSPECTION", None),
    ("INTERLIS", Some(Form::Interlis)),
    ("JOIN", None),
    ("LAST", None),
    ("LINE", None),
    ("LINEATTR", None),
    ("LINESIZE", None),
    ("LIST", None),
    ("LNBASE", None),
    ("LOCAL", None),
    ("MANDATORY", Some(Form::Mandatory)),
    ("METAOBJECT", None),
    ("MODEL", Some(Form::Model)),
    ("MTEXT", Some(Form::Mtext)),
    ("MULTIAREA", None),
    ("MULTICOORD", None),
    ("MULTIPOLYLINE", None),
    ("MULTISURFACE", None),
    ("NAME", None),
    ("NO", None),
    ("NOINCREMENTALTRANSFER", None),
    ("NOT", None),
    ("NULL", None),
    ("NUMERIC", Some(Form::Numeric)),
    ("OBJECT", None),
    ("OBJECTS", None),
    ("OF", None),
    ("OID", None),
    ("ON", None),
    ("OPTIONAL", None),
    ("OR", None),
    ("ORDERED", None),
    ("OTHERS", None),
    ("OVERLAPS", None),
    ("PARAMETER", None),
    ("PARENT", None),
    ("PERIPHERY", None),
    ("PI", None),
    ("POLYLINE", None),
    ("PROJECTION", None),
    ("RADIANS", None),
    ("REFERENCE", None),
    ("REFSYS", None),
    ("REFSYSTEM", None),
    ("REQUIRED", None),
    ("RESTRICTION", None),
    ("ROTATION", None),
    ("SET", None),
    ("SIGN", None),
    ("STRAIGHTS", None),
    ("STRUCTURE", Some(Form::Structure)),
    ("SUBDIVISION", None),
    ("SURFACE", None),
    ("SYMBOLGY", None),
    ("TABLE", None),
    ("TEXT", Some(Form::Text)),
    ("THATAREA", None),
    ("THIS", None),
    ("THISAREA", None),
    ("TID", None),
    ("TIDSIZE", None),
    ("TIMEOFDAY", None),
    ("TO", None),
    ("TOPIC", Some(Form::Topic)),
    ("TRANSFER", None),
    ("TRANSIENT", None),
    ("TRANSLATION", None),
    ("TYPE", None),
    ("UNDEFINED", None),
    ("UNION", None),
    ("UNIQUE", None),
    ("UNIT", Some(Form::Unit)),
    ("UNQUALIFIED", None),
    ("URI", None),
    ("VALIGNMENT", None),
    ("VERSION", Some(Form::Version)),
    ("VERTEX", None),
    ("VERTEXINFO", None),
    ("VIEW", None),
    ("WHEN", None),
    ("WHERE", None),
    ("WITH", None),
    ("WITHOUT", None),
    ("XMLNS", None),];

const LONGEST: usize = 21;
const SLOTS: usize = 512;
const FREE: u8 = u8::MAX;

/// An open hash table over `WORDS`, built by the compiler.
static TABLE: [u8; SLOTS] = build();

const fn build() -> [u8; SLOTS] {
    let mut table = [FREE; SLOTS];
    let mut word = 0;
    while word < WORDS.len() {
        let mut slot = first_slot(WORDS[word].0.as_bytes());
        while table[slot] != FREE {
            slot = (slot + 1) % SLOTS;
        }
        table[slot] = word as u8;
        word += 1;
    }
    table
}

const fn first_slot(word: &[u8]) -> usize {
    let (first, middle) = (word[0] as usize, word[word.len() / 2] as usize);
    let last = word[word.len() - 1] as usize;
    (word.len() * 71 + first * 37 + middle * 167 + last * 11) % SLOTS
}

/// Classifies a word; the word is not empty.
pub fn classify(word: &[u8]) -> Word {
    if word.len() > LONGEST {
        return Word::Name;
    }
    let mut slot = first_slot(word);
    while TABLE[slot] != FREE {
        let (reserved, form) = WORDS[TABLE[slot] as usize];
        if reserved.as_bytes() == word {
            return form.map_or(Word::Foreign, Word::Form);
        }
        slot = (slot + 1) % SLOTS;
    }
    Word::Name
}

#[cfg(test)]
mod tests {
    use super::*;

    #[test]
    fn every_reserved_word_is_found_and_others_are_names() {
        for (word, form) in WORDS {
            let expected = form.map_or(Word::Foreign, Word::Form);
            assert_eq!(classify(word.as_bytes()), expected, "{word}");
        }
        for name in ["SYMBOLOGY", "GENERICS", "A", "Text", "TEXT1", "MODEL_"] {
            assert_eq!(classify(name.as_bytes()), Word::Name, "{name}");
        }
    }

    #[test]
    fn nineteen_words_stand_in_forms() {
        let forms = WORDS.iter().filter(|(_, form)| form.is_some()).count();
        assert_eq!(forms, 19);
    }
}
