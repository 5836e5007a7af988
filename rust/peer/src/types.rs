//! Types and the reading of numbers.

use crate::symbols::MOST_DIGITS;
use crate::units::{Id, InPlace};

/// One digit stands before the dot.
const MOST_DECIMALS: u64 = MOST_DIGITS as u64 - 1;
/// What no magnitude within scope reaches.
const LIMIT: i64 = ten_to(MOST_DIGITS as u8);

#[derive(Clone, Copy, Debug, PartialEq, Eq)]
pub struct Range {
    pub decimals: u8,
    pub first: i64,
    pub second: i64,
}

/// A type as it is kept for extensions.
#[derive(Clone, Copy, Debug, PartialEq, Eq)]
pub enum Type {
    /// The length, zero for unlimited.
    Text(u32),
    Mtext(u32),
    Range(Range),
    Numeric,
    /// Where the whole enumeration opens among the pieces.
    Enumeration(usize),
    /// The structure's number among classes and structures.
    Structure(u32),
    /// The domain's number among domains.
    Domain(u32),
}

impl Type {
    pub fn of(form: InPlace) -> Type {
        match form {
            InPlace::Text(length) => Type::Text(length.value),
            InPlace::Mtext(length) => Type::Mtext(length.value),
            InPlace::Range { first, second } => Type::Range(Range {
                decimals: first.decimals,
                first: first.value,
                second: second.value,
            }),
            InPlace::Numeric => Type::Numeric,
            InPlace::Enumeration(open) => Type::Enumeration(open),
        }
    }

    /// Whether both are TEXT, or MTEXT, numbers, enumerations, structures.
    pub fn same_kind(self, other: Type) -> bool {
        use Type::*;
        matches!(
            (self, other),
            (Text(_), Text(_))
                | (Mtext(_), Mtext(_))
                | (Range(_) | Numeric, Range(_) | Numeric)
                | (Enumeration(_), Enumeration(_))
                | (Structure(_), Structure(_))
        )
    }

    /// For texts and numbers of one kind: whether each legal value has a
    /// legal reading at the base.
    pub fn reads(self, base: Type) -> bool {
        match (self, base) {
            (Type::Text(own), Type::Text(base)) | (Type::Mtext(own), Type::Mtext(base)) => {
                base == 0 || (own != 0 && own <= base)
            }
            (Type::Range(own), Type::Range(base)) => own.reads(base),
            (Type::Numeric, Type::Range(_)) => false,
            _ => true,
        }
    }
}

impl Range {
    /// Readings keep the order, so the bounds decide.
    fn reads(self, base: Range) -> bool {
        let reading = |bound| reading(bound, self.decimals, base.decimals);
        i128::from(base.first) <= reading(self.first)
            && reading(self.second) <= i128::from(base.second)
    }
}

/// One, multiplied by ten n times.
const fn ten_to(n: u8) -> i64 {
    let mut power = 1;
    let mut left = n;
    while left > 0 {
        power *= 10;
        left -= 1;
    }
    power
}

/// The reading at a base of a number below the limit.
fn reading(value: i64, decimals: u8, base_decimals: u8) -> i128 {
    let value = i128::from(value);
    if decimals <= base_decimals {
        return value * i128::from(ten_to(base_decimals - decimals));
    }
    let unit = i128::from(ten_to(decimals - base_decimals));
    (value + unit / 2).div_euclid(unit)
}

/// Reads a number at a base with `base_decimals`; refusals 20 and 21.
pub fn read_number(value: i64, decimals: u64, base_decimals: u64) -> Result<i64, u8> {
    let too_large = |number: i128| number.unsigned_abs() >= LIMIT as u128;
    if decimals > MOST_DECIMALS || base_decimals > MOST_DECIMALS || too_large(value.into()) {
        return Err(20);
    }
    let reading = reading(value, decimals as u8, base_decimals as u8);
    if too_large(reading) {
        return Err(21);
    }
    Ok(reading as i64)
}

/// A type with its measure, the measure's number among its like.
#[derive(Clone, Copy, Debug, PartialEq, Eq)]
pub struct Measured {
    pub written: Type,
    /// For numbers only; the measure of a named domain is the domain's.
    pub measure: Option<u32>,
}

impl Measured {
    pub fn plain(written: Type) -> Self {
        let measure = None;
        Measured { written, measure }
    }
}

/// An attribute known in a class.
#[derive(Clone, Copy, Debug)]
pub struct Attribute {
    pub name: Id,
    pub record: u32,
    pub is_final: bool,
    pub mandatory: bool,
    pub held: Measured,
}

/// A known domain; its number is its position among the domains.
#[derive(Clone, Copy, Debug)]
pub struct Domain {
    pub record: u32,
    pub is_abstract: bool,
    pub is_final: bool,
    pub mandatory: bool,
    pub held: Measured,
}
