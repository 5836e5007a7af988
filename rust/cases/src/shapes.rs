//! Types as the generator knows them: how to write one, and how to write an
//! extension of one that passes, or just does not.

use crate::random::Random;

/// A list of an enumeration.
#[derive(Clone, Debug, Default)]
pub struct Tree {
    pub elements: Vec<(String, Option<Tree>)>,
    pub is_final: bool,
}

#[derive(Clone, Debug)]
pub enum Shape {
    Text {
        multiple: bool,
        length: Option<u64>,
    },
    Range {
        decimals: u32,
        first: i128,
        second: i128,
    },
    Numeric,
    Enumeration(Tree),
}

const MOST_DECIMALS: u32 = 17;
const LIMIT: i128 = 10i128.pow(MOST_DECIMALS + 1);
const LENGTHS: [u64; 7] = [1, 2, 9, 10, 255, 70_000, 4_294_967_295];

/// A shape of any kind but NUMERIC; small ones stay short when written.
pub fn fresh(random: &mut Random, small: bool) -> Shape {
    match random.below(4) {
        0 => Shape::Text {
            multiple: random.chance(1, 3),
            length: random
                .chance(2, 3)
                .then(|| LENGTHS[random.below(LENGTHS.len())]),
        },
        1 => Shape::Enumeration(tree(random, if small { 2 } else { 3 }, small)),
        _ => fresh_range(random, small),
    }
}

/// A range; small ones stay short when written.
pub fn fresh_range(random: &mut Random, small: bool) -> Shape {
    let decimals = match random.below(if small { 12 } else { 6 }) {
        0 => MOST_DECIMALS,
        1 => 1 + random.below(MOST_DECIMALS as usize) as u32,
        2 => 2,
        3 => 1,
        _ => 0,
    };
    let reach = match random.below(6) {
        0 if !small => LIMIT - 1,
        1 => 10i128.pow(1 + random.below(MOST_DECIMALS as usize) as u32),
        2 => 9,
        _ => 100,
    };
    let reach = reach.min(LIMIT - 1);
    let (one, other) = (random.between(-reach, reach), random.between(-reach, reach));
    Shape::Range {
        decimals,
        first: one.min(other),
        second: one.max(other),
    }
}

fn tree(random: &mut Random, levels: usize, small: bool) -> Tree {
    let count = 1 + random.below(if small { 2 } else { 4 });
    let mut elements = Vec::new();
    for _ in 0..count {
        let name = new_element(random, &elements);
        let inner = match random.below(8) {
            0 => Some(Tree {
                elements: Vec::new(),
                is_final: true,
            }),
            1 | 2 if levels > 1 => Some(tree(random, levels - 1, small)),
            _ => None,
        };
        elements.push((name, inner));
    }
    let is_final = random.chance(1, 4);
    Tree { elements, is_final }
}

fn new_element(random: &mut Random, taken: &[(String, Option<Tree>)]) -> String {
    let letter = |number: usize| char::from(b'a' + (number % 26) as u8).to_string();
    let mut number = random.below(26);
    while taken.iter().any(|(name, _)| *name == letter(number)) {
        number += 1;
    }
    letter(number)
}

impl Shape {
    pub fn same_kind(&self, other: &Shape) -> bool {
        use Shape::*;
        match (self, other) {
            (
                Text { multiple, .. },
                Text {
                    multiple: other, ..
                },
            ) => multiple == other,
            (Range { .. } | Numeric, Range { .. } | Numeric) => true,
            (Enumeration(_), Enumeration(_)) => true,
            _ => false,
        }
    }

    pub fn is_number(&self) -> bool {
        matches!(self, Shape::Range { .. } | Shape::Numeric)
    }

    /// The symbols of the type.
    pub fn written(&self, symbols: &mut Vec<String>) {
        match self {
            Shape::Text { multiple, length } => {
                symbols.push(if *multiple { "MTEXT" } else { "TEXT" }.to_owned());
                if let Some(length) = length {
                    symbols.extend(["*".to_owned(), length.to_string()]);
                }
            }
            Shape::Range {
                decimals,
                first,
                second,
            } => {
                symbols.push(decimal(*first, *decimals));
                symbols.push("..".to_owned());
                symbols.push(decimal(*second, *decimals));
            }
            Shape::Numeric => symbols.push("NUMERIC".to_owned()),
            Shape::Enumeration(tree) => tree.written(symbols),
        }
    }
}

impl Tree {
    fn written(&self, symbols: &mut Vec<String>) {
        symbols.push("(".to_owned());
        for (position, (name, inner)) in self.elements.iter().enumerate() {
            if position > 0 {
                symbols.push(",".to_owned());
            }
            symbols.push(name.clone());
            if let Some(tree) = inner {
                tree.written(symbols);
            }
        }
        if self.is_final {
            if !self.elements.is_empty() {
                symbols.push(":".to_owned());
            }
            symbols.push("FINAL".to_owned());
        }
        symbols.push(")".to_owned());
    }

    /// The tree with an extension merged into it.
    pub fn merged(&self, written: &Tree) -> Tree {
        let mut merged = self.clone();
        merged.is_final |= written.is_final;
        for (name, inner) in &written.elements {
            let known = merged.elements.iter_mut().find(|(known, _)| known == name);
            match (known, inner) {
                (None, _) => merged.elements.push((name.clone(), inner.clone())),
                (Some((_, Some(list))), Some(more)) => *list = list.merged(more),
                (Some((_, list @ None)), Some(more)) => *list = Some(more.clone()),
                (Some(_), None) => {}
            }
        }
        merged
    }
}

fn decimal(value: i128, decimals: u32) -> String {
    let sign = if value < 0 { "-" } else { "" };
    let digits = format!(
        "{:0width$}",
        value.unsigned_abs(),
        width = decimals as usize + 1
    );
    let (whole, fraction) = digits.split_at(digits.len() - decimals as usize);
    let dot = if decimals > 0 { "." } else { "" };
    format!("{sign}{whole}{dot}{fraction}")
}

/// An extension that passes, or with `beyond` is meant to be refused by 17;
/// that is not always possible.
pub fn extension(random: &mut Random, base: &Shape, beyond: bool) -> Shape {
    match base {
        Shape::Text { multiple, length } => Shape::Text {
            multiple: *multiple,
            length: shorter(random, *length, beyond),
        },
        Shape::Numeric => fresh_range(random, true),
        Shape::Range {
            decimals,
            first,
            second,
        } => narrower(random, *decimals, (*first, *second), beyond),
        Shape::Enumeration(tree) => {
            let written = grown(random, tree, beyond);
            let known = random.chance(1, 8) && written.is_final;
            let elements = if known { Vec::new() } else { written.elements };
            Shape::Enumeration(Tree {
                elements,
                is_final: written.is_final,
            })
        }
    }
}

fn shorter(random: &mut Random, length: Option<u64>, beyond: bool) -> Option<u64> {
    match length {
        None if random.chance(1, 2) => None,
        None => Some(LENGTHS[random.below(LENGTHS.len())]),
        Some(_) if beyond && random.chance(1, 3) => None,
        Some(length) if beyond => Some((length + 1).min(4_294_967_295)),
        Some(length) if random.chance(1, 2) => Some(length),
        Some(length) => Some(1 + random.draw() % length),
    }
}

fn narrower(random: &mut Random, decimals: u32, base: (i128, i128), beyond: bool) -> Shape {
    let finer = match random.below(4) {
        0 => decimals,
        1 => random.below(MOST_DECIMALS as usize + 1) as u32,
        2 => (decimals + 1).min(MOST_DECIMALS),
        _ => (decimals + 2).min(MOST_DECIMALS),
    };
    let Some((decimals, low, high)) = allowed(finer, decimals, base) else {
        return narrower_same(random, decimals, base, beyond);
    };
    bounds(random, decimals, (low, high), beyond)
}

fn narrower_same(random: &mut Random, decimals: u32, base: (i128, i128), beyond: bool) -> Shape {
    bounds(random, decimals, base, beyond)
}

/// The numbers with `decimals` that have a legal reading at the base.
fn allowed(decimals: u32, base: u32, (first, second): (i128, i128)) -> Option<(u32, i128, i128)> {
    let (low, high) = if decimals > base {
        let unit = 10i128.pow(decimals - base);
        (first * unit - unit / 2, second * unit + unit / 2 - 1)
    } else {
        let unit = 10i128.pow(base - decimals);
        (-(-first).div_euclid(unit), second.div_euclid(unit))
    };
    let (low, high) = (low.max(1 - LIMIT), high.min(LIMIT - 1));
    (low <= high).then_some((decimals, low, high))
}

fn bounds(random: &mut Random, decimals: u32, allowed: (i128, i128), beyond: bool) -> Shape {
    let (low, high) = allowed;
    let mut first = if random.chance(1, 2) {
        low
    } else {
        random.between(low, high)
    };
    let mut second = if random.chance(1, 2) {
        high
    } else {
        random.between(low, high)
    };
    if first > second {
        std::mem::swap(&mut first, &mut second);
    }
    if beyond && random.chance(1, 2) {
        first = (low - 1).max(1 - LIMIT);
    } else if beyond {
        second = (high + 1).min(LIMIT - 1);
    }
    Shape::Range {
        decimals,
        first,
        second,
    }
}

/// A written enumeration over a base: some shared elements, some new ones.
fn grown(random: &mut Random, base: &Tree, beyond: bool) -> Tree {
    let mut elements: Vec<(String, Option<Tree>)> = Vec::new();
    for (name, inner) in &base.elements {
        if random.chance(1, 2) {
            elements.push((name.clone(), below(random, inner.as_ref(), beyond)));
        }
    }
    if random.chance(1, 4) {
        elements.reverse();
    }
    let mut taken = base.elements.clone();
    let may_add = !base.is_final || beyond;
    while may_add && (elements.is_empty() || random.chance(1, 3)) && taken.len() < 20 {
        let name = new_element(random, &taken);
        taken.push((name.clone(), None));
        elements.push((name, random.chance(1, 6).then(|| tree(random, 1, true))));
    }
    if elements.is_empty() {
        elements.extend(base.elements.first().map(|(name, _)| (name.clone(), None)));
    }
    Tree {
        is_final: elements.is_empty() || random.chance(1, 5),
        elements,
    }
}

fn below(random: &mut Random, inner: Option<&Tree>, beyond: bool) -> Option<Tree> {
    let last = Tree {
        elements: Vec::new(),
        is_final: true,
    };
    match inner {
        Some(tree) if tree.elements.is_empty() && !beyond => random.chance(1, 4).then_some(last),
        Some(tree) => random.chance(1, 2).then(|| grown(random, tree, beyond)),
        None => match random.below(6) {
            0 => Some(last),
            1 => Some(tree(random, 1, true)),
            _ => None,
        },
    }
}
