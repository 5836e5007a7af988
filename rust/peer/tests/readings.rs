//! Extensions judged by the letter: every legal value of a small type is
//! read at the base, and the answers are compared.

mod common;
use common::*;
use peer::{read_number, show_name, Answer};

/// A small generator of random numbers.
struct Random(u64);

impl Random {
    fn below(&mut self, limit: u64) -> u64 {
        self.0 ^= self.0 << 13;
        self.0 ^= self.0 >> 7;
        self.0 ^= self.0 << 17;
        (self.0 >> 20) % limit
    }
}

fn refusal(body: &str) -> u8 {
    match answer(model(body).as_bytes()).0 {
        Answer::Accepted { .. } => 0,
        Answer::Refused { number, .. } => number,
    }
}

fn written(value: i64, decimals: u32) -> String {
    let sign = if value < 0 { "-" } else { "" };
    let digits = format!("{:0width$}", value.abs(), width = decimals as usize + 1);
    let (whole, rest) = digits.split_at(digits.len() - decimals as usize);
    let dot = if decimals > 0 { "." } else { "" };
    format!("{sign}{whole}{dot}{rest}")
}

#[test]
fn ranges_value_by_value() {
    let mut random = Random(7);
    let mut passed = 0;
    for _ in 0..6_000 {
        let mut range = || {
            let decimals = random.below(3) as u32;
            let reach = [9, 30, 120][decimals as usize];
            let bound = |random: &mut Random| random.below(2 * reach) as i64 - reach as i64;
            let (one, other) = (bound(&mut random), bound(&mut random));
            (decimals, one.min(other), one.max(other))
        };
        let (base, own) = (range(), range());
        let text = |(decimals, first, second): (u32, i64, i64)| {
            format!(
                "{}..{}",
                written(first, decimals),
                written(second, decimals)
            )
        };
        let legal = (own.1..=own.2).all(|value| {
            let reading = read_number(value, own.0.into(), base.0.into());
            reading.is_ok_and(|reading| base.1 <= reading && reading <= base.2)
        });
        let body = format!("DOMAIN A={};B EXTENDS A={};", text(base), text(own));
        assert_eq!(refusal(&body), if legal { 0 } else { 17 }, "{body}");
        passed += usize::from(legal);
    }
    assert!(passed > 300, "{passed}");
}

#[derive(Clone, Default)]
struct Tree {
    elements: Vec<(char, Option<Tree>)>,
    is_final: bool,
}

const OTHERS: char = '*';

impl Tree {
    fn random(random: &mut Random, levels: usize) -> Tree {
        let mut tree = Tree {
            elements: Vec::new(),
            is_final: random.below(3) == 0,
        };
        for name in ['a', 'b', 'c'] {
            if random.below(2) == 0 {
                tree.elements.push((name, Tree::inner(random, levels)));
            }
        }
        if tree.elements.is_empty() {
            tree.elements.push(('a', Tree::inner(random, levels)));
        }
        tree
    }

    fn inner(random: &mut Random, levels: usize) -> Option<Tree> {
        match random.below(5) {
            0 => Some(Tree {
                elements: Vec::new(),
                is_final: true,
            }),
            1 | 2 if levels > 1 => Some(Tree::random(random, levels - 1)),
            _ => None,
        }
    }

    fn text(&self) -> String {
        if self.elements.is_empty() {
            return "(FINAL)".to_owned();
        }
        let inner = |tree: &Option<Tree>| tree.as_ref().map_or(String::new(), Tree::text);
        let elements = self.elements.iter();
        let elements: Vec<String> = elements
            .map(|(name, tree)| format!("{name}{}", inner(tree)))
            .collect();
        let last = if self.is_final { ":FINAL" } else { "" };
        format!("({}{last})", elements.join(","))
    }

    fn get(&self, name: char) -> Option<&Option<Tree>> {
        let found = self.elements.iter().find(|(known, _)| *known == name);
        found.map(|(_, inner)| inner)
    }

    fn merged(&self, extension: &Tree) -> Tree {
        let mut merged = self.clone();
        merged.is_final |= extension.is_final;
        for (name, inner) in &extension.elements {
            match merged.elements.iter_mut().find(|(known, _)| known == name) {
                None => merged.elements.push((*name, inner.clone())),
                Some((_, known)) => {
                    *known = match (known.take(), inner) {
                        (Some(known), Some(inner)) => Some(known.merged(inner)),
                        (known, inner) => known.or(inner.clone()),
                    }
                }
            }
        }
        merged
    }

    /// The paths to the leaves, and to OTHERS where it is legal.
    fn values(&self) -> Vec<Vec<char>> {
        let mut values = Vec::new();
        for (name, inner) in &self.elements {
            let below = inner.as_ref().map_or(Vec::new(), Tree::values);
            if below.is_empty() {
                values.push(vec![*name]);
            }
            values.extend(below.into_iter().map(|path| [vec![*name], path].concat()));
        }
        if !self.is_final {
            values.push(vec![OTHERS]);
        }
        values
    }

    /// Whether a path has a legal reading here.
    fn reads(&self, path: &[char]) -> bool {
        let Some((first, rest)) = path.split_first() else {
            return false;
        };
        match self.get(*first) {
            None => !self.is_final,
            Some(None) => true,
            Some(Some(inner)) if inner.elements.is_empty() => rest.is_empty() || !inner.is_final,
            Some(Some(inner)) => inner.reads(rest),
        }
    }
}

#[test]
fn enumerations_value_by_value() {
    let mut random = Random(11);
    let mut passed = 0;
    for _ in 0..6_000 {
        let base = Tree::random(&mut random, 3);
        let extension = Tree::random(&mut random, 3);
        let merged = base.merged(&extension);
        let legal = merged.values().iter().all(|path| base.reads(path));
        let expected = if legal { 0 } else { 17 };
        let (base, own) = (base.text(), extension.text());
        let body = format!("DOMAIN A={base};B EXTENDS A={own};");
        assert_eq!(refusal(&body), expected, "{body}");
        // The merged enumeration written by hand gives the same records.
        if legal {
            passed += 1;
            let by_hand = format!("DOMAIN A={base};B EXTENDS A={};", merged.text());
            let records = |body: &str| records(&model(body), &passes(body));
            assert_eq!(records(&body), records(&by_hand), "{body}");
        }
    }
    assert!(passed > 300, "{passed}");
}

/// The kinds of a book's records, with the flag of lists and the names.
fn records(text: &str, book: &[u8]) -> Vec<(u8, u8, Vec<u8>)> {
    let mut records = Vec::new();
    let mut at = 0;
    while at < book.len() {
        let flag = if book[at] == 13 { book[at + 1] } else { 0 };
        let name = show_name(text.as_bytes(), book, at);
        records.push((book[at], flag, name.to_vec()));
        at += match book[at] {
            1 | 14 => 6,
            7 => 11,
            13 => 2,
            15 => 1,
            kind => panic!("kind {kind} in a book of enumerations"),
        };
    }
    records
}

#[test]
fn domains_named_value_by_value() {
    let mut random = Random(13);
    let mut fitting = 0;
    for _ in 0..6_000 {
        let base = Tree::random(&mut random, 3);
        let own = Tree::random(&mut random, 3);
        let legal = own.values().iter().all(|path| base.reads(path));
        let body = format!(
            "DOMAIN E={};CLASS K=a:{};END K;CLASS L EXTENDS K=a(EXTENDED):E;END L;",
            own.text(),
            base.text()
        );
        assert_eq!(refusal(&body), if legal { 18 } else { 17 }, "{body}");
        fitting += usize::from(legal);
    }
    assert!(fitting > 300, "{fitting}");
}

/// Whether a unit is the other one, or descends from it.
fn descends(bases: &[Option<usize>], unit: usize, ancestor: usize) -> bool {
    unit == ancestor || bases[unit].is_some_and(|base| descends(bases, base, ancestor))
}

/// The base of each of some units, and their declarations.
fn units(random: &mut Random) -> (Vec<Option<usize>>, String) {
    let mut bases = Vec::new();
    let mut text = String::from("UNIT ");
    for number in 0..1 + random.below(5) {
        let base = (number > 0 && random.below(3) > 0).then(|| random.below(number) as usize);
        let extends = base.map_or(String::new(), |base| format!(" EXTENDS u{base}"));
        text += &format!("u{number}{extends};");
        bases.push(base);
    }
    (bases, text)
}

/// Whether a type in this unit, or without one, allows a number in that one.
fn allows(bases: &[Option<usize>], written: Option<usize>, unit: Option<usize>) -> bool {
    match (written, unit) {
        (Some(written), Some(unit)) => descends(bases, unit, written),
        (written, unit) => written == unit,
    }
}

#[test]
fn numbers_and_units_together() {
    let mut random = Random(11);
    let mut found = [0; 3];
    for _ in 0..6_000 {
        let (bases, known) = units(&mut random);
        let count = bases.len();
        let mut any = || (random.below(5) > 0).then(|| random.below(count as u64) as usize);
        let (base, own) = (any(), any());
        let every = (0..count).map(Some).chain([None]);
        let mut allowed = every.filter(|&unit| allows(&bases, own, unit));
        let legal = allowed.all(|unit| allows(&bases, base, unit));
        let last = 9 + random.below(4) / 3;
        let place = match (last, legal) {
            (10, _) => 1,
            (_, false) => 2,
            _ => 0,
        };
        found[place] += 1;
        let brackets = |unit: Option<usize>| unit.map_or(String::new(), |u| format!("[u{u}]"));
        let (base, over) = (brackets(base), format!("1..{last}{}", brackets(own)));
        let class = "END A;CLASS B EXTENDS A=x(EXTENDED)";
        for body in [
            format!("{known}DOMAIN A=1..9{base};B EXTENDS A={over};"),
            format!("{known}CLASS A=x:1..9{base};{class}:{over};END B;"),
        ] {
            assert_eq!(refusal(&body), [0, 17, 22][place], "{body}");
        }
    }
    assert!(found.iter().all(|&times| times > 1_000), "{found:?}");
}
