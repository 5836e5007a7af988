//! What holds for every case, and how often each answer comes.

use std::collections::{HashMap, HashSet};

use cases::{flavours, gen, gen_small, is_named, Case, FLAVOURS, LARGE_ONLY, SIZES, SMALL};
use peer::{check, find_record, show_name, symbols, units, Answer, Spot};

/// Checks with a buffer of this length, full of other bytes before.
fn checked(text: &[u8], length: usize) -> (Answer, Vec<u8>) {
    let mut buffer = vec![0xA5; length];
    let answer = check(text, &mut buffer);
    (answer, buffer)
}

/// The large and the small case of each seed.
fn every(seeds: std::ops::Range<u64>, mut judge: impl FnMut(u64, Case)) {
    for seed in seeds {
        judge(seed, gen(seed));
        judge(seed, gen_small(seed));
    }
}

#[test]
fn one_seed_gives_one_case() {
    for seed in 0..200 {
        assert_eq!(gen(seed), gen(seed));
        assert_eq!(gen_small(seed), gen_small(seed));
    }
}

#[test]
fn the_whole_buffer_is_determined() {
    every(0..6_000, |seed, case| {
        let (answer, buffer) = checked(&case.text, case.buffer_len);
        let length = match answer {
            Answer::Accepted { book_len, .. } => book_len,
            Answer::Refused { .. } => 0,
        };
        assert!(length <= 65_535 && length <= case.buffer_len, "seed {seed}");
        let rest = &buffer[length..];
        assert!(rest.iter().all(|&byte| byte == 0), "seed {seed}");
    });
}

#[test]
fn a_longer_buffer_gives_the_same_book() {
    every(6_000..9_000, |seed, case| {
        let (answer, buffer) = checked(&case.text, case.buffer_len);
        let longer = case.buffer_len + 1 + (seed as usize * 37) % 3_000;
        let (again, book) = checked(&case.text, longer);
        match answer {
            Answer::Accepted { book_len, .. } => {
                assert_eq!(answer, again, "seed {seed}");
                assert_eq!(buffer[..book_len], book[..book_len], "seed {seed}");
            }
            Answer::Refused { number: 19, .. } => {}
            Answer::Refused { .. } => assert_eq!(answer, again, "seed {seed}"),
        }
    });
}

#[test]
fn a_buffer_of_the_books_length_is_enough_and_one_less_is_not() {
    every(9_000..11_000, |seed, case| {
        let (answer, buffer) = checked(&case.text, 65_535);
        let Answer::Accepted { book_len, .. } = answer else {
            return;
        };
        let (exactly, book) = checked(&case.text, book_len);
        assert_eq!(exactly, answer, "seed {seed}");
        assert_eq!(book[..], buffer[..book_len], "seed {seed}");
        let (short, _) = checked(&case.text, book_len - 1);
        let refused = matches!(short, Answer::Refused { number: 19, .. });
        assert!(refused, "seed {seed}");
    });
}

/// Kinds of records that have a name, and the definitions among them.
fn counted(text: &[u8], book: &[u8]) -> (usize, usize) {
    let (mut at, mut record, mut names, mut definitions) = (0, 0, 0, 0);
    while at < book.len() {
        let kind = book[at];
        let has_name = is_named(kind);
        assert_eq!(find_record(book, record), Some(at));
        let name = show_name(text, book, at);
        assert_eq!(has_name, !name.is_empty());
        if has_name {
            assert!(name[0].is_ascii_alphabetic());
            names += 1;
        }
        definitions += usize::from((4..=7).contains(&kind));
        at += SIZES[usize::from(kind)];
        record += 1;
    }
    assert_eq!(at, book.len());
    assert_eq!(find_record(book, record), None);
    (names, definitions)
}

#[test]
fn books_hold_whole_records_and_names() {
    every(11_000..12_000, |seed, case| {
        let (answer, buffer) = checked(&case.text, 65_535);
        if let Answer::Accepted {
            book_len,
            definitions,
        } = answer
        {
            let (names, found) = counted(&case.text, &buffer[..book_len]);
            assert_eq!(found, definitions, "seed {seed}");
            assert!(names > definitions, "seed {seed}");
        }
    });
}

#[test]
fn units_agree_with_the_check() {
    every(12_000..16_000, |seed, case| {
        let (answer, _) = checked(&case.text, case.buffer_len);
        let (found, refusal) = units(&case.text);
        let increasing = found.windows(2).all(|pair| pair[0].place < pair[1].place);
        assert!(increasing, "seed {seed}");
        match (answer, refusal) {
            (Answer::Accepted { .. }, refusal) => assert_eq!(refusal, None, "seed {seed}"),
            (Answer::Refused { number, place, .. }, Some(fault)) if number <= 6 => {
                // The attribute count of 4 stands at a unit's name.
                let counted = found.iter().any(|unit| unit.place == place);
                let same = (fault.number, fault.at.place as usize) == (number, place);
                assert!(same || (number == 4 && counted), "seed {seed}");
            }
            (Answer::Refused { number, .. }, None) => {
                assert!(number >= 7 || number == 4, "seed {seed}");
            }
            (Answer::Refused { .. }, Some(_)) => {}
        }
    });
}

/// The line and the column of a place, counted in what stands before it with each
/// line end made an LF. The place is not within a CR LF.
fn counted_at(text: &[u8], place: usize) -> (usize, usize) {
    let before: String = text[..place].iter().copied().map(char::from).collect();
    let unified = before.replace("\r\n", "\n").replace('\r', "\n");
    let last = unified.rsplit('\n').next().unwrap_or("");
    (1 + unified.matches('\n').count(), 1 + last.chars().count())
}

#[test]
fn lines_and_columns_are_those_of_the_place() {
    every(16_000..22_000, |seed, case| {
        let (answer, _) = checked(&case.text, case.buffer_len);
        if let Answer::Refused {
            place,
            line,
            column,
            ..
        } = answer
        {
            let expected = counted_at(&case.text, place);
            assert_eq!((line, column), expected, "seed {seed}");
        }
    });
}

#[test]
fn every_symbol_has_its_line_and_column() {
    every(22_000..22_300, |seed, case| {
        for (at, _) in symbols(&case.text) {
            let (line, column) = counted_at(&case.text, at.place as usize);
            let found = (at.line as usize, at.column as usize);
            assert_eq!(found, (line, column), "seed {seed}");
            assert_eq!(at, Spot::of(&case.text, at.place as usize), "seed {seed}");
        }
    });
}

/// Two places of a text have different lines or columns, within line ends too.
#[test]
fn line_and_column_tell_places_apart() {
    every(22_300..22_600, |seed, case| {
        let all: HashSet<(u32, u32)> = (0..=case.text.len())
            .map(|place| Spot::of(&case.text, place))
            .map(|at| (at.line, at.column))
            .collect();
        assert_eq!(all.len(), case.text.len() + 1, "seed {seed}");
    });
}

/// How often each answer comes: 0 is acceptance.
fn tally(case: impl Fn(u64) -> Case, count: u64) -> [usize; 23] {
    let mut tally = [0; 23];
    for seed in 0..count {
        let case = case(seed);
        match checked(&case.text, case.buffer_len).0 {
            Answer::Accepted { .. } => tally[0] += 1,
            Answer::Refused { number, .. } => tally[usize::from(number)] += 1,
        }
    }
    tally
}

/// 1 needs a text longer than these; 20 and 21 are of reading a number.
fn reaches_every_refusal(tally: &[usize; 23]) {
    for number in (2..=19).chain([22]) {
        let count = tally[number];
        assert!(count >= 20, "refusal {number}: {count}");
    }
}

/// Each of these flavours comes in one of a thousand cases, and no other comes.
fn reaches_every_flavour(case: impl Fn(u64) -> Case, wanted: &[&str]) {
    const CASES: u64 = 100_000;
    let mut found: HashMap<&str, u64> = HashMap::new();
    for flavour in (0..CASES).flat_map(|seed| flavours(&case(seed))) {
        *found.entry(flavour).or_default() += 1;
    }
    let counts = wanted
        .iter()
        .map(|flavour| (flavour, found.remove(flavour).unwrap_or(0)));
    let few: Vec<_> = counts.filter(|(_, count)| *count < CASES / 1_000).collect();
    assert!(few.is_empty(), "{few:?}");
    assert!(found.is_empty(), "not listed: {found:?}");
}

#[test]
fn large_cases_reach_every_flavour() {
    reaches_every_flavour(gen, &FLAVOURS);
}

#[test]
fn small_cases_reach_every_flavour() {
    let mut wanted = FLAVOURS.to_vec();
    wanted.retain(|flavour| !LARGE_ONLY.contains(flavour));
    assert_eq!(wanted.len() + LARGE_ONLY.len(), FLAVOURS.len());
    reaches_every_flavour(gen_small, &wanted);
}

#[test]
fn large_cases_reach_every_answer() {
    let tally = tally(gen, 20_000);
    assert!(tally[0] >= 4_000, "accepted {}", tally[0]);
    reaches_every_refusal(&tally);
}

#[test]
fn small_cases_reach_every_answer() {
    let tally = tally(gen_small, 20_000);
    assert!(tally[0] >= 4_000, "accepted {}", tally[0]);
    reaches_every_refusal(&tally);
}

#[test]
fn small_texts_are_small() {
    for seed in 0..5_000 {
        assert!(gen_small(seed).text.len() <= SMALL);
        assert!(gen(seed).text.len() <= 20_000);
    }
}

#[test]
fn buffers_of_every_kind_are_lent() {
    let lengths: Vec<usize> = (0..3_000).map(|seed| gen(seed).buffer_len).collect();
    let some = |fits: fn(&usize) -> bool| lengths.iter().any(fits);
    assert!(some(|&length| length == 0));
    assert!(some(|&length| (1..6).contains(&length)));
    assert!(some(|&length| (100..10_000).contains(&length)));
    assert!(some(|&length| length == 65_534));
    assert!(some(|&length| length == 65_535));
    assert!(some(|&length| length > 65_535));
}
