//! Enumerations as flat lists of pieces, in the order of the book's records.

use crate::tables::Pairs;
use crate::units::Word;

#[derive(Clone, Copy, Debug, PartialEq, Eq)]
pub enum Piece {
    /// Opens a list; the size counts its pieces, from here to its `Close`.
    Open {
        is_final: bool,
        size: usize,
    },
    Element(Word),
    Close,
}

/// A value of the extension that has an illegal reading at the base.
#[derive(Debug, PartialEq, Eq)]
pub struct Illegal;

fn opening(pieces: &[Piece], open: usize) -> (bool, usize) {
    match pieces[open] {
        Piece::Open { is_final, size } => (is_final, size),
        _ => unreachable!("a list begins with its opening piece"),
    }
}

/// Whether the list has no element.
pub fn is_empty(pieces: &[Piece], open: usize) -> bool {
    opening(pieces, open).1 == 2
}

/// The pieces of the list that opens at `open`.
pub fn list(pieces: &[Piece], open: usize) -> &[Piece] {
    &pieces[open..open + opening(pieces, open).1]
}

/// The list inside the element at `element`, if one is written.
fn inner(pieces: &[Piece], element: usize) -> Option<usize> {
    matches!(pieces[element + 1], Piece::Open { .. }).then_some(element + 1)
}

/// The elements of a list with their positions, inner lists passed over.
fn elements(pieces: &[Piece], open: usize) -> impl Iterator<Item = (usize, Word)> + '_ {
    let mut next = open + 1;
    std::iter::from_fn(move || {
        let at = next;
        let Piece::Element(name) = pieces[at] else {
            return None;
        };
        next = inner(pieces, at).map_or(at + 1, |list| list + opening(pieces, list).1);
        Some((at, name))
    })
}

/// Enters all elements of all lists into `index`, under the list and the
/// name. Gives the first element, in text order, that its list had already.
pub fn index_lists(pieces: &[Piece], open: usize, index: &mut Pairs) -> Option<Word> {
    let mut outer = [0; 8];
    let mut depth = 0;
    let size = opening(pieces, open).1;
    index.reserve(size);
    for (at, &piece) in pieces.iter().enumerate().skip(open).take(size) {
        match piece {
            Piece::Open { .. } => {
                outer[depth] = at as u32;
                depth += 1;
            }
            Piece::Element(name) => {
                if !index.insert(outer[depth - 1], name.id, at as u32) {
                    return Some(name);
                }
            }
            Piece::Close => depth -= 1,
        }
    }
    None
}

/// Merges the written enumeration into the base's and gives where the merged
/// one opens. The written lists are in `index`.
pub fn merge(
    pieces: &mut Vec<Piece>,
    index: &Pairs,
    base: usize,
    written: usize,
) -> Result<usize, Illegal> {
    let merged = pieces.len();
    let mut merge = Merge {
        shared: vec![false; opening(pieces, written).1],
        pieces,
        index,
        written,
    };
    merge.lists(base, written)?;
    Ok(merged)
}

struct Merge<'a> {
    pieces: &'a mut Vec<Piece>,
    index: &'a Pairs,
    written: usize,
    /// By distance from `written`: the elements that the base has too.
    shared: Vec<bool>,
}

impl Merge<'_> {
    fn lists(&mut self, base: usize, written: usize) -> Result<(), Illegal> {
        let merged = self.pieces.len();
        self.pieces.push(Piece::Close);
        let (base_final, base_size) = opening(self.pieces, base);
        let mut at = base + 1;
        while at < base + base_size - 1 {
            at = self.base_element(at, written)?;
        }
        self.append(written, base_final)?;
        self.pieces.push(Piece::Close);
        self.pieces[merged] = Piece::Open {
            is_final: base_final || opening(self.pieces, written).0,
            size: self.pieces.len() - merged,
        };
        Ok(())
    }

    /// Takes over the base's element at `at`; gives where the next one is.
    fn base_element(&mut self, at: usize, written: usize) -> Result<usize, Illegal> {
        let piece = self.pieces[at];
        self.pieces.push(piece);
        let below = inner(self.pieces, at);
        let next = below.map_or(at + 1, |list| list + opening(self.pieces, list).1);
        let added = self.find(piece, written);
        let added_below = added.and_then(|element| inner(self.pieces, element));
        match (below, added_below) {
            (Some(list), Some(more)) => self.lists(list, more)?,
            (Some(list), None) | (None, Some(list)) => self.copy(list),
            (None, None) => {}
        }
        Ok(next)
    }

    /// Looks a base's element up in the written list and notes it as shared.
    fn find(&mut self, piece: Piece, written: usize) -> Option<usize> {
        let Piece::Element(name) = piece else {
            unreachable!("a list holds elements");
        };
        let found = self.index.get(written as u32, name.id)? as usize;
        self.shared[found - self.written] = true;
        Some(found)
    }

    /// Appends the elements of the written list that the base lacks.
    fn append(&mut self, written: usize, base_final: bool) -> Result<(), Illegal> {
        let mut at = written + 1;
        while let Piece::Element(_) = self.pieces[at] {
            let below = inner(self.pieces, at);
            if !self.shared[at - self.written] {
                if base_final {
                    return Err(Illegal);
                }
                self.pieces.push(self.pieces[at]);
                if let Some(list) = below {
                    self.copy(list);
                }
            }
            at = below.map_or(at + 1, |list| list + opening(self.pieces, list).1);
        }
        Ok(())
    }

    fn copy(&mut self, open: usize) {
        let size = opening(self.pieces, open).1;
        self.pieces.extend_from_within(open..open + size);
    }
}

/// Whether each leaf of the list, and OTHERS where it is legal, has a legal
/// reading at the base's list. The base's lists are in `index`.
pub fn reads(pieces: &[Piece], index: &Pairs, own: usize, base: usize) -> bool {
    let (own_final, _) = opening(pieces, own);
    let (base_final, _) = opening(pieces, base);
    if base_final && !own_final {
        return false;
    }
    elements(pieces, own).all(|(at, name)| {
        let Some(found) = index.get(base as u32, name.id) else {
            return !base_final;
        };
        let filled = |list: &usize| !is_empty(pieces, *list);
        let below = inner(pieces, at).filter(filled);
        // An empty list is always FINAL, so its leaf is.
        let base_inner = inner(pieces, found as usize);
        let base_below = base_inner.filter(filled);
        match (below, base_below) {
            (Some(list), Some(base_list)) => reads(pieces, index, list, base_list),
            (Some(_), None) => base_inner.is_none(),
            (None, Some(_)) => false,
            (None, None) => true,
        }
    })
}
