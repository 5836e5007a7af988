//! Hash tables for names and for pairs of numbers. Both use a seed drawn
//! anew for each check, so that no text can aim at their slots.

use std::collections::hash_map::RandomState;
use std::hash::{BuildHasher, Hasher};

const FREE: u32 = u32::MAX;
const SPREAD: u64 = 0x9E37_79B9_7F4A_7C15;

/// A fresh seed.
pub fn seed() -> u64 {
    RandomState::new().build_hasher().finish()
}

fn fold(left: u64, right: u64) -> u64 {
    let product = u128::from(left) * u128::from(right);
    (product as u64) ^ (product >> 64) as u64
}

fn hash_bytes(seed: u64, bytes: &[u8]) -> u64 {
    let mut hash = seed ^ bytes.len() as u64;
    let mut rest = bytes;
    while let Some((chunk, behind)) = rest.split_first_chunk::<8>() {
        hash = fold(hash ^ u64::from_le_bytes(*chunk), SPREAD);
        rest = behind;
    }
    fold(hash ^ tail(rest), SPREAD ^ seed)
}

/// Up to seven bytes as a number; with the count of the bytes it is unique.
fn tail(bytes: &[u8]) -> u64 {
    match (bytes.first_chunk::<4>(), bytes.last_chunk::<4>()) {
        (Some(first), Some(last)) => {
            let (first, last) = (u32::from_le_bytes(*first), u32::from_le_bytes(*last));
            u64::from(first) << 32 | u64::from(last)
        }
        _ => {
            let shifted = |number, &byte: &u8| number << 8 | u64::from(byte);
            bytes.iter().fold(0, shifted)
        }
    }
}

#[derive(Clone, Copy)]
struct Entry {
    hash: u32,
    place: u32,
    length: u32,
}

/// The different names of a text, numbered in the order they were met.
pub struct Names<'t> {
    text: &'t [u8],
    seed: u64,
    entries: Vec<Entry>,
    slots: Vec<u32>,
}

impl<'t> Names<'t> {
    pub fn new(text: &'t [u8]) -> Self {
        let slots = (text.len() / 8).next_power_of_two().clamp(16, 4096);
        Names {
            text,
            seed: seed(),
            entries: Vec::with_capacity(slots / 2),
            slots: vec![FREE; slots],
        }
    }

    /// The number of the name at `place`; equal names have equal numbers.
    pub fn id(&mut self, place: u32, length: u32) -> u32 {
        if (self.entries.len() + 1) * 2 > self.slots.len() {
            self.grow();
        }
        let text = self.text;
        let part = |place: u32, length: u32| &text[place as usize..][..length as usize];
        let name = part(place, length);
        let hash = hash_bytes(self.seed, name) as u32;
        let mask = self.slots.len() - 1;
        let mut slot = hash as usize & mask;
        while self.slots[slot] != FREE {
            let id = self.slots[slot];
            let entry = self.entries[id as usize];
            if entry.hash == hash && part(entry.place, entry.length) == name {
                return id;
            }
            slot = (slot + 1) & mask;
        }
        let id = self.entries.len() as u32;
        self.slots[slot] = id;
        self.entries.push(Entry {
            hash,
            place,
            length,
        });
        id
    }

    fn grow(&mut self) {
        let size = self.slots.len() * 2;
        self.slots = vec![FREE; size];
        for (id, entry) in self.entries.iter().enumerate() {
            let mut slot = entry.hash as usize & (size - 1);
            while self.slots[slot] != FREE {
                slot = (slot + 1) & (size - 1);
            }
            self.slots[slot] = id as u32;
        }
    }
}

#[derive(Clone, Copy)]
struct Cell {
    key: u64,
    value: u32,
}

const EMPTY: Cell = Cell {
    key: 0,
    value: FREE,
};

/// A map from a list or topic and a name in it to what the name stands for.
pub struct Pairs {
    seed: u64,
    count: usize,
    cells: Vec<Cell>,
}

impl Pairs {
    pub fn new() -> Self {
        Pairs {
            seed: seed() | 1,
            count: 0,
            cells: vec![EMPTY; 16],
        }
    }

    fn first_cell(&self, key: u64) -> usize {
        fold(key ^ SPREAD, self.seed) as usize & (self.cells.len() - 1)
    }

    /// The cell that holds the key, or the free cell where it belongs.
    fn find(&self, key: u64) -> usize {
        let mut cell = self.first_cell(key);
        while self.cells[cell].value != FREE && self.cells[cell].key != key {
            cell = (cell + 1) & (self.cells.len() - 1);
        }
        cell
    }

    pub fn get(&self, within: u32, name: u32) -> Option<u32> {
        let value = self.cells[self.find(key(within, name))].value;
        (value != FREE).then_some(value)
    }

    /// Adds a pair, unless it is there already; says whether it was added.
    pub fn insert(&mut self, within: u32, name: u32, value: u32) -> bool {
        self.reserve(1);
        let key = key(within, name);
        let cell = self.find(key);
        if self.cells[cell].value != FREE {
            return false;
        }
        self.cells[cell] = Cell { key, value };
        self.count += 1;
        true
    }

    /// Makes room for so many more pairs.
    pub fn reserve(&mut self, more: usize) {
        let needed = (self.count + more) * 3 / 2;
        if needed >= self.cells.len() {
            self.resize((needed + 1).next_power_of_two());
        }
    }

    fn resize(&mut self, size: usize) {
        let old = std::mem::replace(&mut self.cells, vec![EMPTY; size]);
        for cell in old.into_iter().filter(|cell| cell.value != FREE) {
            let free = self.find(cell.key);
            self.cells[free] = cell;
        }
    }
}

fn key(within: u32, name: u32) -> u64 {
    u64::from(within) << 32 | u64::from(name)
}
