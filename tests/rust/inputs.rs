//! Inputs: blocks, ways to damage them, cursors, messages, contents and rooms.

use crate::library::{Cursor, Found, Message};
use crate::model::{self, layout, LAYOUTS, MOST};
use crate::prng::Prng;

const L: u8 = 0x80;
const V: u8 = 0x40;
const H: u8 = 0x20;
const D: u8 = 0x10;

/// A block, and where its PDUs begin.
pub struct Block {
    pub octets: Vec<u8>,
    starts: Vec<usize>,
}

pub fn vector(prng: &mut Prng) -> u8 {
    if prng.one_in(8) {
        return prng.octet() % 32;
    }
    LAYOUTS[prng.below(LAYOUTS.len())].vector
}

/// A length of data: mostly small, sometimes that of a message, rarely more than an octet can tell.
fn data_length(prng: &mut Prng) -> usize {
    match prng.below(20) {
        0..=11 => prng.below(8),
        12..=18 => prng.pick(&[4, 16, 20, 25, 26, 32, 40, 46]),
        _ => prng.below(1200),
    }
}

impl Block {
    fn empty() -> Block {
        Block { octets: Vec::new(), starts: Vec::new() }
    }

    /// Adds a whole PDU with these flags; without D it has no data of its own.
    fn push(&mut self, prng: &mut Prng, flags: u8, data: usize) {
        let data = if flags & D != 0 { data } else { 0 };
        let own = 2 + (flags & V != 0) as usize;
        let flags = if own + data > 0xFFF { flags | L } else { flags };
        let size = own + (flags & L != 0) as usize + data;
        self.starts.push(self.octets.len());
        match flags & L {
            0 => self.octets.extend([flags | (size >> 8) as u8, size as u8]),
            _ => self.octets.extend([flags | (size >> 16) as u8, (size >> 8) as u8, size as u8]),
        }
        if flags & V != 0 {
            self.octets.push(vector(prng));
        }
        self.octets.extend(prng.octets(data));
    }

    /// The flags of a further PDU: the first has V, H and D, others take over what they like.
    fn flags(&self, prng: &mut Prng) -> u8 {
        let form = if prng.one_in(4) { L } else { 0 };
        if self.starts.is_empty() {
            return form | V | H | D;
        }
        form | prng.octet() & (V | H | D)
    }

    /// A block of this many whole PDUs.
    pub fn of(prng: &mut Prng, count: usize) -> Block {
        let mut block = Block::empty();
        for _ in 0..count {
            let (flags, data) = (block.flags(prng), data_length(prng));
            block.push(prng, flags, data);
        }
        block
    }

    /// A block of exactly this length, of at least 4 octets, with PDUs of up to `most` octets of data.
    pub fn of_length(prng: &mut Prng, length: usize, most: usize) -> Block {
        let mut block = Block::empty();
        while length - block.octets.len() > most + 8 {
            let (flags, data) = (block.flags(prng), prng.below(most + 1));
            block.push(prng, flags, data);
        }
        let left = length - block.octets.len();
        block.push(prng, L | V | H | D, left - 4);
        block
    }

    /// Damages the block in one way, and says in which.
    pub fn damage(&mut self, prng: &mut Prng) -> &'static str {
        if self.octets.is_empty() {
            self.octets = prng.octets(1);
            return "an octet alone";
        }
        let at = prng.below(self.octets.len());
        let start = prng.pick(&self.starts);
        match prng.below(7) {
            0 => {
                self.octets[at] ^= 1 << prng.below(8);
                "a bit flipped"
            }
            1 => {
                self.octets.truncate(at);
                "cut off"
            }
            2 => {
                self.octets.insert(at, prng.octet());
                "an octet inserted"
            }
            3 => {
                self.octets.remove(at);
                "an octet removed"
            }
            4 => {
                self.octets[start] ^= 1 << (4 + prng.below(4));
                "a flag flipped"
            }
            5 => {
                let further = if self.octets[start] & L != 0 { 2 } else { 1 };
                let low = &mut self.octets[start + further];
                *low = if prng.one_in(2) { low.wrapping_add(1) } else { low.wrapping_sub(1) };
                "a length off by one"
            }
            _ => {
                let more = 1 + prng.below(3);
                self.octets.extend(prng.octets(more));
                "octets behind the end"
            }
        }
    }
}

/// Octets of which many begin like PDUs, so that some are whole.
pub fn octets_like_pdus(prng: &mut Prng) -> Vec<u8> {
    let length = prng.below(24);
    let mut octets = prng.octets(length);
    for octet in &mut octets {
        if prng.one_in(2) {
            *octet = prng.pick(&[0x70, 0x00, 0x02, 0x03, 0x04, 0x10, 0x20, 0x30, 0x60, 0x80, 0xF0]);
        }
    }
    octets
}

/// A position: mostly of a message, sometimes equal to one of them but for a high bit.
pub fn position(prng: &mut Prng) -> u32 {
    let small = prng.below(6) as u32;
    match prng.below(16) {
        0 => prng.bits() as u32,
        1 => prng.below(100) as u32,
        2 => small | 1 << prng.below(32),
        _ => small,
    }
}

// ---- cursors

/// A number that may stand in a cursor: near the block's length or far from any.
fn place(prng: &mut Prng, length: usize) -> usize {
    match prng.below(12) {
        0 => usize::MAX - prng.below(70_000),
        1 => prng.bits() as usize,
        2 => prng.near(length),
        _ => prng.below(length + 3),
    }
}

pub fn any_cursor(prng: &mut Prng, length: usize) -> Cursor {
    let before = Found { vector: place(prng, length), data: place(prng, length), length: place(prng, length) };
    Cursor { next: place(prng, length), before }
}

/// A cursor that a walk over the octets comes to; of a malformed block, the start.
pub fn cursor_of(prng: &mut Prng, octets: &[u8]) -> Cursor {
    let cursors = model::parse(octets).unwrap_or_default();
    if cursors.is_empty() || prng.one_in(8) {
        return Cursor::default();
    }
    prng.pick(&cursors)
}

/// The cursor with one of its numbers changed.
pub fn damaged_cursor(prng: &mut Prng, cursor: Cursor, length: usize) -> Cursor {
    let mut damaged = cursor;
    let before = &mut damaged.before;
    let number = match prng.below(4) {
        0 => &mut damaged.next,
        1 => &mut before.vector,
        2 => &mut before.data,
        _ => &mut before.length,
    };
    *number = match prng.below(4) {
        0 => number.wrapping_sub(1),
        1 => number.wrapping_add(1),
        2 => *number ^ 1 << prng.below(17),
        _ => place(prng, length),
    };
    damaged
}

// ---- messages

/// Data for a vector, and of which kind it is: with the length of its message, a length near to one, or any.
pub fn data(prng: &mut Prng, vector: u8) -> (Vec<u8>, &'static str) {
    let address = prng.pick(&[0, 1, 2, 255]);
    let right = layout(vector, address).map_or(0, |layout| layout.size());
    let wrapped = if vector <= 2 && !prng.one_in(4) { prng.below(100) } else { 0 };
    let (length, kind) = match prng.below(8) {
        0..=3 => (right + wrapped, "the right length"),
        4..=5 => (prng.near(right), "a length about right"),
        6 => (prng.pick(&[0, 4, 16, 19, 20, 25, 26, 30, 31, 32, 40, 46]), "the length of another"),
        _ => (prng.below(90), "any length"),
    };
    let length = if prng.one_in(1000) { prng.below(MOST) } else { length };
    let mut octets = prng.octets(length);
    if let Some(octet) = octets.get_mut(30) {
        *octet = address;
    }
    if !octets.is_empty() && prng.one_in(4) {
        let at = prng.below(octets.len());
        octets[at] = prng.pick(&[0, 1, 2, 0x7F, 0x80, 0xFF]);
    }
    (octets, kind)
}

/// A number of this many octets, often one of the ends.
fn number(prng: &mut Prng, octets: usize) -> u128 {
    let bits = (prng.bits() as u128) << 64 | prng.bits() as u128;
    match prng.below(8) {
        0 => 0,
        1 => u128::MAX >> (128 - 8 * octets),
        _ => bits >> (128 - 8 * octets),
    }
}

/// A message in which every field is filled, also those that its kind does not have.
pub fn message(prng: &mut Prng) -> Message {
    let mut message = Message::default();
    for field in LAYOUTS.iter().flat_map(|layout| layout.fields) {
        let filled = number(prng, field.octets);
        (field.set)(&mut message, filled);
    }
    message.vector = vector(prng);
    message.destination.kind = prng.pick(&[0, 0, 1, 1, 2, 255]);
    message
}

/// Contents, often about as long as they may be.
pub fn contents(prng: &mut Prng) -> Vec<u8> {
    let length = match prng.below(8) {
        0 => 0,
        1..=2 => prng.near(1_454),
        3 => 1_455 + prng.below(4_000),
        _ => prng.below(200),
    };
    prng.octets(length)
}

/// A room for a message with these contents, and how it fits.
pub fn room(prng: &mut Prng, message: &Message, contents: usize) -> (Vec<u8>, &'static str) {
    let own = layout(message.vector, message.destination.kind).map_or(0, |layout| layout.size());
    let exact = 3 + own + if message.vector <= 2 { contents } else { 0 };
    let (length, kind) = match prng.below(8) {
        0..=1 => (exact, "a room that just fits"),
        2..=3 => (exact - 1, "a room one octet short"),
        4..=5 => (exact + 1 + prng.below(40), "a room with octets to spare"),
        6 => (prng.near(1_477), "a room for the longest message"),
        _ => (prng.below(exact + 60), "any room"),
    };
    (prng.octets(length), kind)
}
