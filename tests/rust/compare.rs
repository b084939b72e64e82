//! The comparisons: one input through the library and through the model. The octets are already lent.

use crate::library::{self, *};
use crate::model;
use crate::tally::{hex, Octets, Tally};

/// Reads a block at a position, opens it, and reads on: all its messages if it is accepted, and from the start if it is refused.
pub fn block(tally: &mut Tally, block: &[u8], position: u32) {
    let parsed = model::parse(block);
    let expected = model::read_block(&parsed, position);
    tally.answer("read_block", expected, library::read_block(block, position), || at(block, position));
    let expected = model::open_block(&parsed);
    tally.answer("open_block", expected, library::open_block(block), || hex(block));
    match parsed {
        Ok(cursors) => walk(tally, block, &cursors),
        Err(_) => cursor(tally, block, Cursor::default()),
    }
}

fn at(block: &[u8], position: u32) -> String {
    format!("position {position} of {}", hex(block))
}

/// Every message of an accepted block by its cursor, and by its position too: all of them in a small block, some in a large one.
fn walk(tally: &mut Tally, block: &[u8], cursors: &[Cursor]) {
    let stride = 1 + cursors.len() / 40;
    let mut cursor = Cursor::default();
    for (position, &behind) in cursors.iter().enumerate() {
        let expected = NextAnswer { outcome: OK, found: behind.before, cursor: behind };
        tally.answer("next_message", expected, library::next_message(block, cursor), || format!("from {cursor:?} in {}", hex(block)));
        cursor = behind;
        if position % stride == 0 {
            let expected = BlockAnswer { outcome: OK, found: behind.before, bad: 0 };
            let position = position as u32;
            tally.answer("read_block", expected, library::read_block(block, position), || at(block, position));
        }
    }
    self::cursor(tally, block, cursor);
}

/// The data of each message of an accepted block.
pub fn messages_of(tally: &mut Tally, block: &[u8]) {
    for cursor in model::parse(block).unwrap_or_default() {
        let Found { vector, data, length } = cursor.before;
        message(tally, block[vector], &block[data..data + length]);
    }
}

/// Any cursor over any block: the model's answer, and what the header promises by itself.
pub fn cursor(tally: &mut Tally, block: &[u8], cursor: Cursor) {
    let expected = model::next_message(block, cursor);
    let came = library::next_message(block, cursor);
    let input = || format!("from {cursor:?} in {}", hex(block));
    tally.answer("next_message", expected, came, input);
    tally.compare(true, keeps_promise(block, cursor, came), || format!("the promise for any cursor, {}: {came:?}", input()));
}

fn keeps_promise(block: &[u8], given: Cursor, answer: NextAnswer) -> bool {
    let Found { vector, data, length } = answer.found;
    match answer.outcome {
        OK => {
            let inside = vector < block.len() && data <= block.len() && length <= block.len() - data;
            inside && given.next < answer.cursor.next && answer.cursor.next <= block.len()
        }
        FEWER => given.next == block.len() && answer.cursor == given,
        outcome => outcome == ASTRAY && answer.cursor == given,
    }
}

pub fn message(tally: &mut Tally, vector: u8, data: &[u8]) {
    let expected = model::read_message(vector, data);
    let came = library::read_message(vector, data);
    tally.answer("read_message", expected, came, || format!("vector {vector}, data {}", hex(data)));
}

/// Writes into a room, whose octets are compared one by one. Gives how many octets are written.
pub fn write(tally: &mut Tally, message: &Message, contents: &[u8], room: &mut [u8]) -> usize {
    let before = room.to_vec();
    let mut after = before.clone();
    let expected = model::write_message(message, contents, &mut after);
    let came = library::write_message(message, contents, room);
    let input = || format!("{message:?}, contents {}, room {}", hex(contents), hex(&before));
    tally.answer("write_message", expected, came, input);
    tally.compare(Octets(&after), Octets(room), || format!("the room after write_message, {}", input()));
    expected.length
}
