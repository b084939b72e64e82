//! Compares the library, through its C interface, with an independent implementation (model.rs) over a million inputs and more, and runs
//! recorded cases.
//!
//!     differential CASES [SEED]
//!
//! CASES is a file of recorded cases; without SEED the clock gives one. The seed is printed: the same seed gives the same inputs. The exit
//! status is 1 if there is a difference. It is written for Rust 1.63, which Debian 12 has.

mod compare;
mod inputs;
mod lender;
mod library;
mod model;
mod prng;
mod recorded;
mod tally;

use inputs::Block;
use lender::Lender;
use prng::Prng;
use std::process::ExitCode;
use std::time::{SystemTime, UNIX_EPOCH};
use tally::Tally;

/// What a group of inputs is made with.
struct Bench {
    prng: Prng,
    lent: Lender,
    room: Lender,
}

fn random_octets(tally: &mut Tally, bench: &mut Bench) {
    let prng = &mut bench.prng;
    for _ in 0..300_000 {
        let (octets, kind) = if prng.one_in(4) {
            let length = prng.below(40);
            (prng.octets(length), "any octets")
        } else {
            (inputs::octets_like_pdus(prng), "octets like PDUs")
        };
        tally.input(kind);
        compare::block(tally, bench.lent.lend(&octets), inputs::position(prng));
    }
}

fn whole_blocks(tally: &mut Tally, bench: &mut Bench) {
    let prng = &mut bench.prng;
    for _ in 0..120_000 {
        let count = if prng.one_in(20) { prng.below(60) } else { prng.below(7) };
        let block = Block::of(prng, count);
        tally.input(if count == 0 { "empty" } else { "whole PDUs" });
        let lent = bench.lent.lend(&block.octets);
        compare::block(tally, lent, inputs::position(prng));
        compare::messages_of(tally, lent);
    }
}

fn damaged_blocks(tally: &mut Tally, bench: &mut Bench) {
    let prng = &mut bench.prng;
    for _ in 0..300_000 {
        let count = 1 + prng.below(6);
        let mut block = Block::of(prng, count);
        tally.input(block.damage(prng));
        compare::block(tally, bench.lent.lend(&block.octets), inputs::position(prng));
    }
}

fn long_blocks(tally: &mut Tally, bench: &mut Bench) {
    let prng = &mut bench.prng;
    for _ in 0..2_000 {
        let (length, kind) = match prng.below(8) {
            0 => (model::MOST, "65,535 octets"),
            1 => (model::MOST + 1, "65,536 octets"),
            2 => (model::MOST + 2 + prng.below(4_000), "more octets"),
            _ => (4_096 + prng.below(61_000), "tens of kilobytes"),
        };
        let most = prng.pick(&[0, 3, 20, 300, 5_000, 60_000]);
        let mut block = Block::of_length(prng, length, most);
        tally.input(if prng.one_in(3) { block.damage(prng) } else { kind });
        let position = if prng.one_in(2) { prng.below(length / 2) as u32 } else { inputs::position(prng) };
        compare::block(tally, bench.lent.lend(&block.octets), position);
    }
}

fn cursors(tally: &mut Tally, bench: &mut Bench) {
    let prng = &mut bench.prng;
    for _ in 0..300_000 {
        let count = prng.below(6);
        let mut block = Block::of(prng, count);
        let own = inputs::cursor_of(prng, &block.octets);
        let (cursor, kind) = match prng.below(5) {
            0 => (own, "its own"),
            1 => (inputs::damaged_cursor(prng, own, block.octets.len()), "damaged"),
            2 => {
                block.damage(prng);
                (own, "of the block before it was damaged")
            }
            3 => {
                let other = Block::of(prng, 3);
                (inputs::cursor_of(prng, &other.octets), "of another block")
            }
            _ => (inputs::any_cursor(prng, block.octets.len()), "any numbers"),
        };
        tally.input(kind);
        compare::cursor(tally, bench.lent.lend(&block.octets), cursor);
    }
}

fn messages(tally: &mut Tally, bench: &mut Bench) {
    let prng = &mut bench.prng;
    for _ in 0..400_000 {
        let vector = if prng.one_in(16) { prng.octet() } else { inputs::vector(prng) };
        let (data, kind) = inputs::data(prng, vector);
        tally.input(kind);
        compare::message(tally, vector, bench.lent.lend(&data));
    }
}

fn writes(tally: &mut Tally, bench: &mut Bench) {
    let prng = &mut bench.prng;
    for _ in 0..200_000 {
        let message = inputs::message(prng);
        let contents = inputs::contents(prng);
        let (room, kind) = inputs::room(prng, &message, contents.len());
        tally.input(kind);
        let room = bench.room.lend(&room);
        let written = compare::write(tally, &message, bench.lent.lend(&contents), room);
        let block = bench.lent.lend(&room[..written]);
        compare::block(tally, block, 0);
        compare::messages_of(tally, block);
    }
}

type Group = fn(&mut Tally, &mut Bench);

const GROUPS: [(&str, Group); 7] = [
    ("random octets", random_octets),
    ("blocks of whole PDUs", whole_blocks),
    ("damaged blocks", damaged_blocks),
    ("long blocks", long_blocks),
    ("cursors", cursors),
    ("messages", messages),
    ("writes", writes),
];

fn seed_of(argument: Option<String>) -> u64 {
    match argument {
        Some(text) => text.parse().expect("SEED is a number"),
        None => SystemTime::now().duration_since(UNIX_EPOCH).expect("the clock is past 1970").as_nanos() as u64,
    }
}

fn main() -> ExitCode {
    let mut arguments = std::env::args().skip(1);
    let cases = arguments.next().expect("usage: differential CASES [SEED]");
    let text = std::fs::read_to_string(&cases).expect("the case file can be read");
    let seed = seed_of(arguments.next());
    println!("seed {seed}");

    let mut tally = Tally::new(seed);
    for (number, (name, group)) in GROUPS.into_iter().enumerate() {
        let prng = Prng::new(seed.wrapping_mul(31).wrapping_add(number as u64));
        let mut bench = Bench { prng, lent: Lender::new(2 * model::MOST), room: Lender::new(2 * model::MOST) };
        tally.group(name, |tally| group(tally, &mut bench));
    }
    tally.group("every outcome occurs", |tally| tally.outcomes());
    let (mut lent, mut room) = (Lender::new(recorded::MOST), Lender::new(recorded::MOST));
    tally.group("recorded cases", |tally| recorded::run(tally, &text, &mut lent, &mut room));
    if tally.end() {
        ExitCode::SUCCESS
    } else {
        ExitCode::FAILURE
    }
}
