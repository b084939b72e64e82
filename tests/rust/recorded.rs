//! Recorded cases: the `block`, `read` and `write` steps of a text file, each followed by a line of what it must give.
//!
//!     case NAME                  begins a case
//!     block POSITION OCTETS      = message vector PLACE data PLACE length N, = fewer, = refused 1 or = refused 11 at PLACE
//!     read VECTOR DATA           = refused 4, or the message by name with its fields in order
//!     write ROOM MESSAGE         = refused N or = wrote OCTETS; MESSAGE is as under `read`, and each octet of the room is AA before
//!
//! Octets are pairs of hex digits in either case, `-` where there are none; numbers are decimal; `#` begins a comment. Steps of other kinds
//! belong to calls that this interface does not have: they are counted and left out.

use crate::lender::Lender;
use crate::library::{self, *};
use crate::model::{layout, Field, LAYOUTS};
use crate::tally::{hex, Tally};
use std::net::Ipv4Addr;

/// Octets that a line may name, and that a room may have.
pub const MOST: usize = 100_000;

const UNTOUCHED: u8 = 0xAA;

/// A line that is no comment, with the lines of what it must give.
struct Step<'a> {
    number: usize,
    line: &'a str,
    expected: Vec<String>,
}

fn steps(text: &str) -> Vec<Step<'_>> {
    let mut steps: Vec<Step> = Vec::new();
    for (at, line) in text.lines().map(str::trim).enumerate() {
        match (line.strip_prefix('='), steps.last_mut()) {
            (Some(given), Some(step)) => step.expected.push(words(given)),
            _ if line.is_empty() || line.starts_with('#') => {}
            _ => steps.push(Step { number: at + 1, line, expected: Vec::new() }),
        }
    }
    steps
}

/// Lines are compared word by word, octets in either case.
fn words(line: &str) -> String {
    line.split_whitespace().collect::<Vec<_>>().join(" ").to_lowercase()
}

/// Runs the steps of a case file.
pub fn run(tally: &mut Tally, text: &str, lent: &mut Lender, room: &mut Lender) {
    let mut case = "";
    let mut left_out = 0;
    for step in steps(text) {
        let (word, rest) = step.line.split_once(' ').unwrap_or((step.line, ""));
        if word == "case" {
            case = rest;
        } else if let Some(kind) = ["block", "read", "write"].into_iter().find(|&kind| kind == word) {
            tally.input(kind);
            let came = give(kind, rest, lent, room).unwrap_or("this line cannot be read".into());
            tally.compare(step.expected, vec![words(&came)], || format!("case {case}, line {}: {}", step.number, step.line));
        } else {
            left_out += 1;
        }
    }
    println!("     {left_out} steps of other kinds left out");
}

/// What a step gives through the library; none if its line cannot be read.
fn give(step: &str, line: &str, lent: &mut Lender, room: &mut Lender) -> Option<String> {
    let (first, rest) = line.split_once(' ')?;
    match step {
        "block" => Some(block_text(library::read_block(lent.lend(&octets_of(rest)?), first.parse().ok()?))),
        "read" => {
            let data = octets_of(rest)?;
            Some(read_text(library::read_message(first.parse().ok()?, lent.lend(&data)), &data))
        }
        _ => {
            let (message, contents) = message_of(rest)?;
            let length = first.parse().ok().filter(|&length| length <= MOST)?;
            let room = room.lend(&vec![UNTOUCHED; length]);
            Some(write_text(library::write_message(&message, lent.lend(&contents), room), room))
        }
    }
}

fn block_text(answer: BlockAnswer) -> String {
    let Found { vector, data, length } = answer.found;
    match answer.outcome {
        OK => format!("message vector {vector} data {data} length {length}"),
        FEWER => "fewer".into(),
        MALFORMED => format!("refused {MALFORMED} at {}", answer.bad),
        outcome => format!("refused {outcome}"),
    }
}

fn read_text(answer: MessageAnswer, data: &[u8]) -> String {
    match answer.outcome {
        OK => message_text(&answer.message, data),
        outcome => format!("refused {outcome}"),
    }
}

fn write_text(answer: WriteAnswer, room: &[u8]) -> String {
    if room[answer.length..].iter().any(|&octet| octet != UNTOUCHED) {
        return format!("octets behind the written {} have changed: {}", answer.length, hex(room));
    }
    match answer.outcome {
        OK => format!("wrote {}", hex(&room[..answer.length])),
        outcome => format!("refused {outcome}"),
    }
}

// ---- a message as text

fn message_text(message: &Message, data: &[u8]) -> String {
    let layout = match layout(message.vector, message.destination.kind) {
        Some(layout) => layout,
        None => return format!("a message of vector {}", message.vector),
    };
    let mut text = vec![layout.name.to_string()];
    text.extend(layout.fields.iter().map(|field| field_text(field, (field.get)(message))));
    if layout.is_wrapper() {
        text.push(format!("contents {}", hex(&data[layout.size()..])));
    }
    text.join(" ")
}

fn field_text(field: &Field, number: u128) -> String {
    match (field.name, number) {
        ("cid", _) => format!("cid {number:032x}"),
        ("address", 0) => "address null".into(),
        ("address", 1) => "address ipv4".into(),
        ("address", _) => format!("address type {number}"),
        ("port", _) => number.to_string(),
        ("host", _) => Ipv4Addr::from(number as u32).to_string(),
        (name, _) => format!("{name} {number}"),
    }
}

fn octets_of(text: &str) -> Option<Vec<u8>> {
    if text == "-" {
        return Some(Vec::new());
    }
    if text.len() % 2 != 0 || text.len() > 2 * MOST || !text.is_ascii() {
        return None;
    }
    (0..text.len()).step_by(2).map(|at| u8::from_str_radix(&text[at..at + 2], 16).ok()).collect()
}

fn message_of(text: &str) -> Option<(Message, Vec<u8>)> {
    let named = LAYOUTS.iter().find(|layout| text.strip_prefix(layout.name).map_or(false, |rest| rest.starts_with(' ')))?;
    let mut words = text[named.name.len()..].split_whitespace();
    let layout = layout(named.vector, address_of(words.clone())?)?;
    let mut message = Message { vector: layout.vector, ..Default::default() };
    for field in layout.fields {
        let number = field_of(field, &mut words)?;
        (field.set)(&mut message, number);
        // A number too large for its field has not come back whole.
        (number == (field.get)(&message)).then_some(())?;
    }
    let contents = if layout.is_wrapper() { octets_of(behind("contents", &mut words)?)? } else { Vec::new() };
    words.next().is_none().then_some((message, contents))
}

/// The address type that the words name; 0 for a message without an address.
fn address_of<'a>(mut words: impl Iterator<Item = &'a str>) -> Option<u8> {
    if !words.any(|word| word == "address") {
        return Some(0);
    }
    match words.next()? {
        "null" => Some(0),
        "ipv4" => Some(1),
        "type" => words.next()?.parse().ok(),
        _ => None,
    }
}

fn behind<'a>(name: &str, words: &mut impl Iterator<Item = &'a str>) -> Option<&'a str> {
    (words.next()? == name).then_some(())?;
    words.next()
}

fn field_of<'a>(field: &Field, words: &mut (impl Iterator<Item = &'a str> + Clone)) -> Option<u128> {
    match field.name {
        "cid" => {
            let octets = octets_of(behind("cid", words)?)?;
            Some(u128::from_be_bytes(octets.try_into().ok()?))
        }
        "address" => {
            let address = address_of(words.clone())?;
            words.nth(if address > 1 { 2 } else { 1 })?;
            Some(address as u128)
        }
        "port" => words.next()?.parse().ok(),
        "host" => Some(u32::from(words.next()?.parse::<Ipv4Addr>().ok()?) as u128),
        name => behind(name, words)?.parse().ok(),
    }
}
