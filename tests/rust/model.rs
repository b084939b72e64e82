//! The five calls once more, written from the paper and from include/sdt.h, and from no other implementation. Clarity before speed: a block
//! is parsed whole, and the messages are rows of one table of fields, from which reading, writing and text all follow.

use crate::library::*;

// ---- blocks

pub const MOST: usize = 65_535;

/// A whole PDU: its length, and how far behind its beginning its own vector and its own data lie.
struct Pdu {
    size: usize,
    vector: Option<usize>,
    data: Option<usize>,
}

/// The PDU with which `rest` begins; none if it is malformed.
fn pdu(rest: &[u8], first: bool) -> Option<Pdu> {
    let [l, v, h, d] = [7, 6, 5, 4].map(|bit| rest[0] >> bit & 1 == 1);
    let further = rest.get(1..if l { 3 } else { 2 })?;
    let size = further.iter().fold(rest[0] as usize % 16, |high, &low| high * 256 + low as usize);
    let vector = 1 + further.len();
    let own = if v { vector + 1 } else { vector };
    let flags_missing = first && !(v && h && d);
    let left_over = !d && size > own;
    if flags_missing || size < own || size > rest.len() || left_over {
        return None;
    }
    Some(Pdu { size, vector: v.then_some(vector), data: d.then_some(own) })
}

impl Pdu {
    /// The message of the PDU that begins at `at`.
    fn message(&self, at: usize, before: Found) -> Found {
        let (data, length) = match self.data {
            Some(own) => (at + own, self.size - own),
            None => (before.data, before.length),
        };
        Found { vector: self.vector.map_or(before.vector, |own| at + own), data, length }
    }
}

/// The cursors behind each message of a block, or the outcome and the place with which it is refused.
pub fn parse(block: &[u8]) -> Result<Vec<Cursor>, (u32, usize)> {
    if block.len() > MOST {
        return Err((WRONG_SIZE, 0));
    }
    let mut cursors = Vec::new();
    let mut last = Cursor::default();
    while last.next < block.len() {
        let at = last.next;
        let pdu = pdu(&block[at..], at == 0).ok_or((MALFORMED, at))?;
        last = Cursor { next: at + pdu.size, before: pdu.message(at, last.before) };
        cursors.push(last);
    }
    Ok(cursors)
}

pub fn read_block(parsed: &Result<Vec<Cursor>, (u32, usize)>, position: u32) -> BlockAnswer {
    match parsed {
        Err((outcome, bad)) => BlockAnswer { outcome: *outcome, bad: *bad, ..Default::default() },
        Ok(cursors) => match cursors.get(position as usize) {
            Some(cursor) => BlockAnswer { outcome: OK, found: cursor.before, bad: 0 },
            None => BlockAnswer { outcome: FEWER, ..Default::default() },
        },
    }
}

pub fn open_block(parsed: &Result<Vec<Cursor>, (u32, usize)>) -> OpenAnswer {
    match parsed {
        Err((outcome, bad)) => OpenAnswer { outcome: *outcome, bad: *bad, ..Default::default() },
        Ok(cursors) => OpenAnswer { outcome: OK, count: cursors.len(), ..Default::default() },
    }
}

/// Whether a cursor may be one of a block of this length: it lies in the block, and the message before it lies before it. At the start there
/// is no message before. (The header promises less of the others; this is the rule by which they are told.)
fn may_be_of(length: usize, cursor: Cursor) -> bool {
    let Found { vector, data, length: octets } = cursor.before;
    let before = vector < cursor.next && data.checked_add(octets).map_or(false, |end| end <= cursor.next);
    length <= MOST && cursor.next <= length && (cursor.next == 0 || before)
}

pub fn next_message(block: &[u8], cursor: Cursor) -> NextAnswer {
    let without = |outcome| NextAnswer { outcome, cursor, ..Default::default() };
    if !may_be_of(block.len(), cursor) {
        return without(ASTRAY);
    }
    let at = cursor.next;
    if at == block.len() {
        return without(FEWER);
    }
    let pdu = match pdu(&block[at..], at == 0) {
        Some(pdu) => pdu,
        None => return without(ASTRAY),
    };
    let found = pdu.message(at, cursor.before);
    NextAnswer { outcome: OK, found, cursor: Cursor { next: at + pdu.size, before: found } }
}

// ---- messages

/// A field of a message: its name in recorded cases, the octets that it takes, and its place in the struct of the interface.
pub struct Field {
    pub name: &'static str,
    pub octets: usize,
    pub get: fn(&Message) -> u128,
    pub set: fn(&mut Message, u128),
}

macro_rules! field {
    ($name:literal, $($place:ident).+: $type:ty) => {
        Field {
            name: $name,
            octets: std::mem::size_of::<$type>(),
            get: |message| message.$($place).+ as u128,
            set: |message, number| message.$($place).+ = number as $type,
        }
    };
}

const CID: Field = Field {
    name: "cid",
    octets: 16,
    get: |message| (message.subject.cid.high as u128) << 64 | message.subject.cid.low as u128,
    set: |message, number| message.subject.cid = Cid { high: (number >> 64) as u64, low: number as u64 },
};
const CHANNEL: Field = field!("channel", subject.channel: u16);
const MID: Field = field!("mid", subject.mid: u16);
const RELIABLE: Field = field!("reliable", subject.reliable: u32);
const RECIPROCAL: Field = field!("reciprocal", reciprocal: u16);
const REASON: Field = field!("reason", reason: u8);
const FIRST_MISSED: Field = field!("first", missed.first: u32);
const LAST_MISSED: Field = field!("last", missed.last: u32);
const TOTAL: Field = field!("total", order.total: u32);
const OLDEST: Field = field!("oldest", order.oldest: u32);
const FIRST: Field = field!("first", order.first: u16);
const LAST: Field = field!("last", order.last: u16);
const THRESHOLD: Field = field!("threshold", order.threshold: u16);
const ADDRESS: Field = field!("address", destination.kind: u8);
const PORT: Field = field!("port", destination.port: u16);
const HOST: Field = field!("host", destination.host: u32);
const EXPIRY: Field = field!("expiry", parameters.expiry: u8);
const FLAGS: Field = field!("flags", parameters.flags: u8);
const HOLDOFF: Field = field!("holdoff", parameters.holdoff: u16);
const MODULUS: Field = field!("modulus", parameters.modulus: u16);
const MAXWAIT: Field = field!("maxwait", parameters.maxwait: u16);
const ADHOC: Field = field!("adhoc", parameters.adhoc: u8);

/// A row of the table: the vector, for a Join also the address types, the least and the greatest length of the data, and the fields.
pub struct Layout {
    pub vector: u8,
    pub name: &'static str,
    addresses: (u8, u8),
    lengths: (usize, usize),
    pub fields: &'static [Field],
}

const ANY: (u8, u8) = (0, 255);
const OTHER: (u8, u8) = (2, 255);
const NO_END: usize = usize::MAX;

const fn row(vector: u8, name: &'static str, addresses: (u8, u8), lengths: (usize, usize), fields: &'static [Field]) -> Layout {
    // The fields must add up to the length that the paper gives.
    let mut sum = 0;
    let mut i = 0;
    while i < fields.len() {
        sum += fields[i].octets;
        i += 1;
    }
    assert!(sum == lengths.0);
    Layout { vector, name, addresses, lengths, fields }
}

const WRAPPER: &[Field] = &[CHANNEL, TOTAL, RELIABLE, OLDEST, FIRST, LAST, THRESHOLD];
const WITH_REASON: &[Field] = &[CID, CHANNEL, MID, RELIABLE, REASON];
const WITHOUT_ADDRESS: &[Field] =
    &[CID, MID, CHANNEL, RECIPROCAL, TOTAL, RELIABLE, ADDRESS, EXPIRY, FLAGS, HOLDOFF, MODULUS, MAXWAIT, ADHOC];
const WITH_ADDRESS: &[Field] =
    &[CID, MID, CHANNEL, RECIPROCAL, TOTAL, RELIABLE, ADDRESS, PORT, HOST, EXPIRY, FLAGS, HOLDOFF, MODULUS, MAXWAIT, ADHOC];

pub static LAYOUTS: [Layout; 11] = [
    row(4, "join", (0, 0), (40, 40), WITHOUT_ADDRESS),
    row(4, "join", (1, 1), (46, 46), WITH_ADDRESS),
    row(4, "join", OTHER, (31, NO_END), &[CID, MID, CHANNEL, RECIPROCAL, TOTAL, RELIABLE, ADDRESS]),
    row(6, "accept", ANY, (26, 26), &[CID, CHANNEL, MID, RELIABLE, RECIPROCAL]),
    row(5, "refuse", ANY, (25, 25), WITH_REASON),
    row(8, "leaving", ANY, (25, 25), WITH_REASON),
    row(15, "nak", ANY, (32, 32), &[CID, CHANNEL, MID, RELIABLE, FIRST_MISSED, LAST_MISSED]),
    row(16, "get sessions", ANY, (16, 16), &[CID]),
    row(14, "ack", ANY, (4, 4), &[RELIABLE]),
    row(1, "reliable", ANY, (20, NO_END), WRAPPER),
    row(2, "unreliable", ANY, (20, NO_END), WRAPPER),
];

/// The row of a vector and an address type; the type counts for a Join alone.
pub fn layout(vector: u8, address: u8) -> Option<&'static Layout> {
    LAYOUTS.iter().find(|row| row.vector == vector && row.addresses.0 <= address && address <= row.addresses.1)
}

impl Layout {
    pub fn takes(&self, length: usize) -> bool {
        self.lengths.0 <= length && length <= self.lengths.1
    }

    pub fn is_wrapper(&self) -> bool {
        self.vector <= 2
    }

    /// The octets of the fields, which is also the length of the data without contents.
    pub fn size(&self) -> usize {
        self.lengths.0
    }

    fn has_written_form(&self) -> bool {
        self.addresses != OTHER
    }
}

fn number(octets: &[u8]) -> u128 {
    octets.iter().fold(0, |high, &low| high << 8 | low as u128)
}

pub fn read_message(vector: u8, data: &[u8]) -> MessageAnswer {
    let address = data.get(30).copied().unwrap_or_default();
    let layout = match layout(vector, address).filter(|layout| layout.takes(data.len())) {
        Some(layout) => layout,
        None => return MessageAnswer { outcome: UNREADABLE, ..Default::default() },
    };
    let mut message = Message { vector, ..Default::default() };
    let mut rest = data;
    for field in layout.fields {
        let (own, behind) = rest.split_at(field.octets);
        (field.set)(&mut message, number(own));
        rest = behind;
    }
    MessageAnswer { outcome: OK, message }
}

pub fn write_message(message: &Message, contents: &[u8], room: &mut [u8]) -> WriteAnswer {
    let refused = |outcome| WriteAnswer { outcome, length: 0 };
    let layout = match layout(message.vector, message.destination.kind).filter(|layout| layout.has_written_form()) {
        Some(layout) => layout,
        None => return refused(UNREADABLE),
    };
    let carried = if layout.is_wrapper() { contents } else { &[] };
    let length = 3 + layout.size() + carried.len();
    if length > room.len() {
        return refused(WRONG_SIZE);
    }
    if carried.len() > 1_454 {
        return refused(CONTENTS_OVER);
    }
    let mut pdu = vec![0x70 | (length / 256) as u8, (length % 256) as u8, message.vector];
    for field in layout.fields {
        pdu.extend(&(field.get)(message).to_be_bytes()[16 - field.octets..]);
    }
    pdu.extend(carried);
    room[..length].copy_from_slice(&pdu);
    WriteAnswer { outcome: OK, length }
}
