//! The library as include/sdt.h declares it: the structs, and the calls over slices.

pub const OK: u32 = 0;
pub const WRONG_SIZE: u32 = 1;
pub const UNREADABLE: u32 = 4;
pub const CONTENTS_OVER: u32 = 7;
pub const MALFORMED: u32 = 11;
pub const FEWER: u32 = 100;
pub const ASTRAY: u32 = 101;

/// A struct that C and Rust lay out alike, and that compares field by field.
macro_rules! plain {
    ($(#[$note:meta])* $name:ident { $($field:ident: $type:ty),* $(,)? }) => {
        $(#[$note])*
        #[repr(C)]
        #[derive(Clone, Copy, Debug, Default, PartialEq)]
        pub struct $name { $(pub $field: $type),* }
    };
}

/// An answer: such a struct, which begins with its outcome.
pub trait Answer: PartialEq + std::fmt::Debug {
    fn outcome(&self) -> u32;
}

macro_rules! answer {
    ($name:ident { $($field:ident: $type:ty),* }) => {
        plain!($name { outcome: u32, $($field: $type),* });
        impl Answer for $name {
            fn outcome(&self) -> u32 {
                self.outcome
            }
        }
    };
}

plain!(Found { vector: usize, data: usize, length: usize });
plain!(Cursor { next: usize, before: Found });
answer!(BlockAnswer { found: Found, bad: usize });
answer!(OpenAnswer { count: usize, cursor: Cursor, bad: usize });
answer!(NextAnswer { found: Found, cursor: Cursor });
plain!(Cid { high: u64, low: u64 });
plain!(Missed { first: u32, last: u32 });
plain!(Subject { cid: Cid, reliable: u32, channel: u16, mid: u16 });
plain!(Order { total: u32, oldest: u32, first: u16, last: u16, threshold: u16 });
plain!(
    /// `kind` is the field that C calls `type`.
    Destination { host: u32, port: u16, kind: u8 }
);
plain!(Parameters { expiry: u8, flags: u8, holdoff: u16, modulus: u16, maxwait: u16, adhoc: u8 });
plain!(Message {
    vector: u8,
    reason: u8,
    reciprocal: u16,
    missed: Missed,
    subject: Subject,
    order: Order,
    destination: Destination,
    parameters: Parameters,
});
answer!(MessageAnswer { message: Message });
answer!(WriteAnswer { length: usize });

extern "C" {
    fn sdt_read_block(block: *const u8, block_length: usize, position: u32) -> BlockAnswer;
    fn sdt_open_block(block: *const u8, block_length: usize) -> OpenAnswer;
    fn sdt_next_message(block: *const u8, block_length: usize, cursor: Cursor) -> NextAnswer;
    fn sdt_read_message(vector: u8, data: *const u8, data_length: usize) -> MessageAnswer;
    fn sdt_write_message(message: Message, contents: *const u8, contents_length: usize, room: *mut u8, room_length: usize) -> WriteAnswer;
}

// Each call is sound for every slice: the pointer and the length are those of the slice, and a room is borrowed by itself.

pub fn read_block(block: &[u8], position: u32) -> BlockAnswer {
    unsafe { sdt_read_block(block.as_ptr(), block.len(), position) }
}

pub fn open_block(block: &[u8]) -> OpenAnswer {
    unsafe { sdt_open_block(block.as_ptr(), block.len()) }
}

pub fn next_message(block: &[u8], cursor: Cursor) -> NextAnswer {
    unsafe { sdt_next_message(block.as_ptr(), block.len(), cursor) }
}

pub fn read_message(vector: u8, data: &[u8]) -> MessageAnswer {
    unsafe { sdt_read_message(vector, data.as_ptr(), data.len()) }
}

pub fn write_message(message: &Message, contents: &[u8], room: &mut [u8]) -> WriteAnswer {
    unsafe { sdt_write_message(*message, contents.as_ptr(), contents.len(), room.as_mut_ptr(), room.len()) }
}
