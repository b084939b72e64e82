//! Lent octets that end where a page begins which nobody may touch: one octet read or written too many ends the run at once.

use std::ffi::c_void;

const PAGE: usize = 4096;

// What mmap and mprotect of Linux are told.
const PROTECT_ALL: i32 = 0;
const READ_AND_WRITE: i32 = 1 | 2;
const PRIVATE_AND_ANONYMOUS: i32 = 0x02 | 0x20;

extern "C" {
    fn mmap(place: *mut c_void, length: usize, protection: i32, flags: i32, file: i32, offset: i64) -> *mut c_void;
    fn mprotect(place: *mut c_void, length: usize, protection: i32) -> i32;
}

pub struct Lender {
    end: *mut u8,
    most: usize,
}

impl Lender {
    /// Lends up to `most` octets at a time.
    pub fn new(most: usize) -> Lender {
        let most = (most + PAGE - 1) / PAGE * PAGE;
        unsafe {
            let place = mmap(std::ptr::null_mut(), most + PAGE, READ_AND_WRITE, PRIVATE_AND_ANONYMOUS, -1, 0);
            assert!(place as isize != -1, "no memory to lend");
            let end = (place as *mut u8).add(most);
            assert!(mprotect(end as *mut c_void, PAGE, PROTECT_ALL) == 0, "the page behind the lent octets cannot be closed");
            Lender { end, most }
        }
    }

    /// A copy of the octets, up to the closed page.
    pub fn lend(&mut self, octets: &[u8]) -> &mut [u8] {
        assert!(octets.len() <= self.most, "more octets than can be lent");
        // The octets before the end are ours alone, and are borrowed as long as `self` is.
        let lent = unsafe { std::slice::from_raw_parts_mut(self.end.sub(octets.len()), octets.len()) };
        lent.copy_from_slice(octets);
        lent
    }
}
