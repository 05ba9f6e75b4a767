//! Lists that a thread keeps from call to call. No text has more pieces or errors than bytes, and lists with a record for each byte are filled without a
//! counting run first.

use crate::raw;
use std::cell::RefCell;

/// Bytes of text up to which the lists are kept; larger ones are given back after the call.
const KEPT: usize = 4096;

struct Room {
    pieces: Vec<u32>,
    errors: Vec<u32>,
}

thread_local! {
    static ROOM: RefCell<Room> = const { RefCell::new(Room { pieces: Vec::new(), errors: Vec::new() }) };
}

/// Lends lists with a record for each of so many bytes. What they held before is left in them.
pub fn with<R>(bytes: usize, call: impl FnOnce(&mut [u32], &mut [u32]) -> R) -> R {
    // The library refuses longer texts, and needs no room to do so.
    let records = bytes.min(raw::LONGEST);
    ROOM.with_borrow_mut(|room| {
        grow(&mut room.pieces, raw::PIECE * records);
        grow(&mut room.errors, raw::ERROR * records);
        let result = call(&mut room.pieces, &mut room.errors);
        if KEPT < records {
            *room = Room { pieces: Vec::new(), errors: Vec::new() };
        }
        result
    })
}

fn grow(list: &mut Vec<u32>, numbers: usize) {
    if list.len() < numbers {
        *list = vec![0; numbers];
    }
}
