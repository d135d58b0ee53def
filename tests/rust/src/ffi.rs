//! The C functions of drevokas.h, and the unpacking of their answers.

use crate::desk::{self, Call, Unbacked};
use crate::model::{Answer, Table};

extern "C" {
    fn drevokas_check(record: *const u8, record_len: usize) -> u64;

    fn drevokas_translate(
        record: *const u8,
        record_len: usize,
        storage: *const u8,
        storage_len: usize,
        keys: *const u8,
        keys_len: usize,
        designation: u32,
        address: u32,
        access: u32,
        location: *mut u64,
    ) -> u64;

    fn drevokas_run(
        record: *mut u8,
        record_len: usize,
        storage: *mut u8,
        storage_len: usize,
        keys: *mut u8,
        keys_len: usize,
        designation: u32,
        clock: u64,
        time: u32,
        budget: u32,
        location: *mut u64,
    ) -> u64;

    fn drevokas_add_page(
        record: *const u8,
        record_len: usize,
        storage: *mut u8,
        storage_len: usize,
        keys: *const u8,
        keys_len: usize,
        designation: u32,
        page: u32,
        frame: u32,
        valid: *mut u32,
    ) -> u64;

    fn drevokas_remove_page(
        record: *const u8,
        record_len: usize,
        storage: *mut u8,
        storage_len: usize,
        keys: *const u8,
        keys_len: usize,
        designation: u32,
        page: u32,
        valid: *mut u32,
    ) -> u64;

    fn drevokas_protect_page(
        record: *const u8,
        record_len: usize,
        storage: *mut u8,
        storage_len: usize,
        keys: *const u8,
        keys_len: usize,
        designation: u32,
        page: u32,
        valid: *mut u32,
    ) -> u64;

    fn drevokas_list_pages(
        record: *const u8,
        record_len: usize,
        storage: *const u8,
        storage_len: usize,
        keys: *const u8,
        keys_len: usize,
        designation: u32,
        frames: *mut u32,
        count: usize,
    ) -> u64;

    fn drevokas_first_unbacked(
        record: *const u8,
        record_len: usize,
        storage: *const u8,
        storage_len: usize,
        keys: *const u8,
        keys_len: usize,
        designation: u32,
        from: u32,
        to: u32,
        location: *mut u64,
    ) -> u64;
}

/// The kinds of an answer.
pub const REFUSED: u32 = 0;
pub const INTERCEPTED: u32 = 1;
pub const HOST_FAULT: u32 = 2;
pub const BUDGET_USED: u32 = 3;
pub const PROGRAM_EXCEPTION: u32 = 4;
pub const GOOD: u32 = 5;
pub const NONE: u32 = 6;

/// What stands in *where before each call. A refusal must leave it.
pub const NOT_TOUCHED: u64 = 0x5A5A_0123_4567_A5A5;

/// An answer as the library gave it.
#[derive(Clone, Copy, PartialEq, Eq, Debug)]
pub struct Packed {
    pub word: u64,
    /// *where after the call.
    pub location: u64,
}

impl Packed {
    pub fn kind(self) -> u32 {
        (self.word >> 56) as u32
    }

    pub fn number(self) -> u32 {
        (self.word >> 48 & 0xFF) as u32
    }

    pub fn stage(self) -> u32 {
        (self.word >> 40 & 0xFF) as u32
    }

    pub fn units(self) -> u32 {
        self.word as u32
    }

    /// The address of the table entry involved.
    pub fn entry(self) -> u32 {
        (self.location >> 32) as u32
    }
}

/// The answer that the library owes for an answer of the model. From the left: kind, number, stage and zeros, 8 bits
/// each; units, 32. In *where: the table entry's address, and the host address.
pub fn pack(answer: Answer, units: u32) -> Packed {
    let (kind, number, table, address) = match answer {
        Answer::Refused(number) => (REFUSED, number, Table::NONE, 0),
        Answer::Intercepted(code) => (INTERCEPTED, code, Table::NONE, 0),
        Answer::HostFault(code, address, table) => (HOST_FAULT, code, table, address),
        Answer::BudgetUsed => (BUDGET_USED, 0, Table::NONE, 0),
        Answer::ProgramException(code, table) => (PROGRAM_EXCEPTION, code, table, 0),
        Answer::Good(address) => (GOOD, 0, Table::NONE, address),
    };
    let word = (kind as u64) << 56 | (number as u64) << 48 | (table.stage as u64) << 40 | units as u64;
    let location = (table.address() as u64) << 32 | address as u64;
    Packed { word, location: if kind == REFUSED { NOT_TOUCHED } else { location } }
}

pub fn check(record: &[u8]) -> u64 {
    unsafe { drevokas_check(record.as_ptr(), record.len()) }
}

pub fn translate(record: &[u8], storage: &[u8], keys: &[u8], designation: u32, address: u32, access: u32) -> Packed {
    let mut location = NOT_TOUCHED;
    let word = unsafe {
        drevokas_translate(
            record.as_ptr(),
            record.len(),
            storage.as_ptr(),
            storage.len(),
            keys.as_ptr(),
            keys.len(),
            designation,
            address,
            access,
            &mut location,
        )
    };
    Packed { word, location }
}

pub fn run(
    record: &mut [u8],
    storage: &mut [u8],
    keys: &mut [u8],
    designation: u32,
    clock: u64,
    time: u32,
    budget: u32,
) -> Packed {
    let mut location = NOT_TOUCHED;
    let word = unsafe {
        drevokas_run(
            record.as_mut_ptr(),
            record.len(),
            storage.as_mut_ptr(),
            storage.len(),
            keys.as_mut_ptr(),
            keys.len(),
            designation,
            clock,
            time,
            budget,
            &mut location,
        )
    };
    Packed { word, location }
}

/// The answer that the library owes for an answer of the desk's model.
pub fn pack_desk(answer: desk::Answer) -> u64 {
    let (kind, number, pages) = match answer {
        desk::Answer::Refused(number) => (REFUSED, number, 0),
        desk::Answer::EntryFailed => (INTERCEPTED, 32, 0),
        desk::Answer::Done(pages) => (GOOD, 0, pages),
    };
    (kind as u64) << 56 | (number as u64) << 48 | pages as u64
}

/// Any call at the desk. The number is of valid pages, the words are the workspace.
pub fn desk_call(
    record: &[u8],
    storage: &mut [u8],
    keys: &[u8],
    designation: u32,
    call: Call,
    number: &mut u32,
    words: &mut [u32],
) -> u64 {
    match call {
        Call::Add { page, frame } => add_page(record, storage, keys, designation, page, frame, number),
        Call::Remove { page } => remove_page(record, storage, keys, designation, page, number),
        Call::Protect { page } => protect_page(record, storage, keys, designation, page, number),
        Call::List => list_pages(record, storage, keys, designation, words),
    }
}

pub fn add_page(
    record: &[u8],
    storage: &mut [u8],
    keys: &[u8],
    designation: u32,
    page: u32,
    frame: u32,
    number: &mut u32,
) -> u64 {
    unsafe {
        drevokas_add_page(
            record.as_ptr(),
            record.len(),
            storage.as_mut_ptr(),
            storage.len(),
            keys.as_ptr(),
            keys.len(),
            designation,
            page,
            frame,
            number,
        )
    }
}

pub fn remove_page(
    record: &[u8],
    storage: &mut [u8],
    keys: &[u8],
    designation: u32,
    page: u32,
    number: &mut u32,
) -> u64 {
    unsafe {
        drevokas_remove_page(
            record.as_ptr(),
            record.len(),
            storage.as_mut_ptr(),
            storage.len(),
            keys.as_ptr(),
            keys.len(),
            designation,
            page,
            number,
        )
    }
}

pub fn protect_page(
    record: &[u8],
    storage: &mut [u8],
    keys: &[u8],
    designation: u32,
    page: u32,
    number: &mut u32,
) -> u64 {
    unsafe {
        drevokas_protect_page(
            record.as_ptr(),
            record.len(),
            storage.as_mut_ptr(),
            storage.len(),
            keys.as_ptr(),
            keys.len(),
            designation,
            page,
            number,
        )
    }
}

pub fn list_pages(record: &[u8], storage: &[u8], keys: &[u8], designation: u32, words: &mut [u32]) -> u64 {
    unsafe {
        drevokas_list_pages(
            record.as_ptr(),
            record.len(),
            storage.as_ptr(),
            storage.len(),
            keys.as_ptr(),
            keys.len(),
            designation,
            words.as_mut_ptr(),
            words.len(),
        )
    }
}

/// The answer that the library owes for an answer of the model: a page in *where, which has zeros else.
pub fn pack_unbacked(answer: Unbacked) -> Packed {
    let (kind, number, location) = match answer {
        Unbacked::Refused(number) => (REFUSED, number, NOT_TOUCHED),
        Unbacked::EntryFailed => (INTERCEPTED, 32, 0),
        Unbacked::Page(page) => (GOOD, 0, page as u64),
        Unbacked::None => (NONE, 0, 0),
    };
    Packed { word: (kind as u64) << 56 | (number as u64) << 48, location }
}

pub fn first_unbacked(
    record: &[u8],
    storage: &[u8],
    keys: &[u8],
    designation: u32,
    from: u32,
    to: u32,
    location: &mut u64,
) -> u64 {
    unsafe {
        drevokas_first_unbacked(
            record.as_ptr(),
            record.len(),
            storage.as_ptr(),
            storage.len(),
            keys.as_ptr(),
            keys.len(),
            designation,
            from,
            to,
            location,
        )
    }
}
