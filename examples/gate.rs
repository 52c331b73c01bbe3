// The library's functions for Rust programs: the declarations, and a gate that owns its memory. Safe to use: the slices below are valid and
// do not overlap, which is all that the library asks of its caller.
#![allow(dead_code)]

pub const REGISTER: usize = 2000;
pub const BOOK: usize = 194;
pub const PLACE: usize = 4;
pub const ROW_BYTES: usize = 108;
pub const ROW_WORDS: usize = 9;
pub const ROOM_WORDS: usize = 2;
pub const CALL_BYTES: usize = 39;
pub const RATIO_BYTES: usize = 33;
pub const MOST_GROUPS: usize = 64;
pub const UNSOUND: u64 = 1;
pub const DASH: u64 = u64::MAX;

#[repr(C)]
#[derive(Clone, Copy, Debug, PartialEq, Eq)]
pub struct Answer {
    pub refusal: u64,
    pub number: u64,
}

extern "C" {
    fn ekhurtza_open(reg: *mut u32, reg_words: usize, book: *mut u64, book_words: usize, places: *const u64, places_words: usize) -> u64;
    fn ekhurtza_load(reg: *mut u32, reg_words: usize, book: *const u64, book_words: usize, places: *const u64, places_words: usize, text: *const u8, text_bytes: usize) -> u64;
    fn ekhurtza_call(reg: *mut u32, reg_words: usize, book: *mut u64, book_words: usize, places: *mut u64, places_words: usize, code: u64, a: u64, b: u64, c: u64, d: u64) -> Answer;
    fn ekhurtza_listing(reg: *const u32, reg_words: usize, book: *const u64, book_words: usize, places: *const u64, places_words: usize, buffer: *mut u8, buffer_bytes: usize) -> Answer;
    fn ekhurtza_row(reg: *const u32, reg_words: usize, book: *const u64, book_words: usize, places: *const u64, places_words: usize, group: u64, out: *mut u64, out_words: usize) -> u64;
    fn ekhurtza_room(reg: *const u32, reg_words: usize, book: *const u64, book_words: usize, places: *const u64, places_words: usize, group: u64, out: *mut u64, out_words: usize) -> u64;
    fn ekhurtza_read_row(text: *const u8, text_bytes: usize, k: u64, out: *mut u64, out_words: usize) -> u64;
    fn ekhurtza_call_line(code: u64, a: u64, b: u64, c: u64, d: u64, line: *mut u8, line_bytes: usize) -> u64;
}

// All of a gate is these words: a copy of them is a copy of the gate.
#[derive(Clone, Debug, PartialEq, Eq)]
pub struct Gate {
    pub register: Vec<u32>,
    pub book: Vec<u64>,
    pub places: Vec<u64>,
}

impl Gate {
    // Memory of any content, not opened yet.
    pub fn lent(register: usize, book: usize, places: usize, word: u64) -> Gate {
        Gate { register: vec![word as u32; register], book: vec![word; book], places: vec![word; places] }
    }

    pub fn open(&mut self) -> u64 {
        unsafe { ekhurtza_open(self.register.as_mut_ptr(), self.register.len(), self.book.as_mut_ptr(), self.book.len(), self.places.as_ptr(), self.places.len()) }
    }

    // A ratio file, before the first group is enrolled.
    pub fn load(&mut self, text: &[u8]) -> u64 {
        unsafe { ekhurtza_load(self.register.as_mut_ptr(), self.register.len(), self.book.as_ptr(), self.book.len(), self.places.as_ptr(), self.places.len(), text.as_ptr(), text.len()) }
    }

    pub fn call(&mut self, call: [u64; 5]) -> Answer {
        let [code, a, b, c, d] = call;
        unsafe { ekhurtza_call(self.register.as_mut_ptr(), self.register.len(), self.book.as_mut_ptr(), self.book.len(), self.places.as_mut_ptr(), self.places.len(), code, a, b, c, d) }
    }

    pub fn listing(&self, buffer: &mut [u8]) -> Answer {
        unsafe { ekhurtza_listing(self.register.as_ptr(), self.register.len(), self.book.as_ptr(), self.book.len(), self.places.as_ptr(), self.places.len(), buffer.as_mut_ptr(), buffer.len()) }
    }

    pub fn row(&self, group: u64, out: &mut [u64]) -> u64 {
        unsafe { ekhurtza_row(self.register.as_ptr(), self.register.len(), self.book.as_ptr(), self.book.len(), self.places.as_ptr(), self.places.len(), group, out.as_mut_ptr(), out.len()) }
    }

    // Own quota - net: 1 where it is below 0, else 0; and its size in mils.
    pub fn room(&self, group: u64, out: &mut [u64]) -> u64 {
        unsafe { ekhurtza_room(self.register.as_ptr(), self.register.len(), self.book.as_ptr(), self.book.len(), self.places.as_ptr(), self.places.len(), group, out.as_mut_ptr(), out.len()) }
    }
}

// Row k, from 0, of a listing's text.
pub fn read_row(text: &[u8], k: u64, out: &mut [u64]) -> u64 {
    unsafe { ekhurtza_read_row(text.as_ptr(), text.len(), k, out.as_mut_ptr(), out.len()) }
}

// The call line of a call, line feed included.
pub fn call_line(call: [u64; 5], line: &mut [u8]) -> u64 {
    let [code, a, b, c, d] = call;
    unsafe { ekhurtza_call_line(code, a, b, c, d, line.as_mut_ptr(), line.len()) }
}
