//! The static library's functions, as `bindings/c/desk.h` declares them.
use crate::{Figures, Refusal};

#[repr(C)]
#[derive(Default)]
pub struct Answer {
    place: u64,
    records: u64,
    scopes: u64,
    symbols: u64,
    contexts: u64,
    bytes: u64,
}

impl Answer {
    /// The figures, or the refusal of that number.
    pub fn told(&self, number: u8) -> Result<Figures, Refusal> {
        if number != 0 {
            return Err(Refusal {
                number,
                place: self.place,
            });
        }
        Ok(Figures {
            records: self.records,
            scopes: self.scopes,
            symbols: self.symbols,
            contexts: self.contexts,
            bytes: self.bytes,
        })
    }
}

#[repr(C)]
#[derive(Default)]
pub struct Walk {
    pub visited: u16,
    pub gap: u16,
    pub end: u16,
    pub inner: u16,
    pub mode: u16,
    pub module: u16,
    pub scopes: u16,
    pub symbols: u16,
    pub read: u16,
    pub helper: u16,
    pub contexts: u16,
}

extern "C" {
    pub fn desk_check(file: *const u8, file_length: usize, answer: &mut Answer) -> u8;

    pub fn desk_figures(file: *const u8, file_length: usize, answer: &mut Answer) -> u8;

    pub fn desk_start(
        file: *const u8,
        file_length: usize,
        records: *mut u16,
        records_length: usize,
        scopes: *mut u16,
        scopes_length: usize,
        symbols: *mut u16,
        symbols_length: usize,
        walk: &mut Walk,
        answer: &mut Answer,
    ) -> u8;

    pub fn desk_visit(
        records: *mut u16,
        records_length: usize,
        scopes: *mut u16,
        scopes_length: usize,
        symbols: *mut u16,
        symbols_length: usize,
        walk: &mut Walk,
    ) -> u8;

    pub fn desk_lower(
        file: *const u8,
        file_length: usize,
        records: *mut u16,
        records_length: usize,
        scopes: *mut u16,
        scopes_length: usize,
        symbols: *mut u16,
        symbols_length: usize,
        output: *mut u8,
        output_length: usize,
        answer: &mut Answer,
    ) -> u8;
}
