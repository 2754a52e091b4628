//! Lowering `using` and `await using` in tree files: safe wrappers around the proved static library.
//!
//! The library's functions ask nothing of their arguments, so the wrappers only hand slices over as pointer and length. `bindings/c/desk.h`
//! has each call's promise. There is no heap: the caller lends the tables and the output.
#![no_std]

mod raw;

/// How many numbers of 16 bits a row takes in a lent table. Of a scope row two stand together, and in a column behind all rows the number that
/// lowering gives it in the written file; of a symbol row five, and its count in a column behind all rows.
pub const RECORD_ROW: usize = 7;
pub const SCOPE_ROW: usize = 3;
pub const SYMBOL_ROW: usize = 6;

/// Where the counts begin in a lent symbol table of this length: behind the five numbers of every row that it lends.
pub const fn counts_at(length: usize) -> usize {
    length / SYMBOL_ROW * (SYMBOL_ROW - 1)
}

/// Why a call was refused: document 01's number, and its place.
#[derive(Clone, Copy, Debug, PartialEq, Eq)]
pub struct Refusal {
    pub number: u8,
    pub place: u64,
}

/// What the lowered file comes to.
#[derive(Clone, Copy, Debug, PartialEq, Eq)]
pub struct Figures {
    pub records: u64,
    pub scopes: u64,
    pub symbols: u64,
    pub contexts: u64,
    pub bytes: u64,
}

/// The lent tables. A length that is no multiple of its row lends the whole rows in it.
pub struct Tables<'a> {
    pub records: &'a mut [u16],
    pub scopes: &'a mut [u16],
    pub symbols: &'a mut [u16],
}

/// Checks a tree file: refusals 1 to 7.
pub fn check(file: &[u8]) -> Result<(), Refusal> {
    let mut answer = raw::Answer::default();
    // SAFETY: file is a slice, and answer is a place for six numbers.
    let number = unsafe { raw::desk_check(file.as_ptr(), file.len(), &mut answer) };
    answer.told(number).map(|_| ())
}

/// The figures of the lowered file, from the source alone: refusals 1 to 8.
pub fn figures(file: &[u8]) -> Result<Figures, Refusal> {
    let mut answer = raw::Answer::default();
    // SAFETY: as for `check`.
    let number = unsafe { raw::desk_figures(file.as_ptr(), file.len(), &mut answer) };
    answer.told(number)
}

/// Lowers a tree file into the front of `output`: refusals 1 to 10, which change nothing. An accepted lowering leaves the tables all 0.
/// The written file numbers its scopes in the order in which its tree names them, whatever numbers the source had.
/// What it wrote, if [`check`] accepts it, comes out of a second lowering unchanged, with 0 contexts; [`check`] refuses it if it now has more
/// than 64 levels or 65,535 bytes.
pub fn lower(file: &[u8], tables: Tables, output: &mut [u8]) -> Result<Figures, Refusal> {
    let mut answer = raw::Answer::default();
    // SAFETY: all are slices, and by Rust's borrows those that are written overlap no other.
    let number = unsafe {
        raw::desk_lower(
            file.as_ptr(),
            file.len(),
            tables.records.as_mut_ptr(),
            tables.records.len(),
            tables.scopes.as_mut_ptr(),
            tables.scopes.len(),
            tables.symbols.as_mut_ptr(),
            tables.symbols.len(),
            output.as_mut_ptr(),
            output.len(),
            &mut answer,
        )
    };
    answer.told(number)
}

/// A walk over lent tables, one visit at a time.
pub struct Walk<'a> {
    tables: Tables<'a>,
    at: raw::Walk,
}

impl<'a> Walk<'a> {
    /// Reads a tree file into the tables: refusals 1 to 9, which change nothing.
    pub fn start(file: &[u8], tables: Tables<'a>) -> Result<Walk<'a>, Refusal> {
        let mut at = raw::Walk::default();
        let mut answer = raw::Answer::default();
        // SAFETY: as for `lower`; `at` is a place for eleven numbers.
        let number = unsafe {
            raw::desk_start(
                file.as_ptr(),
                file.len(),
                tables.records.as_mut_ptr(),
                tables.records.len(),
                tables.scopes.as_mut_ptr(),
                tables.scopes.len(),
                tables.symbols.as_mut_ptr(),
                tables.symbols.len(),
                &mut at,
                &mut answer,
            )
        };
        answer.told(number)?;
        Ok(Walk { tables, at })
    }

    /// The next visit, and whether none is left after it. The call that makes the last one also puts the helper's import as Program's first
    /// child, in a module in runtime mode with a context; later calls change nothing.
    pub fn visit(&mut self) -> bool {
        let t = &mut self.tables;
        // SAFETY: as for `start`.
        let over = unsafe {
            raw::desk_visit(
                t.records.as_mut_ptr(),
                t.records.len(),
                t.scopes.as_mut_ptr(),
                t.scopes.len(),
                t.symbols.as_mut_ptr(),
                t.symbols.len(),
                &mut self.at,
            )
        };
        over != 0
    }

    /// The tables as they stand: the record rows, scope rows and symbol rows, with all that is lent.
    pub fn tables(&self) -> (&[u16], &[u16], &[u16]) {
        (self.tables.records, self.tables.scopes, self.tables.symbols)
    }

    /// Where the walk stands among the record rows: visited, last free, last in use, and the innermost open one.
    pub fn rows(&self) -> [u16; 4] {
        [self.at.visited, self.at.gap, self.at.end, self.at.inner]
    }

    /// How often the records of the tree name each symbol row, true after `start` and after every visit.
    pub fn mentions(&self) -> &[u16] {
        let from = counts_at(self.tables.symbols.len());
        let counts = &self.tables.symbols[from..];
        &counts[..usize::from(self.at.symbols).min(counts.len())]
    }

    /// How many scope rows and symbol rows there are.
    pub fn counts(&self) -> (u16, u16) {
        (self.at.scopes, self.at.symbols)
    }

    /// The runtime helper's symbol row, or 0.
    pub fn helper(&self) -> u16 {
        self.at.helper
    }

    /// Contexts made so far.
    pub fn contexts(&self) -> u16 {
        self.at.contexts
    }
}
