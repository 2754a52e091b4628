//! Puts a file together: records in file order, rows in the order of their making.

/// The tags that the generators name.
pub mod tag {
    pub const PROGRAM: u8 = 1;
    pub const BLOCK: u8 = 2;
    pub const PLAIN: u8 = 3;
    pub const LABEL: u8 = 4;
    pub const DECLARATION: u8 = 5;
    pub const DECLARATOR: u8 = 6;
    pub const FOR: u8 = 7;
    pub const FOR_OF: u8 = 8;
    pub const SWITCH: u8 = 9;
    pub const CASE: u8 = 10;
    pub const TRY: u8 = 11;
    pub const CATCH: u8 = 12;
    pub const FUNCTION: u8 = 13;
    pub const BODY: u8 = 14;
    pub const CLASS: u8 = 15;
    pub const STATIC_BLOCK: u8 = 16;
    pub const MODULE_LINE: u8 = 17;
    pub const DEFAULT_EXPORT: u8 = 18;
    pub const EXPORTED_DECLARATION: u8 = 19;
    pub const SPECIFIER: u8 = 20;
    pub const EXPRESSION: u8 = 24;
    pub const READ: u8 = 25;
    pub const NAME: u8 = 26;
    pub const CALL: u8 = 27;
    pub const LOAD: u8 = 28;
    pub const STEP: u8 = 29;
    pub const SETTINGS: u8 = 40;
    pub const SCOPE: u8 = 41;
    pub const SYMBOL: u8 = 42;
}

/// A row of the symbol table.
#[derive(Clone, Copy)]
pub struct Symbol {
    pub name: u16,
    pub flags: u16,
    pub scope: u16,
    pub made: u16,
}

struct Record {
    tag: u8,
    numbers: Vec<u16>,
}

/// A record whose children are still to come.
#[must_use]
pub struct Open(usize);

/// How much of a file there is, to go back to.
#[derive(Clone, Copy)]
pub struct Point {
    records: usize,
    scopes: usize,
    symbols: usize,
    size: usize,
}

/// Row numbers in records are those of the order of making until the file is written.
pub struct Builder {
    records: Vec<Record>,
    /// Parent and flags.
    scopes: Vec<[u16; 2]>,
    pub symbols: Vec<Symbol>,
    /// The length of the file, settings included.
    size: usize,
}

const fn size(numbers: usize) -> usize {
    3 + 2 * numbers
}

impl Builder {
    pub fn new() -> Builder {
        Builder {
            records: Vec::new(),
            scopes: Vec::new(),
            symbols: Vec::new(),
            size: size(2),
        }
    }

    pub fn size(&self) -> usize {
        self.size
    }

    pub fn scope_count(&self) -> u16 {
        self.scopes.len() as u16
    }

    pub fn symbol_count(&self) -> u16 {
        self.symbols.len() as u16
    }

    pub fn scope(&mut self, parent: u16, flags: u16) -> u16 {
        self.scopes.push([parent, flags]);
        self.size += size(2);
        self.scope_count()
    }

    pub fn symbol(&mut self, symbol: Symbol) -> u16 {
        self.symbols.push(symbol);
        self.size += size(5);
        self.symbol_count()
    }

    pub fn leaf(&mut self, tag: u8, numbers: &[u16]) {
        self.size += size(numbers.len());
        self.records.push(Record {
            tag,
            numbers: numbers.to_vec(),
        });
    }

    /// A record given without the number of its children.
    pub fn open(&mut self, tag: u8, numbers: &[u16]) -> Open {
        let at = self.records.len();
        self.leaf(tag, &[numbers, &[0]].concat());
        Open(at)
    }

    /// Says how many children followed.
    pub fn close(&mut self, open: Open, count: u16) {
        if let Some(n) = self.records[open.0].numbers.last_mut() {
            *n = count;
        }
    }

    pub fn point(&self) -> Point {
        Point {
            records: self.records.len(),
            scopes: self.scopes.len(),
            symbols: self.symbols.len(),
            size: self.size,
        }
    }

    /// Drops all that was made since then.
    pub fn back_to(&mut self, point: Point) {
        self.records.truncate(point.records);
        self.scopes.truncate(point.scopes);
        self.symbols.truncate(point.symbols);
        self.size = point.size;
    }

    /// The file with rows in the order of their making.
    pub fn write(&self, mode: u16, module: u16) -> Vec<u8> {
        let scopes: Vec<u16> = (1..=self.scope_count()).collect();
        let symbols: Vec<u16> = (1..=self.symbol_count()).collect();
        self.write_ordered(mode, module, &scopes, &symbols)
    }

    /// The file with the rows in this order: the lists give the rows as they shall follow.
    pub fn write_ordered(
        &self,
        mode: u16,
        module: u16,
        scopes: &[u16],
        symbols: &[u16],
    ) -> Vec<u8> {
        let (scope_row, symbol_row) = (inverse(scopes), inverse(symbols));
        let mut out = Vec::with_capacity(self.size);
        field(&mut out, tag::SETTINGS, &[mode, module]);
        for &made in scopes {
            let [parent, flags] = self.scopes[usize::from(made) - 1];
            field(
                &mut out,
                tag::SCOPE,
                &[scope_row[usize::from(parent)], flags],
            );
        }
        let counts = self.mentions();
        for &row in symbols {
            let Symbol {
                name,
                flags,
                scope,
                made,
            } = self.symbols[usize::from(row) - 1];
            let scope = scope_row[usize::from(scope)];
            let count = counts[usize::from(row)];
            field(&mut out, tag::SYMBOL, &[name, flags, scope, made, count]);
        }
        for record in &self.records {
            let mut numbers = record.numbers.clone();
            if let Some(at) = scope_at(record.tag) {
                numbers[at] = scope_row[usize::from(numbers[at])];
            }
            for &at in symbols_at(record.tag) {
                numbers[at] = symbol_row[usize::from(numbers[at])];
            }
            field(&mut out, record.tag, &numbers);
        }
        out
    }

    /// How often records name each symbol row, in the order of making; place 0 is for none.
    fn mentions(&self) -> Vec<u16> {
        let mut counts = vec![0; self.symbols.len() + 1];
        for record in &self.records {
            for &at in symbols_at(record.tag) {
                counts[usize::from(record.numbers[at])] += 1;
            }
        }
        counts
    }
}

/// From a row in the order of making to the row in the file; 0 stays 0.
fn inverse(order: &[u16]) -> Vec<u16> {
    let mut rows = vec![0; order.len() + 1];
    for (at, &made) in order.iter().enumerate() {
        rows[usize::from(made)] = at as u16 + 1;
    }
    rows
}

/// Which number of a record is a scope row.
fn scope_at(tag: u8) -> Option<usize> {
    match tag {
        tag::PROGRAM | tag::BLOCK | tag::PLAIN | tag::FOR | tag::FOR_OF => Some(0),
        tag::SWITCH | tag::CATCH | tag::STATIC_BLOCK => Some(0),
        tag::FUNCTION | tag::CLASS => Some(1),
        _ => None,
    }
}

/// Which numbers of a record are symbol rows.
pub fn symbols_at(tag: u8) -> &'static [usize] {
    match tag {
        tag::FUNCTION | tag::CLASS => &[2],
        tag::SPECIFIER | tag::READ | tag::NAME => &[0],
        tag::CALL | tag::LOAD => &[1],
        tag::STEP => &[1, 2],
        _ => &[],
    }
}

pub fn field(out: &mut Vec<u8>, tag: u8, numbers: &[u16]) {
    out.push(tag);
    out.extend((2 * numbers.len() as u16).to_be_bytes());
    out.extend(numbers.iter().flat_map(|number| number.to_be_bytes()));
}
