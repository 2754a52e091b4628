//! Lent memory, filled with a pattern before each call.
use compare::generate::Rng;
use compare::reference::{Figures, Lent};
use desk::{Tables, RECORD_ROW, SCOPE_ROW, SYMBOL_ROW};

/// Tables that have some numbers more than their rows take, and an output.
#[derive(Clone, PartialEq, Eq)]
pub struct Memory {
    pub records: Vec<u16>,
    pub scopes: Vec<u16>,
    pub symbols: Vec<u16>,
    pub output: Vec<u8>,
}

impl Memory {
    pub fn new(rng: &mut Rng, lent: Lent) -> Memory {
        let numbers = |rng: &mut Rng, rows: usize, row: usize| -> Vec<u16> {
            let length = rows * row + rng.below(row as u64) as usize;
            let first = rng.below(65_536);
            (0..length as u64)
                .map(|i| (first + 31 * i) as u16 | 1)
                .collect()
        };
        Memory {
            records: numbers(rng, lent.records, RECORD_ROW),
            scopes: numbers(rng, lent.scopes, SCOPE_ROW),
            symbols: numbers(rng, lent.symbols, SYMBOL_ROW),
            output: (0..lent.out).map(|i| i as u8 ^ 0xa5).collect(),
        }
    }

    pub fn tables(&mut self) -> Tables<'_> {
        Tables {
            records: &mut self.records,
            scopes: &mut self.scopes,
            symbols: &mut self.symbols,
        }
    }
}

fn less(n: u64, k: u64) -> usize {
    n.saturating_sub(k) as usize
}

/// How much is lent for a file: mostly just enough or some more, else one short somewhere, or nothing.
pub fn lend(rng: &mut Rng, figures: Option<Figures>) -> Lent {
    let Some(f) = figures else {
        return Lent {
            records: rng.below(40) as usize,
            scopes: rng.below(20) as usize,
            symbols: rng.below(20) as usize,
            out: rng.below(300) as usize,
        };
    };
    let more = rng.below(3);
    let mut lent = Lent {
        records: (f.records + more) as usize,
        scopes: (f.scopes + more) as usize,
        symbols: (f.symbols + more) as usize,
        out: (f.bytes + more) as usize,
    };
    match rng.below(24) {
        0 => lent.records = less(f.records, 1 + rng.below(3)),
        1 => lent.scopes = less(f.scopes, 1),
        2 => lent.symbols = less(f.symbols, 1),
        3 => lent.out = less(f.bytes, 1 + rng.below(9)),
        4 => {
            lent.scopes = less(f.scopes, rng.below(2));
            lent.symbols = less(f.symbols, rng.below(2));
            lent.out = less(f.bytes, rng.below(2));
        }
        5 => {
            lent = Lent {
                records: 0,
                scopes: 0,
                symbols: 0,
                out: 0,
            }
        }
        _ => {}
    }
    lent
}
