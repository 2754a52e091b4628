//! What the tables must hold, to the last number, when the plain walk stands where it stands.
use compare::reference::{Record, Walk};
use desk::RECORD_ROW;

const DECLARATION: u8 = 5;

/// Whether the last number of a record of this tag is the number of its children.
fn has_children(tag: u8) -> bool {
    !matches!(tag, 20 | 25 | 26 | 28 | 29)
}

/// A record row: tag, three numbers, n, and two of the walk's own.
fn row(r: &Record) -> [u16; RECORD_ROW] {
    let mut row = [0; RECORD_ROW];
    row[0] = u16::from(r.tag);
    let own = r.count - usize::from(has_children(r.tag));
    row[1..=own].copy_from_slice(&r.numbers[..own]);
    if has_children(r.tag) {
        row[4] = r.numbers[r.count - 1];
    }
    row
}

/// The record table: rows visited, free rows, rows to visit, and 0 behind the last row in use.
pub fn records(walk: &Walk, end: usize, length: usize) -> Vec<u16> {
    let rows = walk.records();
    let visited = walk.visited();
    let free = end - rows.len();
    let mut table = vec![0; length];
    for (i, r) in rows.iter().enumerate() {
        let at = RECORD_ROW * if i < visited { i } else { i + free };
        table[at..at + RECORD_ROW].copy_from_slice(&row(r));
    }
    for (i, mark) in walk.recorded() {
        let at = RECORD_ROW * if i < visited { i } else { i + free };
        debug_assert_eq!(rows[i].tag, DECLARATION);
        table[at + 2] = mark;
    }
    let mut around = 0;
    for open in walk.open() {
        let at = RECORD_ROW * open.row;
        table[at + 5] = around;
        table[at + 6] = open.left as u16;
        around = open.row as u16 + 1;
    }
    table
}

/// Parent and flags stand together; the column of new numbers behind the last row lent is 0.
pub fn scopes(walk: &Walk, length: usize) -> Vec<u16> {
    let mut table = vec![0; length];
    for (row, s) in table.chunks_mut(2).zip(walk.scopes()) {
        row.copy_from_slice(&s);
    }
    table
}

/// The fifth number of a symbol row that was read is its scope then. The counts of all rows stand behind the last row lent.
pub fn symbols(walk: &Walk, read: &[[u16; 5]], length: usize) -> Vec<u16> {
    let mut table = vec![0; length];
    let (rows, counts) = table.split_at_mut(desk::counts_at(length));
    let symbols = walk.symbols();
    for (i, (row, s)) in rows.chunks_exact_mut(5).zip(&symbols).enumerate() {
        row[..4].copy_from_slice(&s[..4]);
        row[4] = read.get(i).map_or(0, |old| old[2]);
    }
    for (count, s) in counts.iter_mut().zip(&symbols) {
        *count = s[4];
    }
    table
}
