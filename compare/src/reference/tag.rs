//! The tags of the tree file and what a tag alone decides.

pub const PROGRAM: u8 = 1;
pub const BLOCK: u8 = 2;
pub const PLAIN: u8 = 3;
pub const LABEL: u8 = 4;
pub const DECLARATION: u8 = 5;
pub const DECLARATOR: u8 = 6;
pub const FOR: u8 = 7;
pub const FOR_OF: u8 = 8;
pub const SWITCH: u8 = 9;
pub const CASE: u8 = 10;
pub const TRY: u8 = 11;
pub const CATCH: u8 = 12;
pub const FUNCTION: u8 = 13;
pub const BODY: u8 = 14;
pub const CLASS: u8 = 15;
pub const STATIC_BLOCK: u8 = 16;
pub const MODULE_LINE: u8 = 17;
pub const DEFAULT_EXPORT: u8 = 18;
pub const EXPORTED_DECLARATION: u8 = 19;
pub const SPECIFIER: u8 = 20;
pub const EXPRESSION: u8 = 24;
pub const READ: u8 = 25;
pub const NAME: u8 = 26;
pub const CALL: u8 = 27;
pub const LOAD: u8 = 28;
pub const STEP: u8 = 29;
pub const SETTINGS: u8 = 40;
pub const SCOPE: u8 = 41;
pub const SYMBOL: u8 = 42;

/// How many numbers a field of each tag holds; 0 where there is no such tag.
const COUNTS: [u8; 43] = {
    let mut counts = [0; 43];
    let known = [
        (SETTINGS, 2),
        (SCOPE, 2),
        (SYMBOL, 5),
        (PROGRAM, 2),
        (BLOCK, 2),
        (PLAIN, 3),
        (LABEL, 2),
        (DECLARATION, 2),
        (DECLARATOR, 3),
        (FOR, 2),
        (FOR_OF, 3),
        (SWITCH, 2),
        (CASE, 2),
        (TRY, 2),
        (CATCH, 4),
        (FUNCTION, 4),
        (BODY, 1),
        (CLASS, 4),
        (STATIC_BLOCK, 2),
        (MODULE_LINE, 3),
        (DEFAULT_EXPORT, 1),
        (EXPORTED_DECLARATION, 1),
        (SPECIFIER, 2),
        (EXPRESSION, 2),
        (READ, 1),
        (NAME, 1),
        (CALL, 3),
        (LOAD, 2),
        (STEP, 3),
    ];
    let mut at = 0;
    while at < known.len() {
        counts[known[at].0 as usize] = known[at].1;
        at += 1;
    }
    counts
};

/// How many numbers a field with this tag holds.
pub const fn count(tag: u8) -> usize {
    COUNTS[tag as usize] as usize
}

/// How many bytes a field with this tag takes in a file.
pub const fn size(tag: u8) -> usize {
    3 + 2 * count(tag)
}

/// Which of its numbers is the scope that a record names, if its tag has one.
pub const fn scope_at(tag: u8) -> Option<usize> {
    match tag {
        PROGRAM | BLOCK | PLAIN | FOR | FOR_OF | SWITCH | CATCH | STATIC_BLOCK => Some(0),
        FUNCTION | CLASS => Some(1),
        _ => None,
    }
}

/// Which of its numbers are symbol rows that a record names.
pub const fn symbols_at(tag: u8) -> &'static [usize] {
    match tag {
        SPECIFIER | READ | NAME => &[0],
        CALL | LOAD => &[1],
        STEP => &[1, 2],
        FUNCTION | CLASS => &[2],
        _ => &[],
    }
}

/// A set of tags, one bit each.
pub type Tags = u64;

pub const fn tags(list: &[u8]) -> Tags {
    let mut set = 0;
    let mut at = 0;
    while at < list.len() {
        set |= 1 << list[at];
        at += 1;
    }
    set
}

pub const fn holds(set: Tags, tag: u8) -> bool {
    tag < 64 && set >> tag & 1 == 1
}

pub const STATEMENTS: Tags = tags(&[
    BLOCK, PLAIN, LABEL, FOR, FOR_OF, SWITCH, TRY, STEP, FUNCTION, CLASS,
]);
pub const LIST_ITEMS: Tags = STATEMENTS | tags(&[DECLARATION]);
pub const PROGRAM_ITEMS: Tags =
    LIST_ITEMS | tags(&[MODULE_LINE, DEFAULT_EXPORT, EXPORTED_DECLARATION]);
pub const EXPRESSIONS: Tags = tags(&[EXPRESSION, READ, CALL, LOAD, FUNCTION, CLASS]);
