//! Damaged copies of files. Many stay valid, or nearly.

use super::builder::{field, symbols_at, tag};
use super::Rng;

/// A file in fields; what is no whole field any more stands last.
struct Fields {
    fields: Vec<Vec<u8>>,
    scopes: u16,
    symbols: u16,
}

impl Fields {
    fn split(file: &[u8]) -> Fields {
        let mut fields = Vec::new();
        let mut rest = file;
        while let [_, high, low, ..] = rest {
            let length = 3 + usize::from(u16::from_be_bytes([*high, *low]));
            if length > rest.len() {
                break;
            }
            let (first, others) = rest.split_at(length);
            fields.push(first.to_vec());
            rest = others;
        }
        if !rest.is_empty() {
            fields.push(rest.to_vec());
        }
        let count = |tag| fields.iter().filter(|field| field[0] == tag).count() as u16;
        let (scopes, symbols) = (count(tag::SCOPE), count(tag::SYMBOL));
        Fields {
            fields,
            scopes,
            symbols,
        }
    }

    fn join(&self) -> Vec<u8> {
        self.fields.concat()
    }
}

/// How many numbers a field with this tag has, 0 if there is no such tag.
fn count(tag: u8) -> usize {
    match tag {
        14 | 18 | 19 | 25 | 26 => 1,
        1 | 2 | 4 | 5 | 7 | 9 | 10 | 11 | 16 | 20 | 24 | 28 | 40 | 41 => 2,
        3 | 6 | 8 | 17 | 27 | 29 => 3,
        12 | 13 | 15 => 4,
        42 => 5,
        _ => 0,
    }
}

fn number(field: &[u8], at: usize) -> u16 {
    match field.get(3 + 2 * at..5 + 2 * at) {
        Some(bytes) => u16::from_be_bytes([bytes[0], bytes[1]]),
        None => 0,
    }
}

fn set_number(field: &mut [u8], at: usize, number: u16) {
    if let Some(bytes) = field.get_mut(3 + 2 * at..5 + 2 * at) {
        bytes.copy_from_slice(&number.to_be_bytes());
    }
}

/// The tag of a field, or 0 if nothing is left of it.
fn tag_of(field: &[u8]) -> u8 {
    field.first().copied().unwrap_or(0)
}

/// How many whole numbers a field holds.
fn numbers_in(field: &[u8]) -> usize {
    field.len().saturating_sub(3) / 2
}

/// A damaged copy.
pub fn damaged(rng: &mut Rng, file: &[u8]) -> Vec<u8> {
    let mut copy = file.to_vec();
    for _ in 0..=rng.weighted(&[75, 18, 7]) {
        copy = damage(rng, &copy);
    }
    copy
}

fn damage(rng: &mut Rng, file: &[u8]) -> Vec<u8> {
    match rng.below(200) {
        0 => Vec::new(),
        1 => lengthened(rng, file),
        2..4 => garbage(rng),
        4..18 => changed_byte(rng, file),
        18..28 => file[..rng.place(file.len())].to_vec(),
        28..36 => appended(rng, file),
        _ if file.is_empty() => appended(rng, file),
        _ => changed_fields(rng, Fields::split(file)),
    }
}

fn changed_fields(rng: &mut Rng, mut fields: Fields) -> Vec<u8> {
    match rng.below(100) {
        0..5 => spoil_counts(rng, &mut fields),
        5..7 => drop_counts(rng, &mut fields),
        _ => {
            change_fields(rng, &mut fields);
            // Else a change of what records name leaves counts that are wrong.
            if rng.chance(85) {
                count_again(&mut fields);
            }
        }
    }
    fields.join()
}

fn change_fields(rng: &mut Rng, fields: &mut Fields) {
    let at = rng.place(fields.fields.len());
    let other = rng.place(fields.fields.len());
    match rng.below(200) {
        0..60 => change_within_rule(rng, fields, at),
        60..90 => change_number(rng, fields, at),
        90..98 => {
            fields.fields.remove(at);
        }
        98..106 => {
            let copy = fields.fields[at].clone();
            fields.fields.insert(at, copy);
        }
        106..112 => fields.fields.swap(at, other),
        112..117 => {
            let next = (at + 1) % fields.fields.len();
            fields.fields.swap(at, next);
        }
        117..127 => fields.fields[at][0] = any_tag(rng),
        127..137 => replace_tag(rng, fields, at),
        137..141 => change_settings(rng, fields),
        141..151 => change_child_count(rng, fields, at),
        151..155 => change_length(rng, fields, at),
        155..158 => copy_numbers(rng, fields, at),
        158..180 => change_outside_rule(rng, fields, at),
        180..187 => change_form_or_symbol(rng, fields),
        187..190 => scope_in_switch(rng, fields),
        190..193 => add_scope_rows(rng, fields),
        _ => nest(rng, fields, at),
    }
}

/// The counts that the records of the file ask for.
fn count_again(fields: &mut Fields) {
    let mut counts = vec![0u16; 1 + usize::from(u16::MAX)];
    for field in &fields.fields {
        for &at in symbols_at(tag_of(field)) {
            let count = &mut counts[usize::from(number(field, at))];
            *count = count.saturating_add(1);
        }
    }
    let rows = fields.fields.iter_mut();
    let rows = rows.filter(|row| tag_of(row) == tag::SYMBOL);
    for (row, count) in rows.zip(&counts[1..]) {
        set_number(row, 4, *count);
    }
}

/// The places of all symbol rows.
fn symbol_rows(fields: &Fields) -> Vec<usize> {
    let is_row = |at: &usize| fields.fields[*at][0] == tag::SYMBOL;
    (0..fields.fields.len()).filter(is_row).collect()
}

/// A wrong count in one row or in some.
fn spoil_counts(rng: &mut Rng, fields: &mut Fields) {
    let rows = symbol_rows(fields);
    if rows.is_empty() {
        return;
    }
    for _ in 0..=rng.weighted(&[60, 25, 15]) {
        let row = &mut fields.fields[rng.pick(&rows)];
        let old = number(row, 4);
        let new = match rng.below(6) {
            0 | 1 => old.wrapping_add(1),
            2 | 3 => old.wrapping_sub(1),
            4 => 0,
            _ => rng.between(0, 65_535),
        };
        set_number(row, 4, new);
    }
}

/// Symbol rows of four numbers: one, or all of them.
fn drop_counts(rng: &mut Rng, fields: &mut Fields) {
    let mut rows = symbol_rows(fields);
    if !rows.is_empty() && rng.chance(60) {
        rows = vec![rng.pick(&rows)];
    }
    for at in rows {
        let row = &mut fields.fields[at];
        if row.len() == 13 {
            row.truncate(11);
            row[2] = 8;
        }
    }
}

fn changed_byte(rng: &mut Rng, file: &[u8]) -> Vec<u8> {
    let mut copy = file.to_vec();
    let at = rng.place(copy.len());
    if let Some(byte) = copy.get_mut(at) {
        *byte = match rng.below(3) {
            0 => byte.wrapping_add(1),
            1 => byte.wrapping_sub(1),
            _ => rng.below(256) as u8,
        };
    }
    copy
}

fn appended(rng: &mut Rng, file: &[u8]) -> Vec<u8> {
    let mut copy = file.to_vec();
    if rng.chance(50) && !file.is_empty() {
        let fields = Fields::split(file).fields;
        copy.extend(&fields[rng.place(fields.len())]);
    } else {
        for _ in 0..=rng.below(8) {
            copy.push(rng.below(256) as u8);
        }
    }
    copy
}

/// About as long as a file may be, or longer.
fn lengthened(rng: &mut Rng, file: &[u8]) -> Vec<u8> {
    let length = rng.pick(&[65_534, 65_535, 65_536, 65_537, 66_000, 70_000]);
    let mut copy = file.to_vec();
    while copy.len() < length {
        field(&mut copy, tag::PLAIN, &[0, 0, 0]);
    }
    copy.truncate(length.max(file.len()));
    copy
}

fn garbage(rng: &mut Rng) -> Vec<u8> {
    let length = rng.place(60);
    if rng.chance(30) {
        return (0..length).map(|_| rng.below(256) as u8).collect();
    }
    // Fields of the right length with any numbers.
    let mut out = Vec::new();
    field(
        &mut out,
        tag::SETTINGS,
        &[rng.between(0, 1), rng.between(0, 1)],
    );
    field(&mut out, tag::SCOPE, &[0, 16]);
    for _ in 0..1 + rng.place(8) {
        let tag = any_tag(rng);
        let numbers: Vec<u16> = (0..count(tag)).map(|_| rng.between(0, 3)).collect();
        field(&mut out, tag, &numbers);
    }
    out
}

fn any_tag(rng: &mut Rng) -> u8 {
    match rng.below(10) {
        0 => rng.below(256) as u8,
        1 => rng.below(44) as u8,
        _ => 1 + rng.below(29) as u8,
    }
}

/// Any number of a field to something at the edge of a rule.
fn change_number(rng: &mut Rng, fields: &mut Fields, at: usize) {
    let rows = [fields.scopes, fields.symbols];
    let field = &mut fields.fields[at];
    let place = rng.place(numbers_in(field));
    let old = number(field, place);
    let new = match rng.below(10) {
        0 => 0,
        1 => 1,
        2 => 65_535,
        3 | 4 => old.wrapping_add(1),
        5 | 6 => old.wrapping_sub(1),
        7 => rng.pick(&rows) + 1,
        8 => rng.pick(&rows),
        _ => rng.between(0, 6),
    };
    set_number(field, place, new);
}

/// What a number may be: nothing is said of the others.
enum Rule {
    UpTo(u16),
    Scope,
    Symbol,
    SymbolOr0,
    Name,
    Any,
}

fn rules(tag: u8) -> &'static [(usize, Rule)] {
    match tag {
        tag::SETTINGS => &[(0, Rule::UpTo(2)), (1, Rule::UpTo(1))],
        tag::SCOPE => &[(1, Rule::UpTo(31))],
        tag::SYMBOL => &[
            (0, Rule::Name),
            (1, Rule::UpTo(127)),
            (2, Rule::Scope),
            (3, Rule::UpTo(1)),
        ],
        tag::PLAIN => &[(1, Rule::Any)],
        tag::LABEL | tag::EXPRESSION => &[(0, Rule::Any)],
        tag::DECLARATION => &[(0, Rule::UpTo(4))],
        tag::DECLARATOR => &[(0, Rule::UpTo(1))],
        tag::FOR_OF => &[(1, Rule::UpTo(1))],
        tag::CASE => &[(0, Rule::UpTo(1))],
        tag::TRY => &[(0, Rule::UpTo(3))],
        tag::CATCH => &[(2, Rule::Any)],
        tag::FUNCTION | tag::CLASS => &[(0, Rule::UpTo(1)), (2, Rule::SymbolOr0)],
        tag::MODULE_LINE => &[(0, Rule::UpTo(4)), (1, Rule::Any)],
        tag::SPECIFIER => &[(0, Rule::Symbol), (1, Rule::Name)],
        tag::READ | tag::NAME => &[(0, Rule::Symbol)],
        tag::CALL => &[(0, Rule::UpTo(1)), (1, Rule::Symbol)],
        tag::LOAD => &[(0, Rule::UpTo(1)), (1, Rule::SymbolOr0)],
        tag::STEP => &[(0, Rule::UpTo(2)), (1, Rule::Symbol), (2, Rule::SymbolOr0)],
        _ => &[],
    }
}

/// A number to another that its own rule allows; the file is often still valid.
fn change_within_rule(rng: &mut Rng, fields: &mut Fields, at: usize) {
    let rules = rules(fields.fields[at][0]);
    if rules.is_empty() {
        return;
    }
    let (place, rule) = &rules[rng.place(rules.len())];
    let new = match rule {
        Rule::UpTo(most) => rng.between(0, *most),
        Rule::Scope => rng.between(1, fields.scopes.max(1)),
        Rule::Symbol => rng.between(1, fields.symbols.max(1)),
        Rule::SymbolOr0 => rng.between(0, fields.symbols),
        Rule::Name => rng.between(1, 12),
        Rule::Any => rng.between(0, 65_535),
    };
    set_number(&mut fields.fields[at], *place, new);
}

/// Another tag with a payload of its length.
fn replace_tag(rng: &mut Rng, fields: &mut Fields, at: usize) {
    let old = &fields.fields[at];
    let tag = any_tag(rng);
    let numbers: Vec<u16> = (0..count(tag))
        .map(|place| match place < numbers_in(old) {
            true => number(old, place),
            false => rng.between(0, 2),
        })
        .collect();
    let mut new = Vec::new();
    field(&mut new, tag, &numbers);
    fields.fields[at] = new;
}

fn change_settings(rng: &mut Rng, fields: &mut Fields) {
    if let Some(settings) = fields.fields.first_mut() {
        set_number(settings, 0, rng.between(0, 3));
        set_number(settings, 1, rng.between(0, 2));
    }
}

/// One child more or less, by the number alone.
fn change_child_count(rng: &mut Rng, fields: &mut Fields, at: usize) {
    let field = &mut fields.fields[at];
    let last = numbers_in(field).saturating_sub(1);
    let old = number(field, last);
    let new = if rng.chance(50) {
        old.wrapping_add(1)
    } else {
        old.wrapping_sub(1)
    };
    set_number(field, last, new);
}

fn change_length(rng: &mut Rng, fields: &mut Fields, at: usize) {
    let field = &mut fields.fields[at];
    if field.len() < 3 {
        return;
    }
    match rng.below(4) {
        0 => field[1] = rng.below(256) as u8,
        1 => field[2] = field[2].wrapping_add(2),
        2 => field[2] = field[2].wrapping_sub(2),
        _ => field[2] = rng.below(256) as u8,
    }
}

/// The numbers of another field with the same tag.
fn copy_numbers(rng: &mut Rng, fields: &mut Fields, at: usize) {
    let tag = fields.fields[at][0];
    let same: Vec<usize> = (0..fields.fields.len())
        .filter(|&other| fields.fields[other][0] == tag)
        .collect();
    fields.fields[at] = fields.fields[rng.pick(&same)].clone();
}

/// A number to one that its own rule does not allow, all else as it was.
fn change_outside_rule(rng: &mut Rng, fields: &mut Fields, at: usize) {
    let rules = rules(fields.fields[at][0]);
    if rules.is_empty() || rng.chance(25) {
        return change_child_count(rng, fields, at);
    }
    let (place, rule) = &rules[rng.place(rules.len())];
    let new = match rule {
        Rule::UpTo(most) => most + 1,
        Rule::Scope => rng.pick(&[0, fields.scopes + 1]),
        Rule::Symbol => rng.pick(&[0, fields.symbols + 1]),
        Rule::SymbolOr0 => fields.symbols + 1,
        Rule::Name | Rule::Any => 0,
    };
    set_number(&mut fields.fields[at], *place, new);
}

/// The place of a field with one of these tags, if there is one.
fn some_field(rng: &mut Rng, fields: &Fields, tags: &[u8]) -> Option<usize> {
    let fits = |at: &usize| tags.contains(&fields.fields[*at][0]);
    let places: Vec<usize> = (0..fields.fields.len()).filter(fits).collect();
    (!places.is_empty()).then(|| rng.pick(&places))
}

/// A function or class of the other form, or without a symbol.
fn change_form_or_symbol(rng: &mut Rng, fields: &mut Fields) {
    let Some(at) = some_field(rng, fields, &[tag::FUNCTION, tag::CLASS]) else {
        return;
    };
    let field = &mut fields.fields[at];
    if rng.chance(50) {
        let form = number(field, 0);
        set_number(field, 0, form ^ 1);
    } else {
        set_number(field, 2, 0);
    }
}

/// A function or class, with a scope row of its own, in the expression of a switch.
fn scope_in_switch(rng: &mut Rng, fields: &mut Fields) {
    let Some(at) = some_field(rng, fields, &[tag::SWITCH]) else {
        return;
    };
    let is_leaf = |field: &Vec<u8>| match field[0] {
        tag::EXPRESSION => number(field, 1) == 0,
        tag => tag == tag::READ || tag == tag::LOAD,
    };
    if !fields.fields.get(at + 1).is_some_and(is_leaf) {
        return;
    }
    let mut new = Vec::new();
    if rng.chance(50) {
        field(&mut new, tag::EXPRESSION, &[0, 1]);
    }
    if rng.chance(50) {
        field(&mut new, tag::CLASS, &[1, fields.scopes + 1, 0, 0]);
    } else {
        field(&mut new, tag::FUNCTION, &[1, fields.scopes + 1, 0, 2]);
        field(&mut new, tag::EXPRESSION, &[0, 0]);
        field(&mut new, tag::BODY, &[0]);
    }
    let mut row = Vec::new();
    field(&mut row, tag::SCOPE, &[number(&fields.fields[at], 0), 0]);
    fields.fields[at + 1] = new;
    let after_scopes = 1 + usize::from(fields.scopes);
    fields.fields.insert(after_scopes.min(at), row);
}

/// Scope rows that no record names.
fn add_scope_rows(rng: &mut Rng, fields: &mut Fields) {
    let after_scopes = (1 + usize::from(fields.scopes)).min(fields.fields.len());
    for _ in 0..1 + rng.place(3) {
        let mut row = Vec::new();
        let parent = rng.between(1, fields.scopes.max(1));
        field(&mut row, tag::SCOPE, &[parent, rng.between(0, 1)]);
        fields.fields.insert(after_scopes, row);
    }
}

/// The record that goes around this one when it is nested deeper: a label or an expression.
fn wrapper(tag: u8) -> Option<u8> {
    match tag {
        tag::EXPRESSION | tag::READ | tag::CALL | tag::LOAD => Some(tag::EXPRESSION),
        2..=4 | 7..=9 | tag::TRY | tag::STEP => Some(tag::LABEL),
        _ => None,
    }
}

/// A wrong number, tag or length.
fn spoil(rng: &mut Rng, field: &mut [u8]) {
    match rng.below(3) {
        0 => set_number(field, 1, 2),
        1 => field[0] = any_tag(rng),
        _ => field[2] ^= 2,
    }
}

/// Labels or expressions around a record, sometimes about as many as the depth allows.
fn nest(rng: &mut Rng, fields: &mut Fields, at: usize) {
    let found = (at..fields.fields.len())
        .find_map(|at| wrapper(fields.fields[at][0]).map(|around| (at, around)));
    let Some((at, around)) = found else { return };
    let times = if rng.chance(40) {
        1 + rng.place(3)
    } else {
        50 + rng.place(16)
    };
    let mut new = Vec::new();
    field(&mut new, around, &[rng.between(0, 9), 1]);
    let mut wrappers = vec![new; times];
    let near = 56 + rng.place(9);
    if near < times && rng.chance(50) {
        // Something wrong about where it becomes too deep, or the file ends there.
        if rng.chance(75) {
            spoil(rng, &mut wrappers[near]);
        } else {
            wrappers.truncate(near + 1);
            wrappers[near].truncate(rng.place(7));
            fields.fields.truncate(at);
        }
    }
    fields.fields.splice(at..at, wrappers);
}
