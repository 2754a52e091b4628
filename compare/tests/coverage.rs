//! What the generators reach, and what must hold of every lowering.

use std::collections::BTreeMap;

use compare::generate::{damaged, sized, valid, Rng, Shape};
use compare::reference::{check, figures, lower, Lent, Refusal, Walk};

const FILES: u64 = 20_000;
const PLENTY: Lent = Lent {
    records: 65_535,
    scopes: 65_535,
    symbols: 65_535,
    out: usize::MAX,
};

/// A field and the records under it.
struct Tree {
    tag: u8,
    numbers: Vec<u16>,
    children: Vec<Tree>,
}

struct File {
    mode: u16,
    module: u16,
    symbols: Vec<Vec<u16>>,
    program: Tree,
}

/// Reads a valid file.
fn read(file: &[u8]) -> File {
    let mut at = 0;
    let mut head = |tag| {
        let mut rows = Vec::new();
        while file[at] == tag {
            let (_, numbers) = field(file, &mut at);
            rows.push(numbers);
        }
        rows
    };
    let settings = head(40);
    head(41);
    let symbols = head(42);
    let program = tree(file, &mut at);
    File {
        mode: settings[0][0],
        module: settings[0][1],
        symbols,
        program,
    }
}

fn field(file: &[u8], at: &mut usize) -> (u8, Vec<u16>) {
    let length = usize::from(file[*at + 2]);
    let tag = file[*at];
    let payload = &file[*at + 3..*at + 3 + length];
    *at += 3 + length;
    (
        tag,
        payload
            .chunks(2)
            .map(|pair| u16::from_be_bytes([pair[0], pair[1]]))
            .collect(),
    )
}

fn tree(file: &[u8], at: &mut usize) -> Tree {
    let (tag, numbers) = field(file, at);
    let count = match tag {
        20 | 25 | 26 | 28 | 29 => 0,
        _ => *numbers.last().expect("a number of children"),
    };
    let children = (0..count).map(|_| tree(file, at)).collect();
    Tree {
        tag,
        numbers,
        children,
    }
}

/// How often a tree names a symbol row.
fn mentions(tree: &Tree, row: u16) -> u16 {
    let named = match tree.tag {
        20 | 25 | 26 => &tree.numbers[..1],
        27 | 28 => &tree.numbers[1..2],
        13 | 15 => &tree.numbers[2..3],
        29 => &tree.numbers[1..3],
        _ => &[],
    };
    let own = named.iter().filter(|&&other| other == row).count() as u16;
    let below = tree.children.iter().map(|child| mentions(child, row));
    own + below.sum::<u16>()
}

/// How many symbol rows of a file have a wrong count, all else being right.
fn wrong_counts(file: &[u8]) -> usize {
    let file = read(file);
    let rows = (1..).zip(&file.symbols);
    rows.filter(|(row, numbers)| numbers[4] != mentions(&file.program, *row))
        .count()
}

type Counts = BTreeMap<String, u64>;

fn count(counts: &mut Counts, what: impl Into<String>) {
    *counts.entry(what.into()).or_default() += 1;
}

fn is_using(tree: &Tree) -> bool {
    tree.tag == 5 && tree.numbers[0] >= 3
}

fn has_using(list: &Tree) -> bool {
    list.children.iter().any(is_using)
}

fn has_for_using(tree: &Tree) -> bool {
    tree.tag == 7 && is_using(&tree.children[0])
}

fn note_list(counts: &mut Counts, list: &Tree, what: &str) {
    if has_using(list) {
        count(counts, format!("context: {what}"));
    }
}

fn note_lists(counts: &mut Counts, file: &File, tree: &Tree, parent: &Tree) {
    match tree.tag {
        2 if parent.tag == 12 => note_list(counts, tree, "handler"),
        2 if parent.tag == 11 && std::ptr::eq(tree, &parent.children[0]) => {
            note_list(counts, tree, "try block");
        }
        2 if parent.tag == 11 => note_list(counts, tree, "finalizer"),
        2 if parent.tag == 4 => note_list(counts, tree, "labelled block"),
        2 => note_list(counts, tree, "block"),
        14 => note_list(counts, tree, "body"),
        16 => note_list(counts, tree, "static block"),
        7 if has_for_using(tree) => {
            let place = if parent.tag == 4 {
                "for under a label"
            } else {
                "for"
            };
            count(counts, format!("context: {place}"));
        }
        8 if is_using(&tree.children[0]) => note_for_of(counts, file, tree),
        9 => note_switch(counts, tree),
        4 if parent.tag == 4 && has_for_using(&tree.children[0]) => {
            count(counts, "context: for under several labels");
        }
        _ => {}
    }
}

fn note_for_of(counts: &mut Counts, file: &File, tree: &Tree) {
    let declarator = &tree.children[0].children[0];
    let body = &tree.children[2];
    if declarator.numbers[0] != 0 {
        return count(counts, "for of: pattern");
    }
    let symbol = &file.symbols[usize::from(declarator.children[0].numbers[0]) - 1];
    if body.tag != 2 {
        return count(counts, "context: for of, body no block");
    }
    let binds = |row: &Vec<u16>| row[0] == symbol[0] && row[2] == body.numbers[0] && row[3] == 0;
    let bound = file.symbols.iter().any(binds);
    match (symbol[3], bound) {
        (1, true) => count(counts, "context: for of, made symbol, name bound"),
        (_, true) => count(counts, "context: for of, block made"),
        (_, false) if has_using(body) => count(counts, "context: for of, body with a using"),
        _ => count(counts, "context: for of, into the body"),
    }
}

fn note_switch(counts: &mut Counts, tree: &Tree) {
    let items = tree.children[1..].iter().flat_map(|case| &case.children);
    let kinds: Vec<u16> = items
        .filter(|item| is_using(item))
        .map(|item| item.numbers[0])
        .collect();
    match kinds[..] {
        [] => {}
        [3] => count(counts, "context: switch, using"),
        [4] => count(counts, "context: switch, await using"),
        [3, 4, ..] => count(counts, "context: switch, using before await using"),
        [4, 3, ..] => count(counts, "context: switch, using after await using"),
        _ => count(counts, "context: switch, others"),
    }
}

fn note_program(counts: &mut Counts, program: &Tree) {
    let lowered = if has_using(program) {
        "context: program with"
    } else {
        "program with"
    };
    for item in &program.children {
        let child = item.children.first().map_or(0, |child| child.tag);
        let form = item
            .children
            .first()
            .and_then(|child| child.numbers.first());
        let form = form.copied().unwrap_or(0);
        match (item.tag, child) {
            (17, _) => count(
                counts,
                format!("{lowered} line of form {}", item.numbers[0]),
            ),
            (18, 15) => {
                let named = if item.children[0].numbers[2] == 0 {
                    "unnamed"
                } else {
                    "named"
                };
                count(
                    counts,
                    format!("{lowered} default {named} class of form {form}"),
                );
            }
            (18, 13) => count(counts, format!("{lowered} default function of form {form}")),
            (18, _) => count(counts, format!("{lowered} default expression")),
            (19, 5) if form >= 3 => count(counts, format!("{lowered} exported using")),
            (19, _) => count(counts, format!("{lowered} exported {child}")),
            _ => count(counts, format!("{lowered} item {}", item.tag)),
        }
    }
    let defaults = program
        .children
        .iter()
        .filter(|item| item.tag == 18)
        .count();
    if defaults > 1 {
        count(counts, format!("{lowered} several defaults"));
    }
}

fn note(counts: &mut Counts, file: &File, tree: &Tree, parent: &Tree, depth: u64) -> u64 {
    count(counts, format!("tag {} under {}", tree.tag, parent.tag));
    count(counts, format!("tag {}", tree.tag));
    if tree.tag == 6 {
        let init = tree.numbers[2] - tree.numbers[1];
        let pattern = u16::from(tree.numbers[0] != 0);
        count(
            counts,
            format!(
                "declarator: pattern {pattern} m {} init {init}",
                tree.numbers[1]
            ),
        );
    }
    if tree.tag == 5 {
        count(
            counts,
            format!("kind {} under {}", tree.numbers[0], parent.tag),
        );
    }
    note_lists(counts, file, tree, parent);
    let below = tree
        .children
        .iter()
        .map(|child| note(counts, file, child, tree, depth + 1));
    below.max().unwrap_or(depth)
}

fn note_file(counts: &mut Counts, bytes: &[u8]) {
    let file = read(bytes);
    count(counts, format!("mode {} module {}", file.mode, file.module));
    note_program(counts, &file.program);
    let outside = Tree {
        tag: 0,
        numbers: Vec::new(),
        children: Vec::new(),
    };
    let depth = note(counts, &file, &file.program, &outside, 1);
    count(counts, format!("depth {}", depth / 8 * 8));
}

/// What must be there among the counts of all valid files.
fn wanted() -> Vec<String> {
    let tags = (1..=20).chain(24..=29).map(|tag| format!("tag {tag}"));
    let modes = (0..3).flat_map(|mode| (0..2).map(move |m| format!("mode {mode} module {m}")));
    let kinds = [1, 2, 7, 8, 10, 14, 16, 19]
        .into_iter()
        .flat_map(|place| (0..5).map(move |kind| format!("kind {kind} under {place}")));
    let contexts = [
        "block",
        "labelled block",
        "body",
        "static block",
        "try block",
        "handler",
        "finalizer",
        "for",
        "for under a label",
        "for under several labels",
        "for of, into the body",
        "for of, body with a using",
        "for of, block made",
        "for of, body no block",
        "for of, made symbol, name bound",
        "switch, using",
        "switch, await using",
        "switch, using before await using",
        "switch, using after await using",
        "program with exported using",
        "program with several defaults",
        "program with default named class of form 0",
        "program with default unnamed class of form 0",
        "program with default named class of form 1",
        "program with default function of form 0",
        "program with default function of form 1",
        "program with default expression",
        "program with exported 5",
        "program with exported 13",
        "program with exported 15",
        "program with item 13",
        "program with item 15",
        "program with line of form 0",
        "program with line of form 1",
        "program with line of form 2",
        "program with line of form 3",
        "program with line of form 4",
    ];
    let contexts = contexts.into_iter().map(|what| format!("context: {what}"));
    let others = ["for of: pattern", "depth 64", "depth 56"].map(String::from);
    tags.chain(modes)
        .chain(kinds)
        .chain(contexts)
        .chain(others)
        .collect()
}

/// The parents under which each tag may stand.
fn places() -> Vec<String> {
    let statements: [u8; 10] = [2, 3, 4, 7, 8, 9, 11, 13, 15, 29];
    let expressions: [u8; 6] = [13, 15, 24, 25, 27, 28];
    let mut pairs = Vec::new();
    for parent in [1, 2, 10, 14, 16, 3, 4, 7, 8] {
        pairs.extend(statements.map(|tag| (tag, parent)));
    }
    for parent in [3, 6, 7, 8, 10, 13, 15, 18, 24, 27] {
        pairs.extend(expressions.map(|tag| (tag, parent)));
    }
    pairs.extend([24, 25, 27, 28].map(|tag| (tag, 9)));
    pairs.extend([1, 2, 7, 8, 10, 14, 16, 19].map(|parent| (5, parent)));
    pairs.extend([
        (6, 5),
        (26, 6),
        (10, 9),
        (2, 11),
        (12, 11),
        (26, 12),
        (2, 12),
        (14, 13),
    ]);
    pairs.extend([
        (16, 15),
        (17, 1),
        (18, 1),
        (19, 1),
        (20, 17),
        (13, 19),
        (15, 19),
    ]);
    pairs
        .into_iter()
        .map(|(tag, parent)| format!("tag {tag} under {parent}"))
        .collect()
}

#[test]
fn valid_files_reach_all() {
    let mut rng = Rng::new(1);
    let mut counts = Counts::new();
    let (mut bytes, mut longest) = (0, 0);
    for at in 0..FILES {
        let file = valid(&mut rng);
        assert_eq!(check(&file), Ok(()), "valid file {at}");
        note_file(&mut counts, &file);
        bytes += file.len();
        longest = longest.max(file.len());
    }
    for (what, times) in &counts {
        println!("{times:8} {what}");
    }
    println!("mean length {}, longest {longest}", bytes as u64 / FILES);
    let missing = |what: &String| !counts.contains_key(what);
    let missing: Vec<String> = wanted()
        .into_iter()
        .chain(places())
        .filter(missing)
        .collect();
    assert!(missing.is_empty(), "never made: {missing:?}");
}

#[test]
fn lowering_holds_together() {
    let mut rng = Rng::new(2);
    let mut lowered = 0;
    for at in 0..FILES {
        let file = valid(&mut rng);
        let Ok((out, made)) = lower(&file, PLENTY) else {
            assert_eq!(
                figures(&file),
                Err(Refusal {
                    number: 8,
                    place: 0
                }),
                "file {at}"
            );
            continue;
        };
        lowered += u64::from(made.contexts > 0);
        assert_eq!(wrong_counts(&out), 0, "counts of file {at}");
        assert_eq!(figures(&file), Ok(made), "figures of file {at}");
        walk_to_the_end(&file);
        // Lowered once more nothing changes, unless the file is now too deep or too long.
        match lower(&out, PLENTY) {
            Ok((again, _)) => assert!(again == out, "lowering file {at} again"),
            Err(refusal) => assert!(matches!(refusal.number, 1 | 6), "{refusal:?} for file {at}"),
        }
    }
    println!("{lowered} of {FILES} files have contexts");
}

/// Records never become fewer, and all lie behind the walk at its end.
fn walk_to_the_end(file: &[u8]) {
    let mut walk = Walk::start(file, PLENTY).expect("a valid file");
    let mut records = walk.records().len();
    while !walk.is_over() {
        let before = walk.visited();
        walk.visit();
        let now = walk.records().len();
        assert!(now >= records && walk.visited() >= before && walk.visited() <= now);
        records = now;
    }
    assert_eq!(walk.visited(), records);
}

#[test]
fn damaged_files_meet_all_refusals() {
    let mut rng = Rng::new(3);
    let mut counts = BTreeMap::<u8, u64>::new();
    for _ in 0..FILES {
        let file = valid(&mut rng);
        let file = damaged(&mut rng, &file);
        let number = figures(&file).err().map_or(0, |refusal| refusal.number);
        *counts.entry(number).or_default() += 1;
        let small = Lent {
            records: 30,
            scopes: 9,
            symbols: 6,
            out: 400,
        };
        let _ = lower(&file, small);
    }
    println!("refusals of damaged files, 0 for none: {counts:?}");
    assert!((0..=8).all(|number| counts.contains_key(&number)));
}

/// Whether a refusal is one for a count: a symbol row whose other numbers are within their rules.
fn is_for_a_count(file: &[u8], refusal: Refusal) -> bool {
    if refusal.number != 5 || file[refusal.place] != 42 {
        return false;
    }
    let (mut at, mut scopes) = (7, 0);
    while file[at] == 41 {
        field(file, &mut at);
        scopes += 1;
    }
    let (_, numbers) = field(file, &mut { refusal.place });
    let in_scope = (1..=scopes).contains(&numbers[2]);
    numbers[0] > 0 && numbers[1] <= 127 && in_scope && numbers[3] <= 1
}

#[test]
fn damaged_files_have_wrong_counts() {
    let mut rng = Rng::new(5);
    let (mut one, mut several, mut four) = (0, 0, 0);
    for _ in 0..FILES {
        let file = valid(&mut rng);
        let file = damaged(&mut rng, &file);
        let Err(refusal) = check(&file) else {
            continue;
        };
        if is_for_a_count(&file, refusal) {
            match wrong_counts(&file) {
                0 => panic!("no count is wrong"),
                1 => one += 1,
                _ => several += 1,
            }
        }
        let head = &file[refusal.place.min(file.len())..];
        four += u64::from(refusal.number == 4 && head.starts_with(&[42, 0, 8]));
    }
    println!("one wrong count: {one}, several: {several}, four numbers: {four}");
    assert!(one > 0 && several > 0 && four > 0);
}

#[test]
fn sized_files_fit() {
    for shape in Shape::ALL {
        for bytes in [0, 21, 100, 1_000, 8_000, 30_000, 60_000, 65_535, 100_000] {
            for mode in 0..2 {
                let file = sized(shape, mode, bytes);
                let limit = bytes.clamp(21, 65_535);
                assert!(file.len() <= limit, "{} {bytes}", shape.name());
                assert!(
                    file.len() * 100 >= limit * 95 || limit < 200,
                    "{}",
                    shape.name()
                );
                assert_eq!(check(&file), Ok(()), "{} {bytes}", shape.name());
                let (_, made) = lower(&file, PLENTY).expect("a valid file");
                assert_eq!(figures(&file), Ok(made));
            }
        }
    }
}
