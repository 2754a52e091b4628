//! Compares with the files of right answers that `crates/test_vectors` replays.

use std::path::Path;

use compare::reference::{check, figures, lower, Lent, Walk};

fn read(name: &str) -> String {
    let folder = Path::new(env!("CARGO_MANIFEST_DIR")).join("../crates/test_vectors/data");
    std::fs::read_to_string(folder.join(name)).expect("the file of vectors can be read")
}

fn from_hex(text: &str) -> Vec<u8> {
    let digits: Vec<u8> = text
        .chars()
        .map(|c| c.to_digit(16).expect("hexadecimal") as u8)
        .collect();
    digits
        .chunks(2)
        .map(|pair| pair[0] << 4 | pair[1])
        .collect()
}

fn to_hex(bytes: &[u8]) -> String {
    bytes.iter().map(|byte| format!("{byte:02x}")).collect()
}

/// The bytes of a file given as `tag:number,number ..`.
fn from_notation(text: &str) -> Vec<u8> {
    let mut out = Vec::new();
    for field in text.split_whitespace() {
        let (tag, numbers) = field.split_once(':').expect("tag:numbers");
        let numbers: Vec<u16> = numbers
            .split(',')
            .map(|number| number.parse().expect("a number"))
            .collect();
        out.push(tag.parse().expect("a tag"));
        out.extend((2 * numbers.len() as u16).to_be_bytes());
        out.extend(numbers.iter().flat_map(|number| number.to_be_bytes()));
    }
    out
}

fn notation(tag: u8, numbers: &[u16]) -> String {
    let numbers: Vec<String> = numbers.iter().map(u16::to_string).collect();
    format!("{tag}:{}", numbers.join(","))
}

/// The counts and all rows of a walk's tree.
fn state(walk: &Walk) -> (String, String) {
    let (scopes, symbols, records) = (walk.scopes(), walk.symbols(), walk.records());
    let counts = format!("{},{},{}", records.len(), scopes.len(), symbols.len());
    let mut fields: Vec<String> = scopes.iter().map(|row| notation(41, row)).collect();
    fields.extend(symbols.iter().map(|row| notation(42, row)));
    fields.extend(
        records
            .iter()
            .map(|r| notation(r.tag, &r.numbers[..r.count])),
    );
    (counts, fields.join(" "))
}

fn answer(file: &[u8], lent: Lent) -> String {
    match lower(file, lent) {
        Err(refusal) => format!("refused {} {}", refusal.number, refusal.place),
        Ok((out, f)) => format!(
            "ok {} {} {} {} {}",
            f.records,
            f.scopes,
            f.symbols,
            f.contexts,
            to_hex(&out)
        ),
    }
}

fn lowerings(name: &str) {
    let mut count = 0;
    for line in read(name).lines() {
        let parts: Vec<&str> = line.split('|').collect();
        let lent: Vec<usize> = parts[0]
            .split(' ')
            .map(|number| number.parse().expect("a number"))
            .collect();
        let lent = Lent {
            records: lent[0],
            scopes: lent[1],
            symbols: lent[2],
            out: lent[3],
        };
        let file = from_hex(parts[1]);
        count += 1;
        assert_eq!(answer(&file, lent), parts[2], "line {count} of {name}");
        if let Err(refusal) = lower(&file, lent) {
            assert_eq!(
                check(&file).is_ok(),
                refusal.number > 7,
                "line {count} of {name}: checking"
            );
            assert_eq!(
                figures(&file).is_ok(),
                refusal.number > 8,
                "line {count} of {name}: figures"
            );
        }
    }
    println!("{name}: {count} lowerings agree");
}

#[test]
fn lowering() {
    lowerings("lower.txt");
    lowerings("depth.txt");
    lowerings("letters.txt");
    lowerings("imports.txt");
    lowerings("counts.txt");
    lowerings("order.txt");
}

fn walks(name: &str) {
    let lent = Lent {
        records: 65_535,
        scopes: 65_535,
        symbols: 65_535,
        out: usize::MAX,
    };
    let (mut walks, mut visits) = (0, 0);
    let mut walk: Option<Walk> = None;
    let mut last = String::new();
    for (at, line) in read(name).lines().enumerate() {
        let at = at + 1;
        if let Some(source) = line.strip_prefix("file ") {
            assert!(
                walk.as_ref().is_none_or(Walk::is_over),
                "a visit too many before line {at}"
            );
            walk = Some(Walk::start(&from_notation(source), lent).expect("a valid file"));
            walks += 1;
            continue;
        }
        let walk = walk.as_mut().expect("a file comes first");
        let parts: Vec<&str> = line.splitn(3, ' ').collect();
        if parts[0] != "0" {
            assert!(!walk.is_over(), "a visit too few at line {at}");
            walk.visit();
            visits += 1;
        }
        let (counts, tree) = state(walk);
        assert_eq!(counts, parts[1], "line {at} of {name}");
        if parts[2] != "same" {
            last = parts[2].to_string();
        }
        assert_eq!(tree, last, "line {at} of {name}");
    }
    assert!(
        walk.as_ref().is_none_or(Walk::is_over),
        "a visit too many at the end"
    );
    println!("{name}: {walks} walks agree, {visits} visits");
}

#[test]
fn visits() {
    walks("visits.txt");
    walks("letter_visits.txt");
    walks("import_visits.txt");
    walks("count_visits.txt");
}

/// The answers of `check` and `figures`.
fn two_answers(file: &[u8]) -> String {
    let checked = match check(file) {
        Ok(()) => String::from("ok"),
        Err(refusal) => format!("refused {} {}", refusal.number, refusal.place),
    };
    let figured = match figures(file) {
        Ok(f) => format!(
            "ok {} {} {} {} {}",
            f.records, f.scopes, f.symbols, f.contexts, f.bytes
        ),
        Err(refusal) => format!("refused {} {}", refusal.number, refusal.place),
    };
    format!("{checked}|{figured}")
}

#[test]
fn checking() {
    let mut count = 0;
    for line in read("check.txt").lines() {
        let (file, answers) = line.split_once('|').expect("a file and two answers");
        count += 1;
        assert_eq!(two_answers(&from_hex(file)), answers, "line {count}");
    }
    println!("check.txt: {count} files agree");
}

/// A file in the notation.
fn to_notation(file: &[u8]) -> String {
    let mut fields = Vec::new();
    let mut rest = file;
    while let [tag, high, low, others @ ..] = rest {
        let length = usize::from(u16::from_be_bytes([*high, *low]));
        let (payload, behind) = others.split_at(length);
        let pairs = payload.chunks(2);
        let numbers: Vec<u16> = pairs
            .map(|two| u16::from_be_bytes([two[0], two[1]]))
            .collect();
        fields.push(notation(*tag, &numbers));
        rest = behind;
    }
    fields.join(" ")
}

/// What is printed for a corner: its file, and what it is lowered to in the memory that is lent for it.
fn corner(line: &str) -> String {
    let lent = Lent {
        records: 64,
        scopes: 24,
        symbols: 16,
        out: 724,
    };
    let (shown, file) = match line {
        "zeros" => (String::new(), vec![0; 65_536]),
        "" => (String::from("  in:\n"), Vec::new()),
        _ => (format!("  in: {line}\n"), from_notation(line)),
    };
    match lower(&file, lent) {
        Err(r) => format!("{shown}  refused {} at {}\n", r.number, r.place),
        Ok((out, f)) => format!(
            "{shown}  out: {}\n  figures: records {}, scopes {}, symbols {}, contexts {}, bytes {}\n",
            to_notation(&out),
            f.records,
            f.scopes,
            f.symbols,
            f.contexts,
            f.bytes
        ),
    }
}

#[test]
fn corners() {
    let stored = read("../stdout");
    let (_, shown) = stored.split_once("corners.txt: ").expect("the last file");
    let (_, mut shown) = shown.split_once('\n').expect("lines behind it");
    for line in read("corners.txt").lines() {
        let wanted = if line.starts_with('#') {
            format!("{line}\n")
        } else {
            corner(line)
        };
        shown = match shown.strip_prefix(wanted.as_str()) {
            Some(behind) => behind,
            None => panic!("{line}\n{wanted}is not what stands before\n{shown}"),
        };
    }
    println!("corners.txt: {shown}");
}
