//! One file through every call of both sides.
use crate::memory::{lend, Memory};
use crate::tables;
use compare::generate::Rng;
use compare::reference::{self, Figures, Lent, Refusal};

/// Above this length all tables are compared after some of a walk's visits only; the counts of symbols after each.
const LONG: usize = 4_000;

#[derive(Default)]
pub struct Counts {
    pub files: u64,
    pub valid: u64,
    pub lowered: u64,
    pub unchanged: u64,
    pub again: u64,
    pub grown: u64,
    pub refused: [u64; 11],
    pub contexts: u64,
    pub walks: u64,
    pub visits: u64,
    pub compared: u64,
    pub different: u64,
}

impl Counts {
    pub fn add(&mut self, other: &Counts) {
        self.files += other.files;
        self.valid += other.valid;
        self.lowered += other.lowered;
        self.unchanged += other.unchanged;
        self.again += other.again;
        self.grown += other.grown;
        for (n, m) in self.refused.iter_mut().zip(other.refused) {
            *n += m;
        }
        self.contexts += other.contexts;
        self.walks += other.walks;
        self.visits += other.visits;
        self.compared += other.compared;
        self.different += other.different;
    }

    pub fn print(&self) {
        println!("{} files, {} of them tree files", self.files, self.valid);
        println!(
            "{} lowered with {} contexts, {} written with none",
            self.lowered, self.contexts, self.unchanged
        );
        println!(
            "{} of the written files lowered again, {} too long or too deep to be read",
            self.again, self.grown
        );
        for number in 1..=10 {
            println!("{} lowerings refused with {number}", self.refused[number]);
        }
        println!(
            "{} walks with {} visits, the counts of symbols compared after each, all tables after {}",
            self.walks, self.visits, self.compared
        );
        println!("{} different", self.different);
    }
}

fn figures_of(f: desk::Figures) -> Figures {
    Figures {
        records: f.records,
        scopes: f.scopes,
        symbols: f.symbols,
        bytes: f.bytes,
        contexts: f.contexts,
    }
}

fn refusal_of(r: desk::Refusal) -> Refusal {
    Refusal {
        number: r.number,
        place: r.place as usize,
    }
}

#[derive(Default)]
pub struct Judge {
    pub counts: Counts,
}

impl Judge {
    /// Says what differs, with the file in hexadecimal for the first few.
    fn expect(&mut self, same: bool, what: &str, number: u64, file: &[u8]) -> bool {
        if !same {
            self.counts.different += 1;
            if self.counts.different <= 5 {
                let bytes: String = file.iter().map(|b| format!("{b:02x}")).collect();
                println!("file {number} differs in {what}: {bytes}");
            }
        }
        same
    }

    pub fn file(&mut self, number: u64, file: &[u8], rng: &mut Rng) {
        self.counts.files += 1;
        let checked = reference::check(file);
        self.counts.valid += u64::from(checked.is_ok());
        let same = desk::check(file).map_err(refusal_of) == checked;
        self.expect(same, "check", number, file);
        let figures = reference::figures(file);
        let same = desk::figures(file).map(figures_of).map_err(refusal_of) == figures;
        self.expect(same, "figures", number, file);
        let lent = lend(rng, figures.ok());
        self.lower(number, file, rng, lent);
        self.walk(number, file, rng, lent);
    }

    fn lower(&mut self, number: u64, file: &[u8], rng: &mut Rng, lent: Lent) {
        let before = Memory::new(rng, lent);
        let mut memory = before.clone();
        let mut output = std::mem::take(&mut memory.output);
        let answer = desk::lower(file, memory.tables(), &mut output);
        memory.output = output;
        match reference::lower(file, lent) {
            Ok((written, figures)) => {
                let mut after = before;
                after.records.fill(0);
                after.scopes.fill(0);
                after.symbols.fill(0);
                after.output[..written.len()].copy_from_slice(&written);
                let same = answer.map(figures_of) == Ok(figures) && memory == after;
                self.expect(same, "lower", number, file);
                self.counts.contexts += figures.contexts;
                if figures.contexts == 0 {
                    self.counts.unchanged += 1;
                } else {
                    self.counts.lowered += 1;
                }
                self.again(number, file, rng, &written, figures);
            }
            Err(refusal) => {
                let same = answer.map_err(refusal_of) == Err(refusal) && memory == before;
                self.expect(same, "a refused lowering", number, file);
                self.counts.refused[usize::from(refusal.number).min(10)] += 1;
            }
        }
    }

    /// What was written is lowered to itself, with just the rows and bytes that it has; or reading refuses it, with 1 or 6.
    fn again(&mut self, number: u64, file: &[u8], rng: &mut Rng, written: &[u8], first: Figures) {
        if let Err(refusal) = desk::check(written) {
            self.counts.grown += 1;
            let same = matches!(refusal.number, 1 | 6);
            self.expect(same, "the reading of what was written", number, file);
            return;
        }
        self.counts.again += 1;
        let figures = Figures {
            contexts: 0,
            ..first
        };
        let lent = Lent {
            records: first.records as usize,
            scopes: first.scopes as usize,
            symbols: first.symbols as usize,
            out: written.len(),
        };
        let mut memory = Memory::new(rng, lent);
        let mut output = std::mem::take(&mut memory.output);
        let answer = desk::lower(written, memory.tables(), &mut output).map(figures_of);
        let same = answer == Ok(figures)
            && output == written
            && reference::lower(written, lent) == Ok((written.to_vec(), figures));
        self.expect(same, "a second lowering", number, file);
    }

    fn walk(&mut self, number: u64, file: &[u8], rng: &mut Rng, lent: Lent) {
        let before = Memory::new(rng, lent);
        let mut memory = before.clone();
        let walk = match reference::Walk::start(file, lent) {
            Ok(walk) => walk,
            Err(refusal) => {
                let answer = desk::Walk::start(file, memory.tables()).err();
                let same = answer.map(refusal_of) == Some(refusal) && memory == before;
                self.expect(same, "a refused start", number, file);
                return;
            }
        };
        let end = reference::figures(file).expect("accepted").records as usize;
        match desk::Walk::start(file, memory.tables()) {
            Ok(ours) => self.visits(number, file, walk, ours, end),
            Err(_) => {
                self.expect(false, "start", number, file);
            }
        }
    }

    /// Visit by visit, and one call more after the last.
    fn visits(
        &mut self,
        number: u64,
        file: &[u8],
        mut walk: reference::Walk,
        mut ours: desk::Walk,
        end: usize,
    ) {
        self.counts.walks += 1;
        let read = walk.symbols();
        let mut visits = 0;
        let mut over = false;
        loop {
            let compared = file.len() <= LONG || visits < 8 || visits % 512 == 0 || walk.is_over();
            let same = if compared {
                self.counts.compared += 1;
                over == walk.is_over() && stands_as(&walk, &ours, &read, end)
            } else {
                ours.mentions() == walk.mentions()
            };
            if !self.expect(same, &format!("visit {visits}"), number, file) {
                return;
            }
            if over {
                break;
            }
            walk.visit();
            over = ours.visit();
            visits += 1;
        }
        self.counts.visits += visits;
        let same = ours.visit() && stands_as(&walk, &ours, &read, end);
        self.expect(same, "a visit after the last", number, file);
    }
}

/// Whether the tables and the walk's numbers are those of the plain walk.
fn stands_as(walk: &reference::Walk, ours: &desk::Walk, read: &[[u16; 5]], end: usize) -> bool {
    let (records, scopes, symbols) = ours.tables();
    let rows = walk.records().len();
    let visited = walk.visited();
    let inner = walk.open().last().map_or(0, |open| open.row + 1);
    ours.rows().map(usize::from) == [visited, visited + end - rows, end, inner]
        && ours.counts() == (walk.scopes().len() as u16, walk.symbols().len() as u16)
        && ours.helper() == walk.helper()
        && u64::from(ours.contexts()) == walk.contexts()
        && records == tables::records(walk, end, records.len())
        && scopes == tables::scopes(walk, scopes.len())
        && ours.mentions() == walk.mentions()
        && symbols == tables::symbols(walk, read, symbols.len())
}
