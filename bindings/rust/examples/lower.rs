//! Lowers the tree file on standard input to standard output, and says on standard error what it came to.
use desk::{Refusal, Tables, Walk};
use std::io::{self, Read, Write};
use std::process::ExitCode;

struct Memory {
    records: Vec<u16>,
    scopes: Vec<u16>,
    symbols: Vec<u16>,
}

impl Memory {
    fn lend(&mut self) -> Tables<'_> {
        Tables {
            records: &mut self.records,
            scopes: &mut self.scopes,
            symbols: &mut self.symbols,
        }
    }
}

/// The lowered file, in memory of just the size that the figures ask for, the number of visits, and how often the tree names symbols.
fn lower(file: &[u8]) -> Result<(Vec<u8>, usize, u32), Refusal> {
    let figures = desk::figures(file)?;
    let mut memory = Memory {
        records: vec![0; figures.records as usize * desk::RECORD_ROW],
        scopes: vec![0; figures.scopes as usize * desk::SCOPE_ROW],
        symbols: vec![0; figures.symbols as usize * desk::SYMBOL_ROW],
    };
    let mut walk = Walk::start(file, memory.lend())?;
    let mut visits = 1;
    while !walk.visit() {
        visits += 1;
    }
    let mentions = walk.mentions().iter().map(|&count| u32::from(count)).sum();
    let mut output = vec![0; figures.bytes as usize];
    desk::lower(file, memory.lend(), &mut output)?;
    Ok((output, visits, mentions))
}

fn main() -> io::Result<ExitCode> {
    let mut file = Vec::new();
    io::stdin().read_to_end(&mut file)?;
    match lower(&file) {
        Ok((output, visits, mentions)) => {
            eprintln!(
                "{} bytes, {visits} visits, {mentions} mentions",
                output.len()
            );
            io::stdout().write_all(&output)?;
            Ok(ExitCode::SUCCESS)
        }
        Err(r) => {
            eprintln!("refused {} at {}", r.number, r.place);
            Ok(ExitCode::FAILURE)
        }
    }
}
