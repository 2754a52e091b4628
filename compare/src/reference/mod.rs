//! The lowering, written from its description, with trees on the heap.

mod charges;
mod explicit_resource_management;
mod helper_loader;
mod mentions;
mod parse;
mod scoping;
mod tag;
mod tree;
mod walk;
mod write;

pub use walk::{Open, Record, Walk};

/// Why a call is refused, and where.
#[derive(Clone, Copy, PartialEq, Eq, Debug)]
pub struct Refusal {
    pub number: u8,
    pub place: usize,
}

/// How large a lowered tree is, the length of its file, and how many contexts were made for it.
#[derive(Clone, Copy, PartialEq, Eq, Debug)]
pub struct Figures {
    pub records: u64,
    pub scopes: u64,
    pub symbols: u64,
    pub bytes: u64,
    pub contexts: u64,
}

/// Memory lent: rows of the three tables, and bytes of the output.
#[derive(Clone, Copy, Debug)]
pub struct Lent {
    pub records: usize,
    pub scopes: usize,
    pub symbols: usize,
    pub out: usize,
}

/// Whether the bytes are a tree file.
pub fn check(file: &[u8]) -> Result<(), Refusal> {
    parse::parse(file).map(|_| ())
}

/// The figures that the lowered tree will have, without lowering it.
pub fn figures(file: &[u8]) -> Result<Figures, Refusal> {
    walk::read(file).map(|(_, _, figures)| figures)
}

/// Lowers a file. The figures are those of the tree that came out.
pub fn lower(file: &[u8], lent: Lent) -> Result<(Vec<u8>, Figures), Refusal> {
    let mut walk = Walk::start(file, lent)?;
    let length = walk.expected.bytes as usize;
    if length > lent.out {
        return Err(Refusal {
            number: 10,
            place: lent.out,
        });
    }
    while !walk.is_over() {
        walk.visit();
    }
    let Walk { pass, settings, .. } = walk;
    let out = write::write(settings, &pass.scoping, &pass.nodes, length);
    let figures = Figures {
        records: pass.nodes.len() as u64,
        scopes: pass.scoping.scope_count() as u64,
        symbols: pass.scoping.symbol_count() as u64,
        bytes: out.len() as u64,
        contexts: pass.contexts,
    };
    Ok((out, figures))
}
