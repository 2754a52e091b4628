//! What lowering will add to a tree, counted in the tree as read.

use super::parse::{mode, Tree};
use super::scoping::Scoping;
use super::tag;
use super::tree::{Mark, Node, NodeId, Nodes};
use super::Figures;

/// What one rewrite adds.
#[derive(Clone, Copy)]
struct Charge {
    records: u64,
    scopes: u64,
    symbols: u64,
    /// The bytes of the added records less those of the records that go.
    record_bytes: u64,
}

impl Charge {
    const fn new(
        records: u64,
        scopes: u64,
        symbols: u64,
        made: &[u8],
        replaced: Option<u8>,
    ) -> Self {
        let mut bytes = 0;
        let mut at = 0;
        while at < made.len() {
            bytes += tag::size(made[at]);
            at += 1;
        }
        if let Some(replaced) = replaced {
            bytes -= tag::size(replaced);
        }
        Charge {
            records,
            scopes,
            symbols,
            record_bytes: bytes as u64,
        }
    }
}

const CONTEXT_OF_BLOCK: Charge = Charge::new(
    11,
    3,
    2,
    &[
        tag::TRY,
        tag::DECLARATION,
        tag::DECLARATOR,
        tag::NAME,
        tag::LOAD,
        tag::CATCH,
        tag::NAME,
        tag::BLOCK,
        tag::STEP,
        tag::BLOCK,
        tag::STEP,
    ],
    None,
);
const CONTEXT: Charge = Charge {
    records: 12,
    scopes: 4,
    record_bytes: CONTEXT_OF_BLOCK.record_bytes + tag::size(tag::BLOCK) as u64,
    ..CONTEXT_OF_BLOCK
};
const WRAPPED_INIT: Charge = Charge::new(1, 0, 0, &[tag::CALL], None);
const FOR_OF_USING: Charge = Charge::new(
    4,
    0,
    1,
    &[tag::DECLARATION, tag::DECLARATOR, tag::NAME, tag::READ],
    None,
);
const NEW_BLOCK: Charge = Charge::new(1, 1, 0, &[tag::BLOCK], None);
const TOP_LEVEL_CLASS: Charge = Charge::new(
    3,
    0,
    1,
    &[tag::DECLARATION, tag::DECLARATOR, tag::NAME],
    None,
);
const MOVED_EXPORT: [u8; 5] = [
    tag::DECLARATION,
    tag::DECLARATOR,
    tag::NAME,
    tag::MODULE_LINE,
    tag::SPECIFIER,
];
const EXPORTED_CLASS: Charge = Charge::new(4, 0, 1, &MOVED_EXPORT, Some(tag::EXPORTED_DECLARATION));
const DEFAULT_EXPORT: Charge = Charge::new(4, 0, 1, &MOVED_EXPORT, Some(tag::DEFAULT_EXPORT));
const EXPORTED_VARIABLES: Charge = Charge::new(
    0,
    0,
    0,
    &[tag::MODULE_LINE],
    Some(tag::EXPORTED_DECLARATION),
);
const EXPORTED_NAME: Charge = Charge::new(1, 0, 0, &[tag::SPECIFIER], None);
const RUNTIME_HELPER: Charge = Charge::new(0, 0, 1, &[], None);
const IMPORT_LINE: Charge = Charge::new(2, 0, 0, &[tag::MODULE_LINE, tag::SPECIFIER], None);

/// The names that scopes bind in the rows as read.
#[derive(Default)]
pub struct ReadBindings(Vec<(u16, u16)>);

impl ReadBindings {
    pub fn new(scoping: &Scoping) -> ReadBindings {
        let with_own_name = scoping.symbols().iter().filter(|symbol| symbol.made == 0);
        let mut pairs: Vec<_> = with_own_name
            .map(|symbol| (symbol.scope, symbol.name))
            .collect();
        pairs.sort_unstable();
        ReadBindings(pairs)
    }

    pub fn binds(&self, scope: u16, name: u16) -> bool {
        self.0.binary_search(&(scope, name)).is_ok()
    }
}

/// What is to be done with a `for (using .. of ..)`.
pub struct ForOfUsing {
    pub declaration: NodeId,
    /// The name of the declaration.
    pub name: NodeId,
    pub body: NodeId,
    /// The body is a block, and the declaration can go into it.
    pub goes_into_body: bool,
}

/// Takes apart a `for .. of` whose left side is a `using` of an identifier.
pub fn for_of_using(
    nodes: &Nodes,
    scoping: &Scoping,
    read: &ReadBindings,
    id: NodeId,
) -> Option<ForOfUsing> {
    let declaration = nodes[id].first;
    if !nodes[declaration].is_using() {
        return None;
    }
    let declarator = nodes[declaration].first;
    if nodes[declarator].numbers[0] != 0 {
        return None;
    }
    let name = nodes[declarator].first;
    let symbol = scoping.symbol(nodes[name].numbers[0]);
    let body = nodes[nodes[declaration].next].next;
    let bound = || symbol.made == 0 && read.binds(nodes[body].scope(), symbol.name);
    let goes_into_body = nodes[body].tag == tag::BLOCK && !bound();
    Some(ForOfUsing {
        declaration,
        name,
        body,
        goes_into_body,
    })
}

/// The charges found so far.
struct Bill<'t> {
    tree: &'t Tree,
    read: &'t ReadBindings,
    figures: Figures,
}

/// The final figures of a tree just read. `length` is that of its file.
pub fn figures(tree: &Tree, read: &ReadBindings, length: usize) -> Figures {
    let figures = Figures {
        records: tree.nodes.len() as u64,
        scopes: tree.scoping.scope_count() as u64,
        symbols: tree.scoping.symbol_count() as u64,
        bytes: length as u64,
        contexts: 0,
    };
    let mut bill = Bill {
        tree,
        read,
        figures,
    };
    for (id, node) in tree.nodes.iter() {
        bill.record(id, node);
    }
    if bill.figures.contexts > 0 && tree.settings.mode == mode::RUNTIME {
        bill.add(RUNTIME_HELPER, 1);
        if tree.settings.module == 1 {
            bill.add(IMPORT_LINE, 1);
        }
    }
    bill.figures
}

impl Bill<'_> {
    fn add(&mut self, charge: Charge, times: u64) {
        let row_bytes = charge.scopes * tag::size(tag::SCOPE) as u64
            + charge.symbols * tag::size(tag::SYMBOL) as u64;
        self.figures.records += times * charge.records;
        self.figures.scopes += times * charge.scopes;
        self.figures.symbols += times * charge.symbols;
        self.figures.bytes += times * (charge.record_bytes + row_bytes);
    }

    fn add_context(&mut self, charge: Charge) {
        self.add(charge, 1);
        self.figures.contexts += 1;
    }

    fn record(&mut self, id: NodeId, node: &Node) {
        match node.tag {
            tag::PROGRAM => self.program(id),
            tag::BLOCK if node.mark != Mark::TryPart => self.list(id, CONTEXT_OF_BLOCK),
            tag::BLOCK | tag::BODY | tag::STATIC_BLOCK => self.list(id, CONTEXT),
            tag::FOR if self.tree.nodes[node.first].is_using() => {
                self.using(node.first);
                self.add_context(CONTEXT);
            }
            tag::FOR_OF => self.for_of(id),
            tag::SWITCH => self.switch(id),
            _ => {}
        }
    }

    fn list(&mut self, id: NodeId, context: Charge) {
        if self.usings(id) {
            self.add_context(context);
        }
    }

    /// The wrapped initializers of the usings among the children; whether there is a using.
    fn usings(&mut self, id: NodeId) -> bool {
        let mut found = false;
        for item in self.tree.nodes.children(id) {
            if self.tree.nodes[item].is_using() {
                found = true;
                self.using(item);
            }
        }
        found
    }

    fn using(&mut self, declaration: NodeId) {
        let nodes = &self.tree.nodes;
        let wrapped = nodes
            .children(declaration)
            .filter(|&id| nodes[id].has_init())
            .count();
        self.add(WRAPPED_INIT, wrapped as u64);
    }

    fn switch(&mut self, id: NodeId) {
        let mut found = false;
        for case in self.tree.nodes.children(id).skip(1) {
            found |= self.usings(case);
        }
        if found {
            self.add_context(CONTEXT);
        }
    }

    fn for_of(&mut self, id: NodeId) {
        let nodes = &self.tree.nodes;
        let Some(parts) = for_of_using(nodes, &self.tree.scoping, self.read, id) else {
            return;
        };
        self.add(FOR_OF_USING, 1);
        self.add(WRAPPED_INIT, 1);
        if !parts.goes_into_body {
            self.add(NEW_BLOCK, 1);
            self.add_context(CONTEXT_OF_BLOCK);
        } else if !nodes
            .children(parts.body)
            .any(|item| nodes[item].is_using())
        {
            // A body with a using of its own has its context already.
            self.add_context(CONTEXT_OF_BLOCK);
        }
    }

    fn program(&mut self, id: NodeId) {
        if !self.usings(id) {
            return;
        }
        self.add(NEW_BLOCK, 1);
        self.add_context(CONTEXT_OF_BLOCK);
        for item in self.tree.nodes.children(id) {
            self.program_item(item);
        }
    }

    /// An item of a program that is lowered.
    fn program_item(&mut self, item: NodeId) {
        let nodes = &self.tree.nodes;
        let child = nodes[item].first;
        match nodes[item].tag {
            tag::CLASS => self.add(TOP_LEVEL_CLASS, 1),
            tag::DEFAULT_EXPORT if !is_function_declaration(&nodes[child]) => {
                self.add(DEFAULT_EXPORT, 1);
            }
            tag::EXPORTED_DECLARATION => match nodes[child].tag {
                tag::CLASS => self.add(EXPORTED_CLASS, 1),
                tag::DECLARATION => {
                    let names = nodes
                        .children(child)
                        .map(|id| u64::from(nodes[id].numbers[1]));
                    let names = names.sum();
                    self.add(EXPORTED_VARIABLES, 1);
                    self.add(EXPORTED_NAME, names);
                }
                _ => {}
            },
            _ => {}
        }
    }
}

fn is_function_declaration(node: &Node) -> bool {
    node.tag == tag::FUNCTION && node.numbers[0] == 0
}
