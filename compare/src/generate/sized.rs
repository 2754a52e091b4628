//! Large valid files of a few shapes, for measuring.

use super::builder::{tag, Builder, Open, Symbol};

/// What a file mostly consists of.
#[derive(Clone, Copy, PartialEq, Eq, Debug)]
pub enum Shape {
    ManyContexts,
    FewContexts,
    Deep,
    LongList,
    TopLevelFunctions,
    LoweredProgram,
}

impl Shape {
    pub const ALL: [Shape; 6] = [
        Shape::ManyContexts,
        Shape::FewContexts,
        Shape::Deep,
        Shape::LongList,
        Shape::TopLevelFunctions,
        Shape::LoweredProgram,
    ];

    pub fn name(self) -> &'static str {
        match self {
            Shape::ManyContexts => "many contexts",
            Shape::FewContexts => "few contexts",
            Shape::Deep => "deep",
            Shape::LongList => "long list",
            Shape::TopLevelFunctions => "top-level functions",
            Shape::LoweredProgram => "lowered program",
        }
    }
}

const ROOT: u16 = 1;
const VAR: u16 = 0;
const LET: u16 = 1;
const CONST: u16 = 2;
const USING: u16 = 3;
const AWAIT_USING: u16 = 4;

/// A valid file of about so many bytes, never more (unless an empty program is longer).
pub fn sized(shape: Shape, mode: u16, bytes: usize) -> Vec<u8> {
    let mut file = Sized {
        builder: Builder::new(),
        limit: bytes.min(65_535),
        unit: 0,
    };
    let root = file.builder.scope(0, 17);
    let program = file.builder.open(tag::PROGRAM, &[root]);
    let count = match shape {
        Shape::LongList => file.long_list(),
        _ => file.units(|file| file.item(shape)),
    };
    let count = count + file.units(|file| file.plain(0));
    file.builder.close(program, count);
    file.builder.write(mode, 1)
}

struct Sized {
    builder: Builder,
    limit: usize,
    /// How many units were made.
    unit: u16,
}

impl Sized {
    /// Makes units, all in the same list, as long as there is room; hands back how many.
    fn units(&mut self, mut make: impl FnMut(&mut Self)) -> u16 {
        let mut count = 0;
        loop {
            let point = self.builder.point();
            make(self);
            if self.builder.size() > self.limit {
                self.builder.back_to(point);
                return count;
            }
            count += 1;
            self.unit += 1;
        }
    }

    fn item(&mut self, shape: Shape) {
        match shape {
            Shape::FewContexts if self.unit % 64 != 63 => self.ordinary_statement(),
            Shape::FewContexts | Shape::ManyContexts => self.context_statement(),
            Shape::Deep => self.deep_block(),
            Shape::TopLevelFunctions => self.function_with_using(ROOT),
            Shape::LoweredProgram => self.program_item(),
            Shape::LongList => {}
        }
    }

    /// One block with as many usings as there is room for.
    fn long_list(&mut self) -> u16 {
        let point = self.builder.point();
        let (block, scope) = self.open_block(ROOT);
        if self.builder.size() > self.limit {
            self.builder.back_to(point);
            return 0;
        }
        let count = self.units(|file| file.declaration(USING + file.unit % 2, scope, 6));
        self.builder.close(block, count);
        1
    }

    fn symbol(&mut self, scope: u16, flags: u16) -> u16 {
        self.builder.symbol(Symbol {
            name: 10 + self.unit % 500,
            flags,
            scope,
            made: 0,
        })
    }

    fn open_block(&mut self, parent: u16) -> (Open, u16) {
        let scope = self.builder.scope(parent, 1);
        (self.builder.open(tag::BLOCK, &[scope]), scope)
    }

    fn leaf_expression(&mut self) {
        self.builder.leaf(tag::EXPRESSION, &[self.unit % 100, 0]);
    }

    /// `kind name = expression`
    fn declaration(&mut self, kind: u16, scope: u16, flags: u16) {
        let symbol = self.symbol(scope, flags);
        self.builder.leaf(tag::DECLARATION, &[kind, 1]);
        self.builder.leaf(tag::DECLARATOR, &[0, 1, 2]);
        self.builder.leaf(tag::NAME, &[symbol]);
        self.leaf_expression();
    }

    /// A statement with so many expressions.
    fn plain(&mut self, expressions: u16) {
        self.builder
            .leaf(tag::PLAIN, &[0, self.unit % 100, expressions]);
        for _ in 0..expressions {
            self.leaf_expression();
        }
    }

    fn block_with_using(&mut self, parent: u16, kind: u16) {
        let (block, scope) = self.open_block(parent);
        self.declaration(kind, scope, 6);
        self.plain(1);
        self.builder.close(block, 2);
    }

    /// Statements of all kinds that make a context.
    fn context_statement(&mut self) {
        match self.unit % 6 {
            1 => self.for_with_using(),
            2 => self.for_of_with_using(),
            3 => self.switch_with_using(),
            4 => self.try_with_using(),
            _ => self.block_with_using(ROOT, USING + self.unit % 2),
        }
    }

    fn for_with_using(&mut self) {
        let scope = self.builder.scope(ROOT, 1);
        self.builder.leaf(tag::LABEL, &[self.unit % 100, 1]);
        self.builder.leaf(tag::FOR, &[scope, 3]);
        self.declaration(USING, scope, 6);
        self.leaf_expression();
        self.plain(1);
    }

    fn for_of_with_using(&mut self) {
        let scope = self.builder.scope(ROOT, 1);
        let symbol = self.symbol(scope, 6);
        self.builder.leaf(tag::FOR_OF, &[scope, 0, 3]);
        self.builder.leaf(tag::DECLARATION, &[USING, 1]);
        self.builder.leaf(tag::DECLARATOR, &[0, 1, 1]);
        self.builder.leaf(tag::NAME, &[symbol]);
        self.leaf_expression();
        let (block, _) = self.open_block(scope);
        self.plain(0);
        self.builder.close(block, 1);
    }

    fn switch_with_using(&mut self) {
        let scope = self.builder.scope(ROOT, 1);
        self.builder.leaf(tag::SWITCH, &[scope, 2]);
        self.leaf_expression();
        self.builder.leaf(tag::CASE, &[1, 3]);
        self.leaf_expression();
        self.declaration(AWAIT_USING, scope, 6);
        self.plain(0);
    }

    fn try_with_using(&mut self) {
        self.builder.leaf(tag::TRY, &[1, 2]);
        self.block_with_using(ROOT, USING);
        let scope = self.builder.scope(ROOT, 3);
        let body_scope = self.builder.scope(scope, 1);
        let symbol = self.symbol(body_scope, 17);
        self.builder.leaf(tag::CATCH, &[scope, 1, 0, 2]);
        self.builder.leaf(tag::NAME, &[symbol]);
        self.builder.leaf(tag::BLOCK, &[body_scope, 2]);
        self.declaration(USING, body_scope, 6);
        self.plain(0);
    }

    /// Statements without a using.
    fn ordinary_statement(&mut self) {
        match self.unit % 4 {
            0 => self.plain(3),
            1 => self.declaration(LET + self.unit / 4 % 2, ROOT, 2),
            2 => {
                let (block, scope) = self.open_block(ROOT);
                self.declaration(CONST, scope, 6);
                self.plain(2);
                self.builder.close(block, 2);
            }
            _ => {
                self.builder.leaf(tag::PLAIN, &[0, 7, 1]);
                self.builder.leaf(tag::EXPRESSION, &[8, 2]);
                self.builder.leaf(tag::EXPRESSION, &[9, 1]);
                self.leaf_expression();
                self.leaf_expression();
            }
        }
    }

    /// Blocks in each other, each with a using, as deep as may be or as there is room for.
    fn deep_block(&mut self) {
        let mut open = Vec::new();
        let mut parent = ROOT;
        loop {
            let point = self.builder.point();
            let (block, scope) = self.open_block(parent);
            self.declaration(USING + open.len() as u16 % 2, scope, 6);
            let fits = self.builder.size() <= self.limit;
            if open.is_empty() || fits {
                open.push(block);
                parent = scope;
            } else {
                self.builder.back_to(point);
            }
            // The names of the last block lie three levels below it.
            if !fits || open.len() == 60 {
                break;
            }
        }
        let inner = open.pop();
        for block in open {
            self.builder.close(block, 2);
        }
        if let Some(inner) = inner {
            self.builder.close(inner, 1);
        }
    }

    fn function_with_using(&mut self, parent: u16) {
        let symbol = self.symbol(parent, 64);
        let scope = self.builder.scope(parent, 9);
        self.builder.leaf(tag::FUNCTION, &[0, scope, symbol, 2]);
        self.leaf_expression();
        self.builder.leaf(tag::BODY, &[5]);
        self.declaration(USING, scope, 6);
        self.declaration(LET, scope, 2);
        self.declaration(VAR, scope, 1);
        self.block_with_using(scope, AWAIT_USING);
        self.plain(2);
    }

    /// Items of all kinds for a program that is lowered, a using first.
    fn program_item(&mut self) {
        match self.unit % 10 {
            0 => self.declaration(USING, ROOT, 6),
            1 => self.function_with_using(ROOT),
            2 => self.class_with_using(),
            3 => {
                self.builder.leaf(tag::EXPORTED_DECLARATION, &[1]);
                self.class_with_using();
            }
            4 => {
                self.builder.leaf(tag::EXPORTED_DECLARATION, &[1]);
                self.declaration(CONST, ROOT, 6);
            }
            5 => {
                self.builder.leaf(tag::DEFAULT_EXPORT, &[1]);
                self.leaf_expression();
            }
            6 => {
                let symbol = self.symbol(ROOT, 32);
                self.builder.leaf(tag::MODULE_LINE, &[0, 7, 1]);
                self.builder.leaf(tag::SPECIFIER, &[symbol, 10]);
            }
            7 => self.declaration(LET, ROOT, 2),
            8 => self.block_with_using(ROOT, USING),
            _ => self.plain(3),
        }
    }

    fn class_with_using(&mut self) {
        let symbol = self.symbol(ROOT, 8);
        let scope = self.builder.scope(ROOT, 1);
        self.builder.leaf(tag::CLASS, &[0, scope, symbol, 1]);
        let block_scope = self.builder.scope(scope, 5);
        self.builder.leaf(tag::STATIC_BLOCK, &[block_scope, 2]);
        self.declaration(USING, block_scope, 6);
        self.plain(1);
    }
}
