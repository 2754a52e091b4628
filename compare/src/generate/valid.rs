//! Random valid files.

use super::builder::{tag, Builder, Symbol};
use super::Rng;

const MAX_DEPTH: usize = 64;

/// Where a record is to be made.
#[derive(Clone, Copy)]
struct At {
    depth: usize,
    /// The scope around it.
    scope: u16,
    /// The scope of the nearest program, function or static block around it.
    hoist: u16,
}

impl At {
    /// The place of a child, in the same scope.
    fn below(self) -> At {
        At {
            depth: self.depth + 1,
            ..self
        }
    }

    /// The place of a child of a record with this scope.
    fn inside(self, scope: u16) -> At {
        At {
            scope,
            ..self.below()
        }
    }

    /// How many levels may still follow under the record.
    fn levels(self) -> usize {
        MAX_DEPTH.saturating_sub(self.depth)
    }
}

/// What one file is like.
struct Style {
    /// How many of a hundred declarations are usings.
    usings: u64,
    /// How many of a hundred list items are declarations.
    declarations: u64,
    /// How many of a hundred items of the program are module lines and exports.
    exports: u64,
    /// How many of a hundred symbols are new rows.
    new_symbols: u64,
    /// Nests on to this depth.
    deep_to: usize,
    /// The names in use, some more often.
    names: Vec<u16>,
}

struct Generator<'r> {
    rng: &'r mut Rng,
    builder: Builder,
    style: Style,
    /// How many records may still be made; the records that must follow come besides.
    room: usize,
}

/// A random valid file.
pub fn valid(rng: &mut Rng) -> Vec<u8> {
    loop {
        let file = attempt(rng);
        if file.len() <= 65_535 {
            return file;
        }
    }
}

fn attempt(rng: &mut Rng) -> Vec<u8> {
    let mode = [0, 1, 2][rng.weighted(&[45, 45, 10])];
    let mut style = style(rng);
    if mode == 2 && rng.chance(60) {
        style.usings = 0;
    }
    let room = match rng.below(1000) {
        0..520 => 1 + rng.place(11),
        520..880 => 6 + rng.place(18),
        880..985 => 18 + rng.place(24),
        985..999 => 80 + rng.place(150),
        _ => 600 + rng.place(1500),
    };
    let mut generator = Generator {
        rng,
        builder: Builder::new(),
        style,
        room,
    };
    generator.program();
    generator.add_unused_symbols();
    generator.scatter_symbols();
    generator.write(mode)
}

fn style(rng: &mut Rng) -> Style {
    let deep_to = if rng.chance(2) { 20 + rng.place(45) } else { 0 };
    let all = [1, 1, 2, 3, 4, 4, 5, 10, 11, 12, 13, 14, 15, 65_535];
    let count = 1 + rng.place(12);
    Style {
        usings: rng.pick(&[0, 20, 50, 60, 75, 75, 95, 95]),
        declarations: rng.pick(&[20, 45, 45, 70]),
        exports: rng.pick(&[0, 25, 60]),
        new_symbols: rng.pick(&[15, 50, 80]),
        deep_to,
        names: (0..count).map(|_| rng.pick(&all)).collect(),
    }
}

impl Generator<'_> {
    fn program(&mut self) {
        let flags = self.scope_flags(16);
        let scope = self.builder.scope(0, flags);
        let program = self.builder.open(tag::PROGRAM, &[scope]);
        let at = At {
            depth: 2,
            scope,
            hoist: scope,
        };
        let length = if self.rng.chance(4) {
            0
        } else {
            1 + self.list_length()
        };
        let count = self.shared(length, |this| {
            if this.rng.chance(this.style.exports) {
                this.module_item(at);
            } else {
                this.list_item(at);
            }
        });
        self.builder.close(program, count);
    }

    /// Makes some items, each with its share of the room.
    fn shared(&mut self, count: usize, mut item: impl FnMut(&mut Self)) -> u16 {
        for left in (1..=count).rev() {
            let share = self.room / left;
            let rest = self.room - share;
            self.room = share;
            item(self);
            self.room += rest;
        }
        count as u16
    }

    fn list_length(&mut self) -> usize {
        if self.room == 0 {
            return self.rng.place(2);
        }
        match self.rng.below(100) {
            0..8 => 0,
            8..45 => 1,
            45..75 => 2,
            75..90 => 3,
            _ => 4 + self.rng.place(self.room.min(8)),
        }
    }

    /// The items of a list, each to be made at `at`.
    fn list(&mut self, at: At) -> u16 {
        if at.depth > MAX_DEPTH {
            return 0;
        }
        let length = if self.nests_on(at) {
            1 + self.rng.place(2)
        } else {
            self.list_length()
        };
        self.shared(length, |this| this.list_item(at))
    }

    fn list_item(&mut self, at: At) {
        let statement = at.levels() < 2 || (self.nests_on(at) && self.rng.chance(60));
        if !statement && self.rng.chance(self.style.declarations) {
            let kind = self.kind(self.style.usings);
            self.declaration(at, kind);
        } else {
            self.statement(at);
        }
    }

    /// Whether the file has still to become deep here.
    fn nests_on(&self, at: At) -> bool {
        at.depth < self.style.deep_to
    }

    /// The kind of a declaration, a using in so many cases of a hundred if the file has any.
    fn kind(&mut self, usings: u64) -> u16 {
        if self.style.usings > 0 && self.rng.chance(usings) {
            [3, 4][self.rng.weighted(&[65, 35])]
        } else {
            self.rng.between(0, 2)
        }
    }

    fn take_room(&mut self) {
        self.room = self.room.saturating_sub(1);
    }

    fn statement(&mut self, at: At) {
        self.take_room();
        // Each with its weight and the levels that it needs below it.
        const KINDS: [(u8, u64, usize); 10] = [
            (tag::BLOCK, 22, 0),
            (tag::PLAIN, 12, 0),
            (tag::LABEL, 9, 1),
            (tag::FOR, 10, 3),
            (tag::FOR_OF, 15, 3),
            (tag::SWITCH, 12, 1),
            (tag::TRY, 14, 2),
            (tag::STEP, 3, 0),
            (tag::FUNCTION, 11, 1),
            (tag::CLASS, 9, 0),
        ];
        let deep = self.nests_on(at);
        if !deep {
            // Once is enough.
            self.style.deep_to = 0;
        }
        let leaf = self.room == 0 && !deep;
        let weights = KINDS.map(|(kind, weight, levels)| {
            let fits = levels <= at.levels() && (levels == 0 || !leaf || weight > 10);
            let nests = kind != tag::STEP;
            if fits && (nests || !deep) {
                weight
            } else {
                0
            }
        });
        match KINDS[self.rng.weighted(&weights)].0 {
            tag::BLOCK => self.block(at),
            tag::PLAIN => self.plain(at),
            tag::LABEL => self.label(at),
            tag::FOR => self.for_statement(at),
            tag::FOR_OF => self.for_of_statement(at),
            tag::SWITCH => self.switch(at),
            tag::TRY => self.try_statement(at),
            tag::STEP => self.step(at),
            tag::FUNCTION => self.function(at, 0),
            _ => self.class(at, 0, false),
        }
    }

    fn block(&mut self, at: At) {
        let scope = self.new_scope(at, 0);
        self.block_in(at, scope);
    }

    fn block_in(&mut self, at: At, scope: u16) {
        let block = self.builder.open(tag::BLOCK, &[scope]);
        let count = self.list(at.inside(scope));
        self.builder.close(block, count);
    }

    fn plain(&mut self, at: At) {
        let scope = if self.rng.chance(25) {
            self.new_scope(at, 0)
        } else {
            0
        };
        let token = self.token();
        let plain = self.builder.open(tag::PLAIN, &[scope, token]);
        let inner = if scope == 0 {
            at.below()
        } else {
            at.inside(scope)
        };
        let deep = self.nests_on(at);
        let length = match self.room {
            _ if inner.depth > MAX_DEPTH => 0,
            0 if !deep => 0,
            _ => usize::from(deep) + self.rng.place(3),
        };
        let count = self.shared(length, |this| {
            if this.rng.chance(60) {
                this.statement(inner);
            } else {
                this.expression(inner, true);
            }
        });
        self.builder.close(plain, count);
    }

    /// One label, or several for a loop or a block.
    fn label(&mut self, at: At) {
        let token = self.token();
        let label = self.builder.open(tag::LABEL, &[token]);
        let inner = at.below();
        match self.rng.below(100) {
            0..20 if inner.levels() >= 1 => self.label(inner),
            20..60 if inner.levels() >= 3 => self.for_statement(inner),
            60..70 if inner.levels() >= 3 => self.for_of_statement(inner),
            70..80 => self.block(inner),
            _ => self.statement(inner),
        }
        self.builder.close(label, 1);
    }

    fn for_statement(&mut self, at: At) {
        let scope = self.new_scope(at, 0);
        let inner = at.inside(scope);
        let statement = self.builder.open(tag::FOR, &[scope]);
        if self.rng.chance(70) {
            let kind = self.kind(60);
            self.declaration(inner, kind);
        } else {
            self.expression(inner, true);
        }
        self.expression(inner, true);
        self.statement(inner);
        self.builder.close(statement, 3);
    }

    fn for_of_statement(&mut self, at: At) {
        let scope = self.new_scope(at, 0);
        let inner = at.inside(scope);
        let awaited = self.rng.between(0, 1);
        let statement = self.builder.open(tag::FOR_OF, &[scope, awaited]);
        let mut symbol = 0;
        if self.rng.chance(85) {
            let kind = self.kind(75);
            symbol = self.for_of_left(inner, kind);
        } else {
            self.expression(inner, true);
        }
        self.expression(inner, true);
        if self.rng.chance(65) {
            self.for_of_block(inner, symbol);
        } else {
            self.statement(inner);
        }
        self.builder.close(statement, 3);
    }

    /// A declaration of one name or pattern; hands back a symbol of it, or 0.
    fn for_of_left(&mut self, at: At, kind: u16) -> u16 {
        let declaration = self.builder.open(tag::DECLARATION, &[kind]);
        let symbol = self.declarator(at.below(), 0, 20);
        self.builder.close(declaration, 1);
        symbol
    }

    /// A body that sometimes binds a name of the left side.
    fn for_of_block(&mut self, at: At, symbol: u16) {
        let scope = self.new_scope(at, 0);
        if symbol != 0 {
            self.bind_left_name(usize::from(symbol) - 1, scope);
        }
        self.block_in(at, scope);
    }

    /// By a new row, by the row of the left side itself, or by a row that stood elsewhere before,
    /// which another record may name, so that its rewrite moves the row away again.
    fn bind_left_name(&mut self, left: usize, scope: u16) {
        let name = self.builder.symbols[left].name;
        match self.rng.below(100) {
            0..30 => {
                let flags = self.symbol_flags();
                let made = u16::from(self.rng.chance(15));
                self.builder.symbol(Symbol {
                    name,
                    flags,
                    scope,
                    made,
                });
            }
            30..40 => self.builder.symbols[left].scope = scope,
            40..50 => {
                let other = self.rng.place(self.builder.symbols.len());
                let row = &mut self.builder.symbols[other];
                row.name = name;
                row.scope = scope;
            }
            _ => {}
        }
    }

    fn switch(&mut self, at: At) {
        let scope = self.new_scope(at, 0);
        let inner = at.inside(scope);
        let switch = self.builder.open(tag::SWITCH, &[scope]);
        self.expression(inner, false);
        let length = if self.room == 0 {
            self.rng.place(2)
        } else {
            self.rng.place(4)
        };
        let count = self.shared(length, |this| this.case(inner));
        self.builder.close(switch, 1 + count);
    }

    fn case(&mut self, at: At) {
        let tested = u16::from(at.levels() >= 1 && self.rng.chance(70));
        let case = self.builder.open(tag::CASE, &[tested]);
        if tested == 1 {
            self.expression(at.below(), true);
        }
        let more = u16::from(at.levels() >= 3 && self.rng.chance(35));
        if more == 1 {
            let kind = self.kind(90);
            self.declaration(at.below(), kind);
        }
        let count = self.list(at.below());
        self.builder.close(case, tested + more + count);
    }

    fn try_statement(&mut self, at: At) {
        let parts = self.rng.between(1, 3);
        let statement = self.builder.open(tag::TRY, &[parts]);
        let with_catch = parts & 1 == 1;
        self.shared(usize::from(1 + parts.count_ones() as u16), {
            let mut part = 0;
            move |this| {
                if part == 1 && with_catch {
                    this.catch(at.below());
                } else {
                    this.block(at.below());
                }
                part += 1;
            }
        });
        self.builder
            .close(statement, if parts == 3 { 3 } else { 2 });
    }

    fn catch(&mut self, at: At) {
        let scope = self.new_scope(at, 2);
        let inner = at.inside(scope);
        let names = [0, 1, 2, 3][self.rng.weighted(&[20, 50, 20, 10])];
        let pattern = if self.rng.chance(70) { 0 } else { self.token() };
        let catch = self.builder.open(tag::CATCH, &[scope, names, pattern]);
        let body_scope = self.new_scope(inner, 0);
        for _ in 0..names {
            // The names of a parameter stand in the scope of the body.
            let home = if self.rng.chance(60) {
                body_scope
            } else {
                scope
            };
            let symbol = self.symbol(At {
                scope: home,
                ..inner
            });
            self.builder.leaf(tag::NAME, &[symbol]);
        }
        self.block_in(inner, body_scope);
        self.builder.close(catch, names + 1);
    }

    fn step(&mut self, at: At) {
        let form = self.rng.between(0, 2);
        let context = self.symbol(at);
        let catch = self.symbol_or_0(at);
        self.builder.leaf(tag::STEP, &[form, context, catch]);
    }

    fn function(&mut self, at: At, form: u16) {
        let symbol = self.symbol_or_0(at);
        let scope = self.new_scope(at, 8);
        let inner = At {
            hoist: scope,
            ..at.inside(scope)
        };
        let function = self.builder.open(tag::FUNCTION, &[form, scope, symbol]);
        self.expression(inner, true);
        self.add_bindings(scope);
        let body = self.builder.open(tag::BODY, &[]);
        let count = self.list(inner.below());
        self.builder.close(body, count);
        self.builder.close(function, 2);
    }

    /// Rows of a function's scope that no record names, often several of the same name.
    fn add_bindings(&mut self, scope: u16) {
        if !self.rng.chance(30) {
            return;
        }
        for _ in 0..1 + self.rng.place(4) {
            let flags = self.symbol_flags();
            let name = self.name();
            let made = u16::from(self.rng.chance(15));
            self.builder.symbol(Symbol {
                name,
                flags,
                scope,
                made,
            });
        }
    }

    fn class(&mut self, at: At, form: u16, may_lack_symbol: bool) {
        let free = form == 1 || may_lack_symbol;
        let symbol = if free {
            self.symbol_or_0(at)
        } else {
            self.symbol(at)
        };
        let scope = self.new_scope(at, 0);
        let inner = at.inside(scope);
        let class = self.builder.open(tag::CLASS, &[form, scope, symbol]);
        let deep = self.nests_on(at);
        let length = match self.room {
            _ if inner.depth > MAX_DEPTH => 0,
            0 if !deep => self.rng.place(2),
            _ => usize::from(deep) + self.rng.place(3),
        };
        let count = self.shared(length, |this| {
            if this.rng.chance(70) {
                this.static_block(inner);
            } else {
                this.expression(inner, true);
            }
        });
        self.builder.close(class, count);
    }

    fn static_block(&mut self, at: At) {
        self.take_room();
        let scope = self.new_scope(at, 4);
        let block = self.builder.open(tag::STATIC_BLOCK, &[scope]);
        let count = self.list(At {
            hoist: scope,
            ..at.inside(scope)
        });
        self.builder.close(block, count);
    }

    fn declaration(&mut self, at: At, kind: u16) {
        self.take_room();
        let declaration = self.builder.open(tag::DECLARATION, &[kind]);
        let length = [1, 2, 3][self.rng.weighted(&[75, 18, 7])];
        for _ in 0..length {
            let init = if self.style.usings == 95 { 90 } else { 65 };
            self.declarator(at.below(), init, 25);
        }
        self.builder.close(declaration, length);
    }

    /// A declarator with an initializer or a pattern in so many cases of a hundred; hands back a
    /// symbol that it names, or 0.
    fn declarator(&mut self, at: At, init: u64, patterns: u64) -> u16 {
        let levels = at.levels();
        let is_pattern = levels == 0 || self.rng.chance(patterns);
        let pattern = if is_pattern {
            self.rng.pick(&[1, 1, 2, 7, 65_535])
        } else {
            0
        };
        let names = match levels {
            0 => 0,
            _ if is_pattern => self.rng.between(0, 3),
            _ => 1,
        };
        let declarator = self.builder.open(tag::DECLARATOR, &[pattern, names]);
        let mut symbol = 0;
        for _ in 0..names {
            symbol = self.symbol(at);
            self.builder.leaf(tag::NAME, &[symbol]);
        }
        let with_init = levels >= 1 && self.rng.chance(init);
        if with_init {
            self.expression(at.below(), true);
        }
        self.builder.close(declarator, names + u16::from(with_init));
        symbol
    }

    /// An expression; with `scopes` it may hold functions and classes.
    fn expression(&mut self, at: At, scopes: bool) {
        self.take_room();
        let (levels, more) = (at.levels() as u64, u64::from(self.room > 0));
        let nest = levels.min(1) * more;
        let weights = [
            50,
            25,
            8 * levels.min(1),
            5,
            10 * u64::from(scopes) * nest,
            8 * u64::from(scopes) * more,
        ];
        match self.rng.weighted(&weights) {
            0 => self.operation(at, scopes, nest == 1),
            1 => {
                let symbol = self.symbol(at);
                self.builder.leaf(tag::READ, &[symbol]);
            }
            2 => {
                let letter = self.rng.between(0, 1);
                let context = self.symbol(at);
                let call = self.builder.open(tag::CALL, &[letter, context]);
                self.expression(at.below(), scopes);
                self.builder.close(call, 1);
            }
            3 => {
                let form = self.rng.between(0, 1);
                let symbol = self.symbol_or_0(at);
                self.builder.leaf(tag::LOAD, &[form, symbol]);
            }
            4 => self.function(at, 1),
            _ => self.class(at, 1, true),
        }
    }

    fn operation(&mut self, at: At, scopes: bool, nest: bool) {
        let token = self.token();
        let operation = self.builder.open(tag::EXPRESSION, &[token]);
        let length = if nest {
            self.rng.weighted(&[55, 25, 15, 5])
        } else {
            0
        };
        let count = self.shared(length, |this| this.expression(at.below(), scopes));
        self.builder.close(operation, count);
    }

    /// A module line or an export.
    fn module_item(&mut self, at: At) {
        self.take_room();
        match self.rng.below(100) {
            0..30 => self.module_line(at),
            30..62 => self.default_export(at),
            _ => self.exported_declaration(at),
        }
    }

    fn module_line(&mut self, at: At) {
        let (form, token) = (self.rng.between(0, 4), self.token());
        let line = self.builder.open(tag::MODULE_LINE, &[form, token]);
        // The helper's import has one Specifier.
        let count = if form == 4 { 1 } else { self.rng.between(0, 3) };
        for _ in 0..count {
            let (symbol, name) = (self.symbol(at), self.name());
            self.builder.leaf(tag::SPECIFIER, &[symbol, name]);
        }
        self.builder.close(line, count);
    }

    fn default_export(&mut self, at: At) {
        let export = self.builder.open(tag::DEFAULT_EXPORT, &[]);
        let form = self.rng.between(0, 1);
        match self.rng.below(100) {
            0..30 => self.function(at.below(), form),
            30..65 => self.class(at.below(), form, true),
            _ => self.expression(at.below(), true),
        }
        self.builder.close(export, 1);
    }

    fn exported_declaration(&mut self, at: At) {
        let export = self.builder.open(tag::EXPORTED_DECLARATION, &[]);
        match self.rng.below(100) {
            0..20 => self.function(at.below(), 0),
            20..50 => self.class(at.below(), 0, false),
            _ => {
                let kind = self.kind(self.style.usings / 2);
                self.declaration(at.below(), kind);
            }
        }
        self.builder.close(export, 1);
    }

    /// An opaque number.
    fn token(&mut self) -> u16 {
        match self.rng.below(10) {
            0 => self.rng.between(0, 65_535),
            1 => 65_535,
            _ => self.rng.between(0, 9),
        }
    }

    fn name(&mut self) -> u16 {
        self.rng.pick(&self.style.names)
    }

    fn new_scope(&mut self, at: At, flags: u16) -> u16 {
        let flags = self.scope_flags(flags);
        self.builder.scope(at.scope, flags)
    }

    /// The flag of a record's scope, or any flags; strict as it comes.
    fn scope_flags(&mut self, flag: u16) -> u16 {
        if self.rng.chance(15) {
            return self.rng.between(0, 31);
        }
        flag | self.rng.between(0, 1)
    }

    fn symbol_flags(&mut self) -> u16 {
        if self.rng.chance(15) {
            return self.rng.between(0, 127);
        }
        self.rng.pick(&[1, 2, 6, 6, 8, 17, 32, 64])
    }

    fn symbol_or_0(&mut self, at: At) -> u16 {
        if self.rng.chance(30) {
            return 0;
        }
        self.symbol(at)
    }

    /// A row, new or not; a new one most often stands in the scope at hand.
    fn symbol(&mut self, at: At) -> u16 {
        let count = self.builder.symbol_count();
        if count > 0 && !self.rng.chance(self.style.new_symbols) {
            let recent = if self.rng.chance(50) {
                count.min(4)
            } else {
                count
            };
            return count - self.rng.between(0, recent - 1);
        }
        let scope = match self.rng.below(100) {
            0..65 => at.scope,
            65..80 => at.hoist,
            80..88 => 1,
            _ => self.rng.between(1, self.builder.scope_count()),
        };
        let (name, flags) = (self.name(), self.symbol_flags());
        let made = u16::from(self.rng.chance(12));
        self.builder.symbol(Symbol {
            name,
            flags,
            scope,
            made,
        })
    }

    /// Rows that no record names: `babelHelpers` here and there, and copies with other flags.
    fn add_unused_symbols(&mut self) {
        let scopes = self.builder.scope_count();
        if self.rng.chance(35) {
            for _ in 0..1 + self.rng.place(3) {
                let (scope, flags) = (self.rng.between(1, scopes), self.symbol_flags());
                let made = u16::from(self.rng.chance(15));
                self.builder.symbol(Symbol {
                    name: 1,
                    flags,
                    scope,
                    made,
                });
            }
        }
        if self.rng.chance(25) && self.builder.symbol_count() > 0 {
            for _ in 0..1 + self.rng.place(3) {
                let mut symbol = self.rng.pick(&self.builder.symbols);
                symbol.flags = self.symbol_flags();
                self.builder.symbol(symbol);
            }
        }
        if self.rng.chance(15) {
            let (name, flags) = (self.name(), self.symbol_flags());
            let scope = self.rng.between(1, scopes);
            self.builder.symbol(Symbol {
                name,
                flags,
                scope,
                made: 0,
            });
        }
    }

    /// Puts some symbols into other scopes, also into such as were made after them.
    fn scatter_symbols(&mut self) {
        let percent = self.rng.pick(&[0, 0, 5, 30]);
        let scopes = self.builder.scope_count();
        for at in 0..self.builder.symbols.len() {
            if self.rng.chance(percent) {
                self.builder.symbols[at].scope = self.rng.between(1, scopes);
            }
        }
    }

    fn write(self, mode: u16) -> Vec<u8> {
        let Generator { rng, builder, .. } = self;
        let mut scopes: Vec<u16> = (1..=builder.scope_count()).collect();
        let mut symbols: Vec<u16> = (1..=builder.symbol_count()).collect();
        if rng.chance(60) {
            rng.shuffle(&mut scopes[1..]);
        }
        if rng.chance(60) {
            rng.shuffle(&mut symbols);
        }
        let module = rng.between(0, 1);
        builder.write_ordered(mode, module, &scopes, &symbols)
    }
}
