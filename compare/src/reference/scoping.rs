//! Scope rows and symbol rows, and which symbols a scope binds.

/// Scope flags.
pub mod scope_flags {
    pub const STRICT: u16 = 1;
    pub const CATCH_CLAUSE: u16 = 2;
    pub const CLASS_STATIC_BLOCK: u16 = 4;
    pub const ALL: u16 = 31;
}

/// Symbol flags.
pub mod symbol_flags {
    pub const FUNCTION_SCOPED_VARIABLE: u16 = 1;
    pub const BLOCK_SCOPED_VARIABLE: u16 = 2;
    pub const CONST_VARIABLE: u16 = 4;
    pub const CLASS: u16 = 8;
    pub const CATCH_VARIABLE: u16 = 16;
    pub const IMPORT: u16 = 32;
    pub const ALL: u16 = 127;
}

/// Names that the pass knows.
pub mod name {
    pub const BABEL_HELPERS: u16 = 1;
    pub const UNDERSCORE: u16 = 2;
    pub const DEFAULT: u16 = 3;
    pub const UNDERSCORE_DEFAULT: u16 = 4;
    pub const USING_CTX: u16 = 5;
}

/// The scope of the program.
pub const ROOT_SCOPE: u16 = 1;

#[derive(Clone, Copy, Default)]
pub struct Scope {
    pub parent: u16,
    pub flags: u16,
    /// The head of the list of the symbols in this scope, which is in no order.
    first_symbol: u16,
    /// The symbol that this scope binds `babelHelpers` to, or 0.
    babel_helpers: u16,
}

#[derive(Clone, Copy, Default)]
pub struct Symbol {
    pub name: u16,
    pub flags: u16,
    pub scope: u16,
    /// 1 for a unique name built on `name`, which equals no other.
    pub made: u16,
    /// Neighbours in the list of the scope.
    previous: u16,
    next: u16,
}

impl Symbol {
    fn is_babel_helpers(&self) -> bool {
        self.name == name::BABEL_HELPERS && self.made == 0
    }
}

/// Rows are counted from 1; place 0 of both tables is an unused row.
pub struct Scoping {
    scopes: Vec<Scope>,
    symbols: Vec<Symbol>,
}

impl Default for Scoping {
    fn default() -> Scoping {
        Scoping {
            scopes: vec![Scope::default()],
            symbols: vec![Symbol::default()],
        }
    }
}

impl Scoping {
    pub fn scope_count(&self) -> usize {
        self.scopes.len() - 1
    }

    pub fn symbol_count(&self) -> usize {
        self.symbols.len() - 1
    }

    pub fn scopes(&self) -> &[Scope] {
        &self.scopes[1..]
    }

    pub fn symbols(&self) -> &[Symbol] {
        &self.symbols[1..]
    }

    pub fn scope(&self, row: u16) -> &Scope {
        &self.scopes[usize::from(row)]
    }

    pub fn symbol(&self, row: u16) -> &Symbol {
        &self.symbols[usize::from(row)]
    }

    /// Makes room so that there can be this many rows.
    pub fn reserve(&mut self, scopes: usize, symbols: usize) {
        self.scopes
            .reserve_exact((scopes + 1).saturating_sub(self.scopes.len()));
        self.symbols
            .reserve_exact((symbols + 1).saturating_sub(self.symbols.len()));
    }

    /// A scope with just these flags.
    pub fn add_scope(&mut self, parent: u16, flags: u16) -> u16 {
        let row = self.scopes.len() as u16;
        self.scopes.push(Scope {
            parent,
            flags,
            ..Scope::default()
        });
        row
    }

    /// A scope with these flags, strict if its parent is.
    pub fn create_child_scope(&mut self, parent: u16, flags: u16) -> u16 {
        let strict = self.scope(parent).flags & scope_flags::STRICT;
        self.add_scope(parent, flags | strict)
    }

    pub fn insert_scope_between(&mut self, parent: u16, child: u16, flags: u16) -> u16 {
        let row = self.create_child_scope(parent, flags);
        self.change_scope_parent(child, row);
        row
    }

    pub fn change_scope_parent(&mut self, scope: u16, parent: u16) {
        self.scopes[usize::from(scope)].parent = parent;
    }

    pub fn set_scope_flags(&mut self, scope: u16, flags: u16) {
        self.scopes[usize::from(scope)].flags = flags;
    }

    pub fn create_symbol(&mut self, name: u16, flags: u16, scope: u16, made: u16) -> u16 {
        let row = self.symbols.len() as u16;
        self.symbols.push(Symbol {
            name,
            flags,
            scope,
            made,
            previous: 0,
            next: 0,
        });
        self.link(row, scope);
        row
    }

    /// A symbol with a unique name built on `base`.
    pub fn generate_uid(&mut self, base: u16, scope: u16, flags: u16) -> u16 {
        self.create_symbol(base, flags, scope, 1)
    }

    /// A symbol with just this name.
    pub fn generate_binding(&mut self, name: u16, scope: u16, flags: u16) -> u16 {
        self.create_symbol(name, flags, scope, 0)
    }

    pub fn set_symbol_flags(&mut self, symbol: u16, flags: u16) {
        self.symbols[usize::from(symbol)].flags = flags;
    }

    pub fn move_binding(&mut self, symbol: u16, scope: u16) {
        self.unlink(symbol);
        self.symbols[usize::from(symbol)].scope = scope;
        self.link(symbol, scope);
    }

    fn link(&mut self, row: u16, scope: u16) {
        let head = &mut self.scopes[usize::from(scope)];
        let second = std::mem::replace(&mut head.first_symbol, row);
        let symbol = &mut self.symbols[usize::from(row)];
        symbol.previous = 0;
        symbol.next = second;
        if symbol.is_babel_helpers() {
            head.babel_helpers = head.babel_helpers.max(row);
        }
        if second != 0 {
            self.symbols[usize::from(second)].previous = row;
        }
    }

    fn unlink(&mut self, row: u16) {
        let symbol = self.symbols[usize::from(row)];
        if symbol.previous == 0 {
            self.scopes[usize::from(symbol.scope)].first_symbol = symbol.next;
        } else {
            self.symbols[usize::from(symbol.previous)].next = symbol.next;
        }
        if symbol.next != 0 {
            self.symbols[usize::from(symbol.next)].previous = symbol.previous;
        }
        if self.scope(symbol.scope).babel_helpers == row {
            let others = self.symbols_in(symbol.scope);
            let last = others
                .filter(|&other| self.symbol(other).is_babel_helpers())
                .max();
            self.scopes[usize::from(symbol.scope)].babel_helpers = last.unwrap_or(0);
        }
    }

    /// The symbols that stand in a scope, in no order, those that it does not bind included.
    fn symbols_in(&self, scope: u16) -> impl Iterator<Item = u16> + '_ {
        let row = |row: u16| (row != 0).then_some(row);
        let first = row(self.scope(scope).first_symbol);
        std::iter::successors(first, move |&at| row(self.symbol(at).next))
    }

    /// The symbols that a scope binds: of several with the same name the last.
    pub fn bindings_in(&self, scope: u16) -> Vec<u16> {
        let mut rows: Vec<u16> = self.symbols_in(scope).collect();
        let key = |row: u16| (self.symbol(row).made, self.symbol(row).name);
        rows.sort_unstable_by_key(|&row| (key(row), std::cmp::Reverse(row)));
        rows.dedup_by(|later, kept| key(*kept).0 == 0 && key(*later) == key(*kept));
        rows
    }

    /// The symbol of `babelHelpers` seen from a scope, or 0.
    pub fn find_babel_helpers(&self, scope: u16) -> u16 {
        let mut at = scope;
        while at != 0 {
            let row = self.scope(at);
            if row.babel_helpers != 0 {
                return row.babel_helpers;
            }
            at = row.parent;
        }
        0
    }
}
