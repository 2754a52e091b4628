//! The pass: what is rewritten when the walk enters a record, or leaves a static block.

use super::charges::{for_of_using, ReadBindings};
use super::helper_loader::HelperLoader;
use super::parse::Tree;
use super::scoping::{name, scope_flags, symbol_flags, Scoping, ROOT_SCOPE};
use super::tag;
use super::tree::{kind, line_form, List, Mark, NodeId, Nodes};

/// Where the walk stands.
#[derive(Clone, Copy)]
pub struct Surroundings {
    /// The scope of the nearest record around that has one.
    pub current_scope: u16,
    /// The scope of the nearest program, function or static block around.
    pub hoist_scope: u16,
}

/// A context that was made for the usings of a list.
struct UsingCtx {
    symbol: u16,
    needs_await: bool,
}

pub struct ExplicitResourceManagement {
    pub nodes: Nodes,
    pub scoping: Scoping,
    pub helper_loader: HelperLoader,
    /// How many contexts were made.
    pub contexts: u64,
    /// The helper is to be imported when the walk is over.
    imports_helper: bool,
    read: ReadBindings,
}

impl ExplicitResourceManagement {
    pub fn new(tree: Tree, read: ReadBindings) -> ExplicitResourceManagement {
        ExplicitResourceManagement {
            helper_loader: HelperLoader::new(tree.settings),
            nodes: tree.nodes,
            scoping: tree.scoping,
            contexts: 0,
            imports_helper: false,
            read,
        }
    }

    /// Moves a `using` on the left of a `for .. of` into its body, where the visit to the body's
    /// block does the rest.
    pub fn enter_for_of_statement(&mut self, id: NodeId) {
        let parts = for_of_using(&self.nodes, &self.scoping, &self.read, id);
        let Some(parts) = parts else { return };
        let for_of_scope = self.nodes[id].scope();
        let using_kind = self.nodes[parts.declaration].numbers[0];
        let symbol = self.nodes[parts.name].numbers[0];
        let temp = self.scoping.generate_uid(
            self.scoping.symbol(symbol).name,
            for_of_scope,
            symbol_flags::CONST_VARIABLE | symbol_flags::BLOCK_SCOPED_VARIABLE,
        );
        self.nodes[parts.name].numbers[0] = temp;
        self.nodes[parts.declaration].numbers[0] = kind::CONST;
        let init = self.nodes.make(tag::READ, [temp, 0, 0, 0], &[]);
        let using_stmt = self.variable_declaration(using_kind, symbol, init);
        if parts.goes_into_body {
            let body_scope = self.nodes[parts.body].scope();
            self.scoping.move_binding(symbol, body_scope);
            self.nodes.insert_first(parts.body, using_stmt);
            return;
        }
        let scope = self.scoping.create_child_scope(for_of_scope, 0);
        self.change_outermost_scope_parents(parts.body, scope);
        self.scoping.move_binding(symbol, scope);
        let old_body = self.nodes.move_out(parts.body);
        self.nodes[using_stmt].next = old_body;
        self.nodes
            .put(parts.body, tag::BLOCK, [scope, 2, 0, 0], using_stmt);
    }

    pub fn exit_static_block(&mut self, id: NodeId) {
        let scope = self.nodes[id].scope();
        let Some(using_ctx) = self.transform_statements(id, scope, scope) else {
            return;
        };
        let parent = self.scoping.scope(scope).parent;
        let new_scope =
            self.scoping
                .insert_scope_between(parent, scope, scope_flags::CLASS_STATIC_BLOCK);
        self.scoping.move_binding(using_ctx.symbol, new_scope);
        self.scoping.set_scope_flags(scope, scope_flags::STRICT);
        self.nodes[id].numbers[0] = new_scope;
        self.wrap_list(id, scope, &using_ctx, new_scope);
    }

    pub fn enter_function_body(&mut self, id: NodeId, at: Surroundings) {
        let Some(using_ctx) = self.transform_statements(id, at.hoist_scope, at.current_scope)
        else {
            return;
        };
        let block_scope = self.scoping.create_child_scope(at.current_scope, 0);
        self.change_outermost_scope_parents(self.nodes[id].first, block_scope);
        const MOVED: u16 = symbol_flags::BLOCK_SCOPED_VARIABLE | symbol_flags::CLASS;
        for symbol in self.scoping.bindings_in(at.current_scope) {
            if self.scoping.symbol(symbol).flags & MOVED != 0 {
                self.scoping.move_binding(symbol, block_scope);
            }
        }
        self.wrap_list(id, block_scope, &using_ctx, at.current_scope);
    }

    pub fn enter_try_statement(&mut self, id: NodeId, at: Surroundings) {
        let mut part = self.nodes[id].first;
        while !part.is_none() {
            if self.nodes[part].tag == tag::CATCH {
                self.transform_handler(part, at);
            } else {
                self.transform_try_block(part, at);
            }
            part = self.nodes[part].next;
        }
    }

    fn transform_handler(&mut self, handler: NodeId, at: Surroundings) {
        let names = self.nodes[handler].numbers[1];
        let first = self.nodes[handler].first;
        let body = self.nodes.children(handler).nth(usize::from(names));
        let Some(new_scope) = body.and_then(|body| self.transform_try_block(body, at)) else {
            return;
        };
        let mut param = first;
        for _ in 0..names {
            self.scoping
                .move_binding(self.nodes[param].numbers[0], new_scope);
            param = self.nodes[param].next;
        }
    }

    /// Moves what stands directly in a program with a top-level `using` into a block, functions and
    /// module lines apart.
    pub fn enter_program(&mut self, id: NodeId) {
        if !self
            .nodes
            .children(id)
            .any(|item| self.nodes[item].is_using())
        {
            return;
        }
        let mut program_body = List::new();
        let mut inner_block = List::new();
        let mut rest = self.nodes[id].first;
        while !rest.is_none() {
            let item = rest;
            rest = self.nodes[item].next;
            self.sort_program_item(item, &mut program_body, &mut inner_block);
        }
        let block_scope = self.scoping.create_child_scope(ROOT_SCOPE, 0);
        self.change_outermost_scope_parents(inner_block.first, block_scope);
        let block = self
            .nodes
            .make(tag::BLOCK, [block_scope, inner_block.count, 0, 0], &[]);
        self.nodes[block].first = inner_block.first;
        program_body.push(&mut self.nodes, block);
        self.nodes[id].first = program_body.first;
        self.nodes[id].set_child_count(program_body.count);
    }

    fn sort_program_item(&mut self, item: NodeId, program_body: &mut List, inner_block: &mut List) {
        let child = self.nodes[item].first;
        let moved = match self.nodes[item].tag {
            tag::FUNCTION | tag::MODULE_LINE => None,
            tag::DEFAULT_EXPORT => self.transform_default_export(item, child),
            tag::EXPORTED_DECLARATION => self.transform_exported_declaration(item, child),
            tag::CLASS => {
                let class = self.transform_class_decl(item);
                inner_block.push(&mut self.nodes, class);
                return;
            }
            tag::DECLARATION => {
                self.record_top_level_using(item);
                self.make_var(item);
                inner_block.push(&mut self.nodes, item);
                return;
            }
            _ => {
                inner_block.push(&mut self.nodes, item);
                return;
            }
        };
        if let Some(moved) = moved {
            inner_block.push(&mut self.nodes, moved);
        }
        program_body.push(&mut self.nodes, item);
    }

    /// Hands back what goes into the block. The export itself becomes a line that names it.
    fn transform_default_export(&mut self, item: NodeId, child: NodeId) -> Option<NodeId> {
        let [form, _, symbol, _] = self.nodes[child].numbers;
        let var = match (self.nodes[child].tag, form) {
            (tag::FUNCTION, 0) => return None,
            (tag::CLASS, 0) if symbol != 0 => self.preserve_class_expression_name(child),
            _ => self.scoping.generate_binding(
                name::UNDERSCORE_DEFAULT,
                ROOT_SCOPE,
                symbol_flags::FUNCTION_SCOPED_VARIABLE,
            ),
        };
        if self.nodes[child].tag == tag::CLASS {
            self.nodes[child].numbers[0] = 1;
        }
        self.put_export_named(item, &[(var, name::DEFAULT)]);
        Some(self.variable_declaration(kind::VAR, var, child))
    }

    fn transform_exported_declaration(&mut self, item: NodeId, child: NodeId) -> Option<NodeId> {
        match self.nodes[child].tag {
            tag::CLASS => {
                let symbol = self.nodes[child].numbers[2];
                self.put_export_named(item, &[(symbol, self.scoping.symbol(symbol).name)]);
                Some(self.transform_class_decl(child))
            }
            tag::DECLARATION => {
                let symbols = self.make_var(child);
                let with_name = |symbol: u16| (symbol, self.scoping.symbol(symbol).name);
                let exported: Vec<_> = symbols.into_iter().map(with_name).collect();
                self.put_export_named(item, &exported);
                Some(child)
            }
            _ => None,
        }
    }

    /// Puts `export { symbol as name, .. }` in the place of an item.
    fn put_export_named(&mut self, item: NodeId, exported: &[(u16, u16)]) {
        let mut specifiers = List::new();
        for &(symbol, name) in exported {
            let specifier = self.nodes.make(tag::SPECIFIER, [symbol, name, 0, 0], &[]);
            specifiers.push(&mut self.nodes, specifier);
        }
        self.nodes.put(
            item,
            tag::MODULE_LINE,
            [2, 0, specifiers.count, 0],
            specifiers.first,
        );
    }

    fn record_top_level_using(&mut self, declaration: NodeId) {
        let declaration = &mut self.nodes[declaration];
        declaration.mark = match declaration.numbers[0] {
            kind::USING => Mark::TopLevelUsing,
            kind::AWAIT_USING => Mark::TopLevelAwaitUsing,
            _ => return,
        };
    }

    /// Turns a declaration into `var`; hands back the symbols of its names.
    fn make_var(&mut self, declaration: NodeId) -> Vec<u16> {
        self.nodes[declaration].numbers[0] = kind::VAR;
        let mut symbols = Vec::new();
        for declarator in self.nodes.children(declaration) {
            let names = usize::from(self.nodes[declarator].numbers[1]);
            for name in self.nodes.children(declarator).take(names) {
                let symbol = self.nodes[name].numbers[0];
                self.scoping
                    .set_symbol_flags(symbol, symbol_flags::FUNCTION_SCOPED_VARIABLE);
                symbols.push(symbol);
            }
        }
        symbols
    }

    /// Wraps the list of a part of a `try`. Hands back the part's new scope if there is one.
    fn transform_try_block(&mut self, id: NodeId, at: Surroundings) -> Option<u16> {
        let scope = self.nodes[id].scope();
        let using_ctx = self.transform_statements(id, scope, at.current_scope)?;
        let parent = self.scoping.scope(scope).parent;
        let new_scope = self.scoping.insert_scope_between(parent, scope, 0);
        self.nodes[id].numbers[0] = new_scope;
        self.wrap_list(id, scope, &using_ctx, new_scope);
        self.scoping.move_binding(using_ctx.symbol, at.hoist_scope);
        Some(new_scope)
    }

    /// A `for` with usings, perhaps under labels: the whole goes into a `try`.
    pub fn transform_for_statement(&mut self, id: NodeId, at: Surroundings) {
        let mut loop_stmt = id;
        while self.nodes[loop_stmt].tag == tag::LABEL {
            loop_stmt = self.nodes[loop_stmt].first;
        }
        let decl = self.nodes[loop_stmt].first;
        if self.nodes[loop_stmt].tag != tag::FOR || !self.nodes[decl].is_using() {
            return;
        }
        let needs_await = self.nodes[decl].numbers[0] == kind::AWAIT_USING;
        let symbol = self.generate_using_ctx(at.hoist_scope);
        self.nodes[decl].numbers[0] = kind::CONST;
        self.wrap_inits(decl, symbol, needs_await);
        let for_scope = self.nodes[loop_stmt].scope();
        let using_ctx = UsingCtx {
            symbol,
            needs_await,
        };
        self.wrap_statement(id, for_scope, &using_ctx, at.current_scope);
    }

    pub fn transform_block_statement(&mut self, id: NodeId, at: Surroundings) {
        let using_ctx = self.transform_statements(id, at.hoist_scope, at.current_scope);
        let Some(using_ctx) = using_ctx else { return };
        let block = self.nodes.move_out(id);
        self.put_try_stmt(id, block, &using_ctx, at.current_scope);
    }

    pub fn transform_switch_statement(&mut self, id: NodeId, at: Surroundings) {
        let mut using_ctx: Option<UsingCtx> = None;
        let mut case = self.nodes[self.nodes[id].first].next;
        while !case.is_none() {
            let mut item = self.nodes[case].first;
            while !item.is_none() {
                if self.nodes[item].is_using() {
                    let is_await = self.nodes[item].numbers[0] == kind::AWAIT_USING;
                    let ctx = self.need_using_ctx(&mut using_ctx, at.current_scope, is_await);
                    let symbol = ctx.symbol;
                    self.nodes[item].numbers[0] = kind::CONST;
                    // The declaration's own letter; oxc's follows all the usings of the switch so far.
                    self.wrap_inits(item, symbol, is_await);
                }
                item = self.nodes[item].next;
            }
            case = self.nodes[case].next;
        }
        let Some(using_ctx) = using_ctx else { return };
        let switch_scope = self.nodes[id].scope();
        self.wrap_statement(id, switch_scope, &using_ctx, at.current_scope);
    }

    /// Rewrites the usings that stand directly in the list of `owner` and puts the declaration of
    /// their context before it; nothing happens if there is none.
    fn transform_statements(
        &mut self,
        owner: NodeId,
        hoist_scope: u16,
        current_scope: u16,
    ) -> Option<UsingCtx> {
        let mut using_ctx = None;
        let mut item = self.nodes[owner].first;
        while !item.is_none() {
            if self.nodes[item].tag == tag::DECLARATION {
                self.transform_declaration(item, hoist_scope, &mut using_ctx);
            }
            item = self.nodes[item].next;
        }
        let using_ctx = using_ctx?;
        let context_stmt = self.context_declaration(using_ctx.symbol, current_scope);
        self.nodes.insert_first(owner, context_stmt);
        Some(using_ctx)
    }

    fn transform_declaration(
        &mut self,
        item: NodeId,
        hoist_scope: u16,
        using_ctx: &mut Option<UsingCtx>,
    ) {
        let declaration = &mut self.nodes[item];
        let is_await = match (declaration.mark, declaration.numbers[0]) {
            (mark @ (Mark::TopLevelUsing | Mark::TopLevelAwaitUsing), _) => {
                declaration.mark = Mark::Nothing;
                mark == Mark::TopLevelAwaitUsing
            }
            (_, kind @ (kind::USING | kind::AWAIT_USING)) => {
                declaration.numbers[0] = kind::CONST;
                kind == kind::AWAIT_USING
            }
            _ => return,
        };
        let symbol = self.need_using_ctx(using_ctx, hoist_scope, is_await).symbol;
        self.wrap_inits(item, symbol, is_await);
    }

    /// The context of a list, made when its first using is met.
    fn need_using_ctx<'c>(
        &mut self,
        using_ctx: &'c mut Option<UsingCtx>,
        scope: u16,
        is_await: bool,
    ) -> &'c UsingCtx {
        let ctx = using_ctx.get_or_insert_with(|| UsingCtx {
            symbol: self.generate_using_ctx(scope),
            needs_await: false,
        });
        ctx.needs_await |= is_await;
        ctx
    }

    fn generate_using_ctx(&mut self, scope: u16) -> u16 {
        self.contexts += 1;
        let flags = symbol_flags::FUNCTION_SCOPED_VARIABLE;
        self.scoping.generate_uid(name::USING_CTX, scope, flags)
    }

    /// `init` -> `_usingCtx.u(init)` or `_usingCtx.a(init)` in each declarator that has one.
    fn wrap_inits(&mut self, declaration: NodeId, using_ctx: u16, is_await: bool) {
        let mut declarator = self.nodes[declaration].first;
        while !declarator.is_none() {
            if self.nodes[declarator].has_init() {
                let mut init = self.nodes[declarator].first;
                while !self.nodes[init].next.is_none() {
                    init = self.nodes[init].next;
                }
                let old_init = self.nodes.move_out(init);
                let numbers = [u16::from(is_await), using_ctx, 1, 0];
                self.nodes.put(init, tag::CALL, numbers, old_init);
            }
            declarator = self.nodes[declarator].next;
        }
    }

    /// `var _usingCtx = usingCtx();`
    fn context_declaration(&mut self, using_ctx: u16, current_scope: u16) -> NodeId {
        let loader = &mut self.helper_loader;
        let load = loader.helper_load(&mut self.nodes, &mut self.scoping, current_scope);
        if load.first {
            self.imports_helper = loader.is_imported();
        }
        self.variable_declaration(kind::VAR, using_ctx, load.node)
    }

    /// `import { default as helper }` before all that stands in Program; how many records were made.
    pub fn add_import(&mut self) -> usize {
        if !std::mem::take(&mut self.imports_helper) {
            return 0;
        }
        let numbers = [self.helper_loader.loaded, name::DEFAULT, 0, 0];
        let specifier = self.nodes.make(tag::SPECIFIER, numbers, &[]);
        let numbers = [line_form::IMPORT_HELPER, 0, 1, 0];
        let line = self.nodes.make(tag::MODULE_LINE, numbers, &[specifier]);
        self.nodes.insert_first(NodeId::PROGRAM, line);
        2
    }

    fn variable_declaration(&mut self, kind: u16, symbol: u16, init: NodeId) -> NodeId {
        let name = self.nodes.make(tag::NAME, [symbol, 0, 0, 0], &[]);
        let declarator = self
            .nodes
            .make(tag::DECLARATOR, [0, 1, 2, 0], &[name, init]);
        self.nodes
            .make(tag::DECLARATION, [kind, 1, 0, 0], &[declarator])
    }

    /// Puts a statement (a `for` or a `switch`, whose scope is `scope`) and the declaration of its
    /// context into a new block, and that into a `try` in the place of the statement.
    fn wrap_statement(&mut self, id: NodeId, scope: u16, using_ctx: &UsingCtx, current: u16) {
        let block_scope = self.scoping.insert_scope_between(current, scope, 0);
        let context_stmt = self.context_declaration(using_ctx.symbol, current);
        let stmt = self.nodes.move_out(id);
        let block = self
            .nodes
            .make(tag::BLOCK, [block_scope, 2, 0, 0], &[context_stmt, stmt]);
        self.put_try_stmt(id, block, using_ctx, current);
    }

    /// Moves the list of `owner` into a block with this scope, and that into a `try`, the only item
    /// that `owner` then has.
    fn wrap_list(&mut self, owner: NodeId, scope: u16, using_ctx: &UsingCtx, parent_scope: u16) {
        let count = self.nodes[owner].child_count();
        let list = self.nodes[owner].first;
        let block = self.nodes.make(tag::BLOCK, [scope, count, 0, 0], &[]);
        self.nodes[block].first = list;
        let try_stmt = self.nodes.make(tag::TRY, [0; 4], &[]);
        self.put_try_stmt(try_stmt, block, using_ctx, parent_scope);
        self.nodes[owner].first = try_stmt;
        self.nodes[owner].set_child_count(1);
    }

    /// `try { .. } catch (_) { _usingCtx.e = _; } finally { _usingCtx.d(); }` at a place.
    fn put_try_stmt(&mut self, at: NodeId, body: NodeId, using_ctx: &UsingCtx, parent_scope: u16) {
        let catch = self.create_catch_clause(using_ctx, parent_scope);
        let finally = self.create_finally_block(using_ctx, parent_scope);
        self.nodes[body].next = catch;
        self.nodes[catch].next = finally;
        self.nodes.put(at, tag::TRY, [3, 3, 0, 0], body);
    }

    /// `catch (_) { _usingCtx.e = _; }`
    fn create_catch_clause(&mut self, using_ctx: &UsingCtx, parent_scope: u16) -> NodeId {
        let scoping = &mut self.scoping;
        let catch_scope = scoping.create_child_scope(parent_scope, scope_flags::CATCH_CLAUSE);
        let block_scope = scoping.create_child_scope(catch_scope, 0);
        let flags = symbol_flags::CATCH_VARIABLE | symbol_flags::FUNCTION_SCOPED_VARIABLE;
        let ident = scoping.generate_binding(name::UNDERSCORE, block_scope, flags);
        let param = self.nodes.make(tag::NAME, [ident, 0, 0, 0], &[]);
        let step = self
            .nodes
            .make(tag::STEP, [0, using_ctx.symbol, ident, 0], &[]);
        let block = self.nodes.make(tag::BLOCK, [block_scope, 1, 0, 0], &[step]);
        self.nodes
            .make(tag::CATCH, [catch_scope, 1, 0, 2], &[param, block])
    }

    /// `{ _usingCtx.d(); }`, awaited if need be
    fn create_finally_block(&mut self, using_ctx: &UsingCtx, parent_scope: u16) -> NodeId {
        let scope = self.scoping.create_child_scope(parent_scope, 0);
        let form = if using_ctx.needs_await { 2 } else { 1 };
        let step = self
            .nodes
            .make(tag::STEP, [form, using_ctx.symbol, 0, 0], &[]);
        self.nodes.make(tag::BLOCK, [scope, 1, 0, 0], &[step])
    }

    /// `class C {}` -> `var C = class C {};`
    fn transform_class_decl(&mut self, class: NodeId) -> NodeId {
        let outer = self.preserve_class_expression_name(class);
        self.nodes[class].numbers[0] = 1;
        self.nodes[class].next = NodeId::NONE;
        self.variable_declaration(kind::VAR, outer, class)
    }

    /// Gives a class a symbol of its own in its own scope. The symbol that it had becomes a `var`
    /// and is handed back.
    fn preserve_class_expression_name(&mut self, class: NodeId) -> u16 {
        let [_, class_scope, outer, _] = self.nodes[class].numbers;
        let symbol = *self.scoping.symbol(outer);
        let flags = symbol_flags::CLASS;
        let inner = self
            .scoping
            .create_symbol(symbol.name, flags, class_scope, symbol.made);
        self.nodes[class].numbers[2] = inner;
        self.scoping
            .set_symbol_flags(outer, symbol_flags::FUNCTION_SCOPED_VARIABLE);
        outer
    }

    /// Makes `parent` the parent of the outermost scopes in a list, given by its first node.
    fn change_outermost_scope_parents(&mut self, list: NodeId, parent: u16) {
        let mut below = self.nodes.preorder(list);
        while let Some(node) = below.next_if(|node| node.scope() == 0) {
            let scope = node.scope();
            if scope != 0 {
                self.scoping.change_scope_parent(scope, parent);
            }
        }
    }
}
