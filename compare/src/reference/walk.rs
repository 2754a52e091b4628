//! The walk over a tree, one visit at a time.

use super::charges::{figures, ReadBindings};
use super::explicit_resource_management::{ExplicitResourceManagement, Surroundings};
use super::mentions::mentions;
use super::parse::{mode, parse, Settings, Tree};
use super::tag;
use super::tree::{kind, Mark, Node, NodeId};
use super::{Figures, Lent, Refusal};

/// A record of the tree.
#[derive(Clone, Copy, PartialEq, Eq, Debug)]
pub struct Record {
    pub tag: u8,
    /// As in the file, the rest 0.
    pub numbers: [u16; 4],
    /// How many numbers the tag has.
    pub count: usize,
}

/// A record that was entered and not left, by its place in file order, with the number of its children still to enter.
#[derive(Clone, Copy, PartialEq, Eq, Debug)]
pub struct Open {
    pub row: usize,
    pub left: usize,
}

#[derive(Clone, Copy)]
enum Next {
    Enter(NodeId),
    /// Leave the static block on top of the stack.
    Leave,
    Nothing,
}

/// A record that was entered and not left.
struct Frame {
    node: NodeId,
    /// For its children.
    surroundings: Surroundings,
}

pub struct Walk {
    pub(super) pass: ExplicitResourceManagement,
    pub(super) settings: Settings,
    /// The figures that the tree will have in the end.
    pub(super) expected: Figures,
    stack: Vec<Frame>,
    next: Next,
    visited: usize,
}

impl Walk {
    /// Reads a file for a walk.
    pub fn start(file: &[u8], lent: Lent) -> Result<Walk, Refusal> {
        let (mut tree, read, expected) = read(file)?;
        let needed = [expected.records, expected.scopes, expected.symbols];
        let rows = [lent.records, lent.scopes, lent.symbols];
        if let Some(place) = (0..3).find(|&at| needed[at] > rows[at] as u64) {
            return Err(Refusal { number: 9, place });
        }
        tree.nodes.reserve(expected.records as usize);
        tree.scoping
            .reserve(expected.scopes as usize, expected.symbols as usize);
        Ok(Walk {
            settings: tree.settings,
            pass: ExplicitResourceManagement::new(tree, read),
            expected,
            stack: Vec::new(),
            next: Next::Enter(NodeId::PROGRAM),
            visited: 0,
        })
    }

    /// Makes the next visit, if one is left; after the last one the helper is imported, if it has to be.
    pub fn visit(&mut self) {
        match self.next {
            Next::Enter(id) => self.enter(id),
            Next::Leave => self.leave(),
            Next::Nothing => return,
        }
        if self.is_over() {
            self.visited += self.pass.add_import();
        }
    }

    /// Whether no visit is left.
    pub fn is_over(&self) -> bool {
        matches!(self.next, Next::Nothing)
    }

    /// How many records, in file order as the tree now stands, lie behind the walk.
    pub fn visited(&self) -> usize {
        self.visited
    }

    /// Parent and flags of each scope row.
    pub fn scopes(&self) -> Vec<[u16; 2]> {
        self.pass
            .scoping
            .scopes()
            .iter()
            .map(|row| [row.parent, row.flags])
            .collect()
    }

    /// Name, flags, scope and made of each symbol row, and how often records name it.
    pub fn symbols(&self) -> Vec<[u16; 5]> {
        let rows = self.pass.scoping.symbols().iter();
        rows.zip(self.mentions())
            .map(|(row, count)| [row.name, row.flags, row.scope, row.made, count])
            .collect()
    }

    /// How often the records of the tree as it stands name each symbol row.
    pub fn mentions(&self) -> Vec<u16> {
        mentions(&self.pass.nodes, self.pass.scoping.symbol_count())
    }

    /// The records in file order.
    pub fn records(&self) -> Vec<Record> {
        let record = |node: &Node| Record {
            tag: node.tag,
            numbers: node.numbers,
            count: tag::count(node.tag),
        };
        self.pass
            .nodes
            .preorder(NodeId::PROGRAM)
            .map(record)
            .collect()
    }

    /// How many contexts were made so far.
    pub fn contexts(&self) -> u64 {
        self.pass.contexts
    }

    /// The symbol of the runtime helper, or 0 while there is none.
    pub fn helper(&self) -> u16 {
        self.pass.helper_loader.loaded
    }

    /// The open records, the outermost first.
    pub fn open(&self) -> Vec<Open> {
        let rows = self.rows();
        let row = |id: NodeId| rows.iter().position(|&other| other == id);
        let below = self.stack.iter().skip(1).map(|frame| Some(frame.node));
        let next = match self.next {
            Next::Enter(id) => Some(id),
            _ => None,
        };
        let innermost = self.stack.len().wrapping_sub(1);
        let children = below.chain([next]).enumerate();
        let pairs = self.stack.iter().zip(children);
        pairs
            .filter_map(|(frame, (depth, child))| {
                let from = child.map_or(0, |id| self.siblings_from(id));
                let left = from - usize::from(depth != innermost);
                row(frame.node).map(|row| Open { row, left })
            })
            .collect()
    }

    /// The top-level declarations that were `using`, by their place in file order, with the kind that they had.
    pub fn recorded(&self) -> Vec<(usize, u16)> {
        let rows = self.rows();
        let marks = rows.iter().enumerate();
        marks
            .filter_map(|(row, &id)| match self.pass.nodes[id].mark {
                Mark::TopLevelUsing => Some((row, kind::USING)),
                Mark::TopLevelAwaitUsing => Some((row, kind::AWAIT_USING)),
                _ => None,
            })
            .collect()
    }

    /// The nodes in file order.
    fn rows(&self) -> Vec<NodeId> {
        let mut walk = self.pass.nodes.preorder(NodeId::PROGRAM);
        let mut rows = vec![walk.upcoming()];
        while walk.next().is_some() {
            rows.push(walk.upcoming());
        }
        rows.pop();
        rows
    }

    /// How many siblings there are from a node on.
    fn siblings_from(&self, id: NodeId) -> usize {
        let mut at = id;
        let mut count = 0;
        while !at.is_none() {
            count += 1;
            at = self.pass.nodes[at].next;
        }
        count
    }

    fn enter(&mut self, id: NodeId) {
        self.visited += 1;
        let (parent, at) = match self.stack.last() {
            Some(frame) => (self.pass.nodes[frame.node].tag, frame.surroundings),
            None => (
                0,
                Surroundings {
                    current_scope: 0,
                    hoist_scope: 0,
                },
            ),
        };
        self.rewrite(id, parent, at);
        let node = &self.pass.nodes[id];
        if node.first.is_none() && node.tag != tag::STATIC_BLOCK {
            self.go_on_after(id);
            return;
        }
        self.next = if node.first.is_none() {
            Next::Leave
        } else {
            Next::Enter(node.first)
        };
        self.stack.push(Frame {
            node: id,
            surroundings: inside(node, at),
        });
    }

    /// The rewrite at the visit to a record, by its tag and its parent's.
    fn rewrite(&mut self, id: NodeId, parent: u8, at: Surroundings) {
        match self.pass.nodes[id].tag {
            tag::PROGRAM => self.pass.enter_program(id),
            tag::BLOCK if parent != tag::TRY && parent != tag::CATCH => {
                self.pass.transform_block_statement(id, at);
            }
            // The outermost label has done it for those under it.
            tag::LABEL if parent != tag::LABEL => self.pass.transform_for_statement(id, at),
            tag::FOR => self.pass.transform_for_statement(id, at),
            tag::FOR_OF => self.pass.enter_for_of_statement(id),
            tag::SWITCH => self.pass.transform_switch_statement(id, at),
            tag::TRY => self.pass.enter_try_statement(id, at),
            tag::BODY => self.pass.enter_function_body(id, at),
            _ => {}
        }
    }

    fn leave(&mut self) {
        let Some(Frame { node, .. }) = self.stack.pop() else {
            return;
        };
        let before = self.pass.nodes.len();
        self.pass.exit_static_block(node);
        // What was made here is behind the walk at once.
        self.visited += self.pass.nodes.len() - before;
        self.go_on_after(node);
    }

    /// Finds the visit that follows when all below `id` is done.
    fn go_on_after(&mut self, id: NodeId) {
        let mut done = id;
        loop {
            let next = self.pass.nodes[done].next;
            if !next.is_none() {
                self.next = Next::Enter(next);
                return;
            }
            let Some(frame) = self.stack.last() else {
                self.next = Next::Nothing;
                return;
            };
            if self.pass.nodes[frame.node].tag == tag::STATIC_BLOCK {
                self.next = Next::Leave;
                return;
            }
            done = frame.node;
            self.stack.pop();
        }
    }
}

/// The surroundings of the children of a record that has these itself.
fn inside(node: &Node, around: Surroundings) -> Surroundings {
    let scope = node.scope();
    let current_scope = if scope != 0 {
        scope
    } else {
        around.current_scope
    };
    let hoist_scope = match node.tag {
        tag::PROGRAM | tag::FUNCTION | tag::STATIC_BLOCK => scope,
        _ => around.hoist_scope,
    };
    Surroundings {
        current_scope,
        hoist_scope,
    }
}

/// Reads a file, with its final figures; refuses inline mode if a context has to be made.
pub(super) fn read(file: &[u8]) -> Result<(Tree, ReadBindings, Figures), Refusal> {
    let tree = parse(file)?;
    let read = if tree.has_for_of_using {
        ReadBindings::new(&tree.scoping)
    } else {
        ReadBindings::default()
    };
    let figures = figures(&tree, &read, file.len());
    if figures.contexts > 0 && tree.settings.mode == mode::INLINE {
        return Err(Refusal {
            number: 8,
            place: 0,
        });
    }
    Ok((tree, read, figures))
}

#[cfg(test)]
mod tests {
    use super::*;
    use crate::generate::{valid, Rng};

    /// The record to enter next is the first that is not behind the walk.
    fn stands_where_it_says(walk: &Walk) -> bool {
        let nodes = &walk.pass.nodes;
        let at = nodes.preorder(NodeId::PROGRAM).nth(walk.visited);
        match walk.next {
            Next::Enter(id) => at.is_some_and(|node| std::ptr::eq(node, &nodes[id])),
            Next::Leave => true,
            Next::Nothing => at.is_none(),
        }
    }

    #[test]
    fn visited_is_the_position() {
        let mut rng = Rng::new(4);
        let lent = Lent {
            records: 65_535,
            scopes: 65_535,
            symbols: 65_535,
            out: 0,
        };
        for _ in 0..3_000 {
            let Ok(mut walk) = Walk::start(&valid(&mut rng), lent) else {
                continue;
            };
            while !walk.is_over() {
                assert!(stands_where_it_says(&walk));
                walk.visit();
            }
            assert!(stands_where_it_says(&walk));
        }
    }
}
