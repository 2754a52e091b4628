//! The records of a tree, in an arena. A node knows its first child and its next sibling.

use std::ops::{Index, IndexMut};

use super::tag;

#[derive(Clone, Copy, PartialEq, Eq, Debug)]
pub struct NodeId(u32);

impl NodeId {
    /// No node: the end of a list.
    pub const NONE: NodeId = NodeId(u32::MAX);
    /// The first node read.
    pub const PROGRAM: NodeId = NodeId(0);

    pub fn is_none(self) -> bool {
        self == NodeId::NONE
    }
}

/// What is remembered of a node besides its record.
#[derive(Clone, Copy, PartialEq, Eq, Debug)]
pub enum Mark {
    Nothing,
    /// A block that stands under a `try` or a `catch`, as read.
    TryPart,
    /// A top-level declaration that was `using` before the program was lowered.
    TopLevelUsing,
    /// The same for `await using`.
    TopLevelAwaitUsing,
}

#[derive(Clone, Copy, Debug)]
pub struct Node {
    pub first: NodeId,
    pub next: NodeId,
    /// As in the file, the number of children included.
    pub numbers: [u16; 4],
    pub tag: u8,
    pub mark: Mark,
}

impl Node {
    pub fn new(tag: u8, numbers: [u16; 4]) -> Node {
        Node {
            first: NodeId::NONE,
            next: NodeId::NONE,
            numbers,
            tag,
            mark: Mark::Nothing,
        }
    }

    /// The scope row that this record names; 0 if it has none.
    pub fn scope(&self) -> u16 {
        tag::scope_at(self.tag).map_or(0, |at| self.numbers[at])
    }

    /// The number of children of a record that has such a number.
    pub fn child_count(&self) -> u16 {
        self.numbers[tag::count(self.tag) - 1]
    }

    pub fn set_child_count(&mut self, count: u16) {
        self.numbers[tag::count(self.tag) - 1] = count;
    }

    /// A `using` or `await using` declaration.
    pub fn is_using(&self) -> bool {
        self.tag == tag::DECLARATION && self.numbers[0] >= kind::USING
    }

    /// A declarator with an initializer.
    pub fn has_init(&self) -> bool {
        self.numbers[2] > self.numbers[1]
    }
}

/// The kinds of a declaration that the pass tells apart.
pub mod kind {
    pub const VAR: u16 = 0;
    pub const CONST: u16 = 2;
    pub const USING: u16 = 3;
    pub const AWAIT_USING: u16 = 4;
}

/// The form of a module line that the pass makes at the end.
pub mod line_form {
    pub const IMPORT_HELPER: u16 = 4;
}

#[derive(Default)]
pub struct Nodes(Vec<Node>);

impl Index<NodeId> for Nodes {
    type Output = Node;
    fn index(&self, id: NodeId) -> &Node {
        &self.0[id.0 as usize]
    }
}

impl IndexMut<NodeId> for Nodes {
    fn index_mut(&mut self, id: NodeId) -> &mut Node {
        &mut self.0[id.0 as usize]
    }
}

impl Nodes {
    pub fn with_capacity(capacity: usize) -> Nodes {
        Nodes(Vec::with_capacity(capacity))
    }

    /// Makes room so that there can be `total` nodes.
    pub fn reserve(&mut self, total: usize) {
        self.0.reserve_exact(total.saturating_sub(self.0.len()));
    }

    pub fn len(&self) -> usize {
        self.0.len()
    }

    /// All nodes in the order of their making: file order for a tree just read.
    pub fn iter(&self) -> impl Iterator<Item = (NodeId, &Node)> {
        self.0
            .iter()
            .enumerate()
            .map(|(at, node)| (NodeId(at as u32), node))
    }

    pub fn push(&mut self, node: Node) -> NodeId {
        let id = NodeId(self.0.len() as u32);
        self.0.push(node);
        id
    }

    /// A new node with these children.
    pub fn make(&mut self, tag: u8, numbers: [u16; 4], children: &[NodeId]) -> NodeId {
        for pair in children.windows(2) {
            self[pair[0]].next = pair[1];
        }
        let mut node = Node::new(tag, numbers);
        node.first = children.first().copied().unwrap_or(NodeId::NONE);
        self.push(node)
    }

    /// Moves the record at `id`, with its children, to a node of its own. The place at `id` stays
    /// where it is among its siblings and waits for what shall replace the record.
    pub fn move_out(&mut self, id: NodeId) -> NodeId {
        let mut node = self[id];
        node.next = NodeId::NONE;
        self.push(node)
    }

    /// Puts a record in the place of the one at `id`.
    pub fn put(&mut self, id: NodeId, tag: u8, numbers: [u16; 4], first: NodeId) {
        let next = self[id].next;
        self[id] = Node {
            first,
            next,
            ..Node::new(tag, numbers)
        };
    }

    /// Inserts `item` at index 0 of the children of `list`.
    pub fn insert_first(&mut self, list: NodeId, item: NodeId) {
        self[item].next = self[list].first;
        let list = &mut self[list];
        list.first = item;
        list.set_child_count(list.child_count() + 1);
    }

    pub fn children(&self, id: NodeId) -> Siblings<'_> {
        Siblings {
            nodes: self,
            at: self[id].first,
        }
    }

    /// The subtrees of a list in file order, the list given by its first node.
    pub fn preorder(&self, first: NodeId) -> Preorder<'_> {
        Preorder {
            nodes: self,
            at: first,
            rest: Vec::new(),
        }
    }
}

pub struct Siblings<'n> {
    nodes: &'n Nodes,
    at: NodeId,
}

impl Iterator for Siblings<'_> {
    type Item = NodeId;
    fn next(&mut self) -> Option<NodeId> {
        let id = self.at;
        if id.is_none() {
            return None;
        }
        self.at = self.nodes[id].next;
        Some(id)
    }
}

pub struct Preorder<'n> {
    nodes: &'n Nodes,
    at: NodeId,
    /// The siblings to go on with, the nearest last.
    rest: Vec<NodeId>,
}

impl<'n> Preorder<'n> {
    /// The node that comes next.
    pub fn upcoming(&self) -> NodeId {
        self.at
    }

    /// The next node; its children follow only if `descend` says so.
    #[inline]
    pub fn next_if(&mut self, descend: impl Fn(&Node) -> bool) -> Option<&'n Node> {
        if self.at.is_none() {
            return None;
        }
        let node = &self.nodes[self.at];
        self.at = if !node.first.is_none() && descend(node) {
            if !node.next.is_none() {
                self.rest.push(node.next);
            }
            node.first
        } else if !node.next.is_none() {
            node.next
        } else {
            self.rest.pop().unwrap_or(NodeId::NONE)
        };
        Some(node)
    }
}

impl<'n> Iterator for Preorder<'n> {
    type Item = &'n Node;
    #[inline]
    fn next(&mut self) -> Option<&'n Node> {
        self.next_if(|_| true)
    }
}

/// A list of siblings under construction.
pub struct List {
    pub first: NodeId,
    pub count: u16,
    last: NodeId,
}

impl List {
    pub fn new() -> List {
        List {
            first: NodeId::NONE,
            count: 0,
            last: NodeId::NONE,
        }
    }

    pub fn push(&mut self, nodes: &mut Nodes, item: NodeId) {
        nodes[item].next = NodeId::NONE;
        if self.last.is_none() {
            self.first = item;
        } else {
            nodes[self.last].next = item;
        }
        self.last = item;
        self.count += 1;
    }
}
