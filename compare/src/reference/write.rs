//! Writing a tree as a file, its scopes numbered in the order in which the tree names them.

use super::mentions::mentions;
use super::parse::Settings;
use super::scoping::Scoping;
use super::tag;
use super::tree::{NodeId, Nodes};

/// The scopes in the order in which the tree names them, and for each its number in that order; 0 stays 0.
fn in_tree_order(scoping: &Scoping, nodes: &Nodes) -> (Vec<u16>, Vec<u16>) {
    let order: Vec<u16> = nodes
        .preorder(NodeId::PROGRAM)
        .map(|node| node.scope())
        .filter(|&scope| scope != 0)
        .collect();
    let mut numbers = vec![0; scoping.scope_count() + 1];
    for (before, &scope) in order.iter().enumerate() {
        numbers[usize::from(scope)] = before as u16 + 1;
    }
    (order, numbers)
}

pub fn write(settings: Settings, scoping: &Scoping, nodes: &Nodes, capacity: usize) -> Vec<u8> {
    let mut out = Vec::with_capacity(capacity + tag::size(tag::SYMBOL));
    let settings = [settings.mode, settings.module, 0, 0, 0];
    field(&mut out, tag::SETTINGS, settings);
    let (order, numbers) = in_tree_order(scoping, nodes);
    let number = |scope: u16| numbers[usize::from(scope)];
    for scope in order {
        let row = scoping.scope(scope);
        let parent = number(row.parent);
        field(&mut out, tag::SCOPE, [parent, row.flags, 0, 0, 0]);
    }
    let counts = mentions(nodes, scoping.symbol_count());
    for (row, count) in scoping.symbols().iter().zip(counts) {
        let numbers = [row.name, row.flags, number(row.scope), row.made, count];
        field(&mut out, tag::SYMBOL, numbers);
    }
    for node in nodes.preorder(NodeId::PROGRAM) {
        let mut numbers = node.numbers;
        if let Some(at) = tag::scope_at(node.tag) {
            numbers[at] = number(numbers[at]);
        }
        let [a, b, c, d] = numbers;
        field(&mut out, node.tag, [a, b, c, d, 0]);
    }
    out
}

/// Always copies as many bytes as the longest field has: a copy of a fixed length is the cheapest.
fn field(out: &mut Vec<u8>, tag: u8, numbers: [u16; 5]) {
    let mut bytes = [0; 13];
    bytes[0] = tag;
    bytes[2] = 2 * tag::count(tag) as u8;
    for (two, number) in bytes[3..].chunks_exact_mut(2).zip(numbers) {
        two.copy_from_slice(&number.to_be_bytes());
    }
    let end = out.len() + tag::size(tag);
    out.extend_from_slice(&bytes);
    out.truncate(end);
}
