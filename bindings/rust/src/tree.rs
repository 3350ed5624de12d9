//! Trees.

use crate::calls::RawNode;
use std::rc::Rc;

/// A tree, as a list of nodes in which each is behind its children.
#[derive(Clone, Debug)]
pub struct Tree {
    pub(crate) text: Rc<str>,
    pub(crate) nodes: Vec<Entry>,
}

/// A node as the list has it.
#[derive(Clone, Debug)]
pub(crate) struct Entry {
    pub raw: Raw,
    pub name: Rc<str>,
    /// How many nodes it has with those below it.
    pub size: usize,
}

/// What the library says of a node.
#[derive(Clone, Copy, Debug)]
pub(crate) struct Raw {
    pub is_lexeme: bool,
    pub number: u32,
    pub start: usize,
    pub end: usize,
    pub children: usize,
}

impl From<RawNode> for Raw {
    fn from(raw: RawNode) -> Raw {
        Raw { is_lexeme: raw.kind == 0, number: raw.number, start: raw.start, end: raw.end, children: raw.children }
    }
}

/// A node of a tree.
#[derive(Clone, Copy, Debug)]
pub struct Node<'t> {
    tree: &'t Tree,
    index: usize,
}

impl Tree {
    /// Makes a tree of nodes with their names.
    pub(crate) fn of_nodes(text: Rc<str>, raws: Vec<(Raw, Rc<str>)>) -> Tree {
        let mut nodes: Vec<Entry> = Vec::with_capacity(raws.len());
        for (raw, name) in raws {
            let mut end = nodes.len();
            for _ in 0..raw.children {
                end -= nodes[end - 1].size;
            }
            let size = nodes.len() - end + 1;
            nodes.push(Entry { raw, name, size });
        }
        Tree { text, nodes }
    }

    /// Returns the root.
    pub fn root(&self) -> Node<'_> {
        Node { tree: self, index: self.nodes.len() - 1 }
    }

    /// Goes over the nodes, each behind its children.
    pub fn postorder(&self) -> impl Iterator<Item = Node<'_>> {
        (0..self.nodes.len()).map(move |index| Node { tree: self, index })
    }

    /// Goes over the lexemes, from left to right.
    pub fn lexemes(&self) -> impl Iterator<Item = Node<'_>> {
        self.postorder().filter(|node| node.is_lexeme())
    }

    /// Writes the tree as one expression: a rule in brackets, a lexeme as its text.
    pub fn sexp(&self) -> String {
        let mut out = String::new();
        let mut left = vec![Some(self.root())];
        while let Some(next) = left.pop() {
            let node = match next {
                Some(node) => node,
                None => {
                    out.push(')');
                    continue;
                }
            };
            if !out.is_empty() {
                out.push(' ');
            }
            if node.is_lexeme() {
                out.push_str(if node.text().is_empty() { node.name() } else { node.text() });
            } else {
                out.push('(');
                out.push_str(node.name());
                left.push(None);
                let children: Vec<_> = node.children().collect();
                left.extend(children.into_iter().rev().map(Some));
            }
        }
        out
    }
}

impl<'t> Node<'t> {
    fn entry(&self) -> &'t Entry {
        &self.tree.nodes[self.index]
    }

    /// Returns whether it is a lexeme.
    pub fn is_lexeme(&self) -> bool {
        self.entry().raw.is_lexeme
    }

    /// Returns the name of the lexeme's token, or of the production's rule.
    pub fn name(&self) -> &'t str {
        &self.entry().name
    }

    /// Returns the number of the token, or of the production.
    pub fn number(&self) -> u32 {
        self.entry().raw.number
    }

    /// Returns the byte offset at which it begins.
    pub fn start(&self) -> usize {
        self.entry().raw.start
    }

    /// Returns the byte offset at which it ends.
    pub fn end(&self) -> usize {
        self.entry().raw.end
    }

    /// Returns its part of the text; nothing where the lexemes came without a text.
    pub fn text(&self) -> &'t str {
        self.tree.text.get(self.start()..self.end()).unwrap_or("")
    }

    /// Goes over the children, from left to right.
    pub fn children(&self) -> std::vec::IntoIter<Node<'t>> {
        let mut found = Vec::with_capacity(self.entry().raw.children);
        let mut end = self.index;
        for _ in 0..self.entry().raw.children {
            let index = end - 1;
            found.push(Node { tree: self.tree, index });
            end -= self.tree.nodes[index].size;
        }
        found.reverse();
        found.into_iter()
    }
}
