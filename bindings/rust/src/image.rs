//! Images: records of eight little-endian words, and trees of labels written as records, parent first.

/// How long a record is.
pub const RECORD_BYTES: usize = 32;
/// How long a word is.
pub const WORD_BYTES: usize = 4;

/// The place among a record's words of the link to its first child.
pub const FIRST: usize = 6;
/// The place among a record's words of the link to its next sibling.
pub const NEXT: usize = 7;

/// What a record says of itself, without its links.
#[derive(Clone, Copy, Debug, Default, PartialEq, Eq)]
pub struct Label {
    /// Which expression, plan or part it is; [`kinds`](crate::kinds) has them, with what the other words say.
    pub kind: u32,
    /// The second word.
    pub p: u32,
    /// The third word.
    pub q: u32,
    /// The fourth word.
    pub r: u32,
    /// The fifth word, of a number of 64 bits the lower half.
    pub lo: u32,
    /// The sixth word, of a number of 64 bits the upper half.
    pub hi: u32,
}

impl Label {
    /// A label whose other words are 0.
    pub fn of(kind: u32, p: u32) -> Label {
        Label { kind, p, ..Label::default() }
    }
}

/// A record: a label and its links.
#[derive(Clone, Copy, Debug, Default, PartialEq, Eq)]
pub struct Record {
    /// The first six words.
    pub label: Label,
    /// The number of the first child's record; 0 for none.
    pub first: u32,
    /// The number of the next sibling's record; 0 for none.
    pub next: u32,
}

/// A label and the trees below it: any records, whether a plan or not.
#[derive(Clone, Debug, PartialEq, Eq)]
pub struct Tree {
    /// What the node's record says.
    pub label: Label,
    /// In the order of their records.
    pub children: Vec<Tree>,
}

impl Record {
    /// The eight words, links last.
    pub fn words(&self) -> [u32; 8] {
        let Label { kind, p, q, r, lo, hi } = self.label;
        [kind, p, q, r, lo, hi, self.first, self.next]
    }

    /// The record of eight words.
    pub fn of_words([kind, p, q, r, lo, hi, first, next]: [u32; 8]) -> Record {
        Record { label: Label { kind, p, q, r, lo, hi }, first, next }
    }
}

impl Tree {
    /// How many records it has.
    pub fn size(&self) -> usize {
        self.parent_first().len()
    }

    /// How deep its deepest record stands; the root's depth is 1.
    pub fn depth(&self) -> usize {
        self.parent_first().iter().map(|(level, _)| *level).max().unwrap_or(0)
    }

    /// All nodes in the order in which their records stand, each with its level; the root's is 1.
    pub fn parent_first(&self) -> Vec<(usize, &Tree)> {
        let mut nodes = Vec::new();
        let mut waiting = vec![(1, self)];
        while let Some((level, tree)) = waiting.pop() {
            nodes.push((level, tree));
            waiting.extend(tree.children.iter().rev().map(|child| (level + 1, child)));
        }
        nodes
    }

    /// The tree that the records are of.
    ///
    /// # Panics
    /// If they are not linked as [`records`](Tree::records) links them. [`Plan::from_image`](crate::Plan::from_image)
    /// takes any.
    pub fn of_records(records: &[Record]) -> Tree {
        Tree::read(records, &mut records.iter())
    }

    /// The tree of the next unread record; its children are those that follow until one has no `next`.
    fn read(records: &[Record], unread: &mut std::slice::Iter<Record>) -> Tree {
        let record = unread.next().expect("a link leads to a record");
        let mut tree = Tree { label: record.label, children: Vec::new() };
        let mut child = record.first;
        while child != 0 {
            tree.children.push(Tree::read(records, unread));
            child = records[child as usize].next;
        }
        tree
    }

    /// The node whose record would be number `at`.
    pub fn node(&self, at: usize) -> Option<&Tree> {
        let mut waiting = vec![self];
        let mut number = 0;
        while let Some(tree) = waiting.pop() {
            if number == at {
                return Some(tree);
            }
            number += 1;
            waiting.extend(tree.children.iter().rev());
        }
        None
    }

    /// The whole with another tree in the place of that node.
    ///
    /// # Panics
    /// If there is no such node.
    pub fn with(&self, at: usize, other: Tree) -> Tree {
        let mut whole = self.clone();
        *whole.node_mut(at).expect("the node stands in the tree") = other;
        whole
    }

    /// The node whose record would be number `at`.
    pub fn node_mut(&mut self, at: usize) -> Option<&mut Tree> {
        let mut waiting = vec![self];
        let mut number = 0;
        while let Some(tree) = waiting.pop() {
            if number == at {
                return Some(tree);
            }
            number += 1;
            waiting.extend(tree.children.iter_mut().rev());
        }
        None
    }

    /// The records of the tree, linked.
    pub fn records(&self) -> Vec<Record> {
        let nodes = self.parent_first();
        let mut records: Vec<Record> =
            nodes.iter().map(|(_, tree)| Record { label: tree.label, first: 0, next: 0 }).collect();
        // the last record met of each level, down to the one above the record in hand
        let mut open: Vec<usize> = Vec::new();
        for (at, (level, _)) in nodes.iter().enumerate() {
            if *level <= open.len() {
                records[open[level - 1]].next = at as u32;
            } else if let Some(parent) = open.last() {
                records[*parent].first = at as u32;
            }
            open.truncate(level - 1);
            open.push(at);
        }
        records
    }

    /// The bytes of its records.
    pub fn image(&self) -> Vec<u8> {
        write(&self.records())
    }
}

/// The bytes of the records.
pub fn write(records: &[Record]) -> Vec<u8> {
    records.iter().flat_map(|record| record.words()).flat_map(u32::to_le_bytes).collect()
}

/// The whole records of the bytes; what is left over at the end is not read.
pub fn read(image: &[u8]) -> Vec<Record> {
    let word = |bytes: &[u8]| u32::from_le_bytes(bytes.try_into().expect("a word has four bytes"));
    let record = |bytes: &[u8]| {
        let mut words = [0; 8];
        for (place, four) in bytes.chunks_exact(WORD_BYTES).enumerate() {
            words[place] = word(four);
        }
        Record::of_words(words)
    };
    image.chunks_exact(RECORD_BYTES).map(record).collect()
}

/// The bytes as digits, two for each.
pub fn to_hex(image: &[u8]) -> String {
    image.iter().map(|byte| format!("{byte:02x}")).collect()
}

#[cfg(test)]
mod tests {
    use super::*;

    fn leaf(kind: u32) -> Tree {
        Tree { label: Label { kind, ..Label::default() }, children: Vec::new() }
    }

    fn node(kind: u32, children: Vec<Tree>) -> Tree {
        Tree { children, ..leaf(kind) }
    }

    #[test]
    fn links_stand_parent_first() {
        let tree = node(10, vec![node(11, vec![leaf(12)]), leaf(13), node(14, vec![leaf(15), leaf(16)])]);
        let links: Vec<_> = tree.records().iter().map(|r| (r.label.kind, r.first, r.next)).collect();
        let expected = [(10, 1, 0), (11, 2, 3), (12, 0, 0), (13, 0, 4), (14, 5, 0), (15, 0, 6), (16, 0, 0)];
        assert_eq!(links, expected);
    }

    #[test]
    fn reading_gives_what_was_written() {
        let tree = node(33, vec![leaf(3), node(32, vec![leaf(48)])]);
        let records = tree.records();
        assert_eq!(Tree::of_records(&records), tree);
        assert_eq!(read(&write(&records)), records);
        assert_eq!(write(&records).len(), RECORD_BYTES * records.len());
        assert_eq!(write(&[Record::of_words([0x01020304, 0, 0, 0, 0, 0, 0, 5])])[..4], [4, 3, 2, 1]);
    }

    #[test]
    fn node_mut_counts_as_the_records_do() {
        let mut tree = node(10, vec![node(11, vec![leaf(12)]), leaf(13)]);
        let kinds: Vec<_> = (0..4).map(|at| tree.node_mut(at).map(|n| n.label.kind)).collect();
        assert_eq!(kinds, [Some(10), Some(11), Some(12), Some(13)]);
        assert!(tree.node_mut(4).is_none());
    }
}
