//! Texts, trees, grammars and written guides to try out, all from one seed.
#![allow(dead_code)]

use crate::heap_parser::uniform::{Tree, parse};
use crate::model::{Event, Grammar, Part, Rule};

/// A small generator of numbers (splitmix64): the same seed, the same numbers.
pub struct Rng(u64);

impl Rng {
    pub fn new(seed: u64) -> Rng {
        Rng(seed)
    }

    pub fn next(&mut self) -> u64 {
        self.0 = self.0.wrapping_add(0x9E37_79B9_7F4A_7C15);
        let mut x = self.0;
        x = (x ^ (x >> 30)).wrapping_mul(0xBF58_476D_1CE4_E5B9);
        x = (x ^ (x >> 27)).wrapping_mul(0x94D0_49BB_1331_11EB);
        x ^ (x >> 31)
    }

    /// Below `n`, which is not 0.
    pub fn below(&mut self, n: usize) -> usize {
        (self.next() % n as u64) as usize
    }

    pub fn one_in(&mut self, n: usize) -> bool {
        self.below(n) == 0
    }

    pub fn byte(&mut self) -> u8 {
        self.next() as u8
    }

    pub fn pick<'a, T>(&mut self, from: &'a [T]) -> &'a T {
        &from[self.below(from.len())]
    }
}

/// A text of settings of about so many bytes, with numbers of one to `digits` digits.
pub fn settings(rng: &mut Rng, bytes: usize, digits: usize) -> Vec<u8> {
    let mut text = Vec::new();
    while text.is_empty() || text.len() < bytes {
        if !text.is_empty() {
            text.push(b';');
        }
        for part in 0..2 {
            if part == 1 {
                text.push(b'@');
            }
            for _ in 0..1 + rng.below(digits) {
                text.push(b'0' + rng.below(10) as u8);
            }
        }
    }
    text
}

/// The tree of a text of the house grammar.
pub fn house_tree(text: &[u8]) -> Tree {
    parse(text).expect("a text of the house grammar")
}

/// Puts runs of up to `most` blanks between the parts of the house grammar's loose rules.
pub fn with_blanks(rng: &mut Rng, tree: Tree, most: usize) -> Tree {
    match tree {
        Tree::Leaf(byte) => Tree::Leaf(byte),
        Tree::Node { rule, children } => {
            let mut spaced = Vec::new();
            for child in children {
                if rule <= 2 && !spaced.is_empty() {
                    let mut run = Tree::Node { rule: 8, children: vec![] };
                    for _ in 0..rng.below(most + 1) {
                        run = Tree::Node { rule: 9, children: vec![Tree::Leaf(b' '), run] };
                    }
                    spaced.push(run);
                }
                spaced.push(with_blanks(rng, child, most));
            }
            Tree::Node { rule, children: spaced }
        }
    }
}

/// The walk of a tree, and the text that it spells.
pub fn walk(tree: &Tree) -> (Vec<Event>, Vec<u8>) {
    fn go(tree: &Tree, events: &mut Vec<Event>, text: &mut Vec<u8>) {
        match tree {
            Tree::Leaf(byte) => {
                events.push(Event::Byte(*byte));
                text.push(*byte);
            }
            Tree::Node { rule, children } => {
                events.push(Event::Enter(*rule));
                children.iter().for_each(|child| go(child, events, text));
                events.push(Event::Leave);
            }
        }
    }
    let (mut events, mut text) = (Vec::new(), Vec::new());
    go(tree, &mut events, &mut text);
    (events, text)
}

pub fn listing(events: &[Event]) -> Vec<u8> {
    let mut bytes = Vec::new();
    for event in events {
        match event {
            Event::Enter(rule) => bytes.extend(format!("({rule}\n").bytes()),
            Event::Byte(byte) => bytes.extend(format!("={byte:02x}\n").bytes()),
            Event::Leave => bytes.extend(b")\n"),
        }
    }
    bytes
}

/// The records of a tree. Links past 65,535 wrap, in tables that are too long to be read.
pub fn link_table(tree: &Tree) -> Vec<u8> {
    fn go(tree: &Tree, last: bool, bytes: &mut Vec<u8>) {
        let at = bytes.len();
        let own = at / 8;
        bytes.extend([0; 8]);
        match tree {
            Tree::Leaf(byte) => bytes[at..at + 4].copy_from_slice(&[2, 0, 0, *byte]),
            Tree::Node { rule, children } => {
                let child = if children.is_empty() { 0 } else { own as u16 + 1 };
                bytes[at] = 1;
                bytes[at + 2..at + 4].copy_from_slice(&rule.to_be_bytes());
                bytes[at + 4..at + 6].copy_from_slice(&child.to_be_bytes());
                for (i, child) in children.iter().enumerate() {
                    go(child, i + 1 == children.len(), bytes);
                }
            }
        }
        let sibling = if last { 0 } else { (bytes.len() / 8) as u16 };
        bytes[at + 6..at + 8].copy_from_slice(&sibling.to_be_bytes());
    }
    let mut bytes = Vec::new();
    go(tree, true, &mut bytes);
    bytes
}

/// A grammar without gaps as a packed table. It may be outside the format's bounds: the table is then refused.
pub fn packed_table(grammar: &Grammar) -> Vec<u8> {
    let mut bytes = Vec::new();
    for number in [grammar.symbols, grammar.rules.len() as u16, grammar.start, 0] {
        bytes.extend(number.to_be_bytes());
    }
    for rule in grammar.rules.iter().flatten() {
        let at = bytes.len();
        bytes.extend(rule.left.to_be_bytes());
        bytes.extend([rule.loose as u8, rule.parts.len() as u8]);
        for part in &rule.parts {
            match part {
                Part::Symbol(symbol) => {
                    bytes.extend([1, 0]);
                    bytes.extend(symbol.to_be_bytes());
                }
                Part::Range(low, high) => bytes.extend([2, *low, *high, 0]),
                Part::Except([x, y, z]) => bytes.extend([3, *x, *y, *z]),
            }
        }
        bytes.resize(at + 64, 0);
    }
    bytes
}

/// A grammar of a few symbols and rules, in which every symbol has a rule that ends.
pub fn some_grammar(rng: &mut Rng) -> Grammar {
    let symbols = 1 + rng.below(5) as u16;
    let mut rules = Vec::new();
    let leaf = |rng: &mut Rng| match rng.below(3) {
        0 => Part::only(*rng.pick(b"ab;@ 7#")),
        1 => {
            let low = rng.byte();
            Part::Range(low, low.saturating_add(rng.below(80) as u8))
        }
        _ => Part::Except([rng.byte(), *rng.pick(b"\n\r "), rng.byte()]),
    };
    for symbol in 0..symbols {
        let parts = (0..rng.below(3)).map(|_| leaf(rng)).collect();
        rules.push(Some(Rule { left: symbol, loose: rng.one_in(2), parts }));
    }
    for _ in 0..rng.below(8) {
        let most = if rng.one_in(10) { 16 } else { 5 };
        let parts = (0..rng.below(most)).map(|_| if rng.one_in(2) { Part::Symbol(rng.below(symbols as usize) as u16) } else { leaf(rng) }).collect();
        rules.push(Some(Rule { left: rng.below(symbols as usize) as u16, loose: rng.one_in(2), parts }));
    }
    Grammar { start: rng.below(symbols as usize) as u16, symbols, rules }
}

/// Some parse tree of a grammar, with about `budget` rule nodes; none where no tree was found.
pub fn some_tree(rng: &mut Rng, grammar: &Grammar, budget: usize) -> Option<Tree> {
    let heights = heights(grammar);
    let mut budget = budget;
    grow(rng, grammar, &heights, grammar.start, &mut budget, 0)
}

/// For each rule the height of its lowest tree; none where it has no tree.
fn heights(grammar: &Grammar) -> Vec<Option<u32>> {
    let mut symbols: Vec<Option<u32>> = vec![None; grammar.symbols as usize];
    let height_of = |rule: &Rule, symbols: &[Option<u32>]| {
        rule.parts.iter().try_fold(0, |height: u32, part| match part {
            Part::Symbol(symbol) => Some(height.max(symbols[*symbol as usize]? + 1)),
            _ => Some(height),
        })
    };
    for _ in 0..=grammar.symbols {
        for rule in grammar.rules.iter().flatten() {
            if let Some(height) = height_of(rule, &symbols) {
                let best = &mut symbols[rule.left as usize];
                *best = Some(best.map_or(height, |best| best.min(height)));
            }
        }
    }
    grammar.rules.iter().map(|rule| height_of(rule.as_ref()?, &symbols)).collect()
}

fn grow(rng: &mut Rng, grammar: &Grammar, heights: &[Option<u32>], symbol: u16, budget: &mut usize, depth: usize) -> Option<Tree> {
    let fitting = (0..grammar.rules.len()).filter(|n| grammar.rules[*n].as_ref().is_some_and(|rule| rule.left == symbol) && heights[*n].is_some());
    let fitting: Vec<usize> = fitting.collect();
    let number = if *budget == 0 || depth > 300 {
        *fitting.iter().min_by_key(|n| heights[**n])?
    } else {
        fitting.get(rng.below(fitting.len().max(1))).copied()?
    };
    *budget = budget.saturating_sub(1);
    let rule = grammar.rules[number].as_ref()?;
    let mut children = Vec::new();
    for part in &rule.parts {
        children.push(match part {
            Part::Symbol(symbol) => grow(rng, grammar, heights, *symbol, budget, depth + 1)?,
            Part::Range(low, high) => Tree::Leaf(low + rng.below((high - low) as usize + 1) as u8),
            Part::Except(bytes) => Tree::Leaf((b'a'..=b'z').find(|b| !bytes.contains(b)).unwrap_or(b'0')),
        });
    }
    Some(Tree::Node { rule: number as u16, children })
}
