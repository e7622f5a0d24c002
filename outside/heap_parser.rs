//! Recursive-descent parsers of the house grammar that build their tree on the heap. They are handed the text alone.
#![allow(dead_code)]

pub mod typed {
    //! A type for each symbol, with boxes where it holds itself.

    pub enum Cue {
        One(Set),
        More(Set, Box<Cue>),
        Remark(Rest),
    }

    pub struct Set {
        pub channel: Num,
        pub level: Num,
    }

    pub enum Num {
        Last(u8),
        More(u8, Box<Num>),
    }

    pub enum Rest {
        End,
        More(u8, Box<Rest>),
    }

    fn num(text: &mut &[u8]) -> Option<Num> {
        let (digit, rest) = text.split_first()?;
        if !digit.is_ascii_digit() {
            return None;
        }
        *text = rest;
        match text.first() {
            Some(next) if next.is_ascii_digit() => Some(Num::More(*digit, Box::new(num(text)?))),
            _ => Some(Num::Last(*digit)),
        }
    }

    fn set(text: &mut &[u8]) -> Option<Set> {
        let channel = num(text)?;
        *text = text.strip_prefix(b"@")?;
        Some(Set { channel, level: num(text)? })
    }

    fn rest(text: &mut &[u8]) -> Option<Rest> {
        match text.split_first() {
            None => Some(Rest::End),
            Some((10 | 13, _)) => None,
            Some((byte, behind)) => {
                *text = behind;
                Some(Rest::More(*byte, Box::new(rest(text)?)))
            }
        }
    }

    fn cue(text: &mut &[u8]) -> Option<Cue> {
        if let Some(behind) = text.strip_prefix(b"#") {
            *text = behind;
            return Some(Cue::Remark(rest(text)?));
        }
        let set = set(text)?;
        match text.strip_prefix(b";") {
            Some(behind) => {
                *text = behind;
                Some(Cue::More(set, Box::new(cue(text)?)))
            }
            None => Some(Cue::One(set)),
        }
    }

    pub fn parse(mut text: &[u8]) -> Option<Cue> {
        let cue = cue(&mut text)?;
        text.is_empty().then_some(cue)
    }

    fn num_rules(num: &Num) -> u32 {
        match num {
            Num::Last(_) => 1,
            Num::More(_, more) => 1 + num_rules(more),
        }
    }

    fn rest_rules(rest: &Rest) -> u32 {
        match rest {
            Rest::End => 1,
            Rest::More(_, more) => 1 + rest_rules(more),
        }
    }

    fn set_rules(set: &Set) -> u32 {
        1 + num_rules(&set.channel) + num_rules(&set.level)
    }

    /// How many rule nodes the tree has.
    pub fn rules(cue: &Cue) -> u32 {
        match cue {
            Cue::One(set) => 1 + set_rules(set),
            Cue::More(set, more) => 1 + set_rules(set) + rules(more),
            Cue::Remark(rest) => 1 + rest_rules(rest),
        }
    }
}

pub mod uniform {
    //! One type of node for every rule.

    pub enum Tree {
        Leaf(u8),
        Node { rule: u16, children: Vec<Tree> },
    }

    fn node(rule: u16, children: Vec<Tree>) -> Tree {
        Tree::Node { rule, children }
    }

    fn num(text: &mut &[u8]) -> Option<Tree> {
        let (digit, rest) = text.split_first()?;
        if !digit.is_ascii_digit() {
            return None;
        }
        *text = rest;
        match text.first() {
            Some(next) if next.is_ascii_digit() => Some(node(4, vec![Tree::Leaf(*digit), num(text)?])),
            _ => Some(node(3, vec![Tree::Leaf(*digit)])),
        }
    }

    fn set(text: &mut &[u8]) -> Option<Tree> {
        let channel = num(text)?;
        *text = text.strip_prefix(b"@")?;
        Some(node(2, vec![channel, Tree::Leaf(b'@'), num(text)?]))
    }

    fn rest(text: &mut &[u8]) -> Option<Tree> {
        match text.split_first() {
            None => Some(node(6, vec![])),
            Some((10 | 13, _)) => None,
            Some((byte, behind)) => {
                *text = behind;
                Some(node(7, vec![Tree::Leaf(*byte), rest(text)?]))
            }
        }
    }

    fn cue(text: &mut &[u8]) -> Option<Tree> {
        if let Some(behind) = text.strip_prefix(b"#") {
            *text = behind;
            return Some(node(5, vec![Tree::Leaf(b'#'), rest(text)?]));
        }
        let set = set(text)?;
        match text.strip_prefix(b";") {
            Some(behind) => {
                *text = behind;
                Some(node(1, vec![set, Tree::Leaf(b';'), cue(text)?]))
            }
            None => Some(node(0, vec![set])),
        }
    }

    pub fn parse(mut text: &[u8]) -> Option<Tree> {
        let tree = cue(&mut text)?;
        text.is_empty().then_some(tree)
    }

    /// How many rule nodes the tree has.
    pub fn rules(tree: &Tree) -> u32 {
        match tree {
            Tree::Leaf(_) => 0,
            Tree::Node { children, .. } => 1 + children.iter().map(rules).sum::<u32>(),
        }
    }
}
