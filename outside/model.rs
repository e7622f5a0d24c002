//! A second implementation, in plain Rust, written along the pages in docs/ and not translated from the product.
//!
//! It is not independent in every way: its author also wrote the crate `fekhtovi` and had read the product's sources, so a misreading that
//! both share would not show. The layout of scripts and records was designed together with it.
//!
//! It is what the proved library is compared with, answer by answer (`fuzz.rs`) and in speed (`bench.rs`). So it is written as one
//! would write it for use: grammars are built once and asked often, guides are iterators, and the check keeps its stack between calls.
#![allow(dead_code)]

use std::borrow::Cow;
use std::sync::LazyLock;

pub const MOST_EVENTS: u32 = 16_000;
pub const MOST_FRAMES: usize = 1_024;
pub const LONGEST_GUIDE: usize = 64_000;
pub const LONGEST_TEXT: usize = 4_096;
pub const LAST_NUMBER: u16 = 120;
pub const BLOCKS: usize = 512;
pub const BLOCK_BYTES: usize = 64;

// Grammars.

#[derive(Clone, Copy, PartialEq, Eq, Debug)]
pub enum Part {
    Symbol(u16),
    Range(u8, u8),
    Except([u8; 3]),
}

impl Part {
    pub const fn only(byte: u8) -> Part {
        Part::Range(byte, byte)
    }
}

#[derive(Clone, PartialEq, Eq, Debug)]
pub struct Rule {
    pub left: u16,
    pub loose: bool,
    pub parts: Vec<Part>,
}

#[derive(Clone, PartialEq, Eq, Debug)]
pub struct Grammar {
    pub start: u16,
    pub symbols: u16,
    pub rules: Vec<Option<Rule>>,
}

/// Why a packed table is refused: the number, and the rule concerned.
#[derive(Clone, Copy, PartialEq, Eq, Debug)]
pub struct TableFault {
    pub number: u32,
    pub rule: u32,
}

impl Grammar {
    pub fn house() -> Grammar {
        const CUE: u16 = 0;
        const SET: u16 = 1;
        const NUM: u16 = 2;
        const REST: u16 = 3;
        let digit = Part::Range(b'0', b'9');
        let rule = |left, loose, parts: &[Part]| Some(Rule { left, loose, parts: parts.to_vec() });
        Grammar {
            start: CUE,
            symbols: 4,
            rules: vec![
                rule(CUE, true, &[Part::Symbol(SET)]),
                rule(CUE, true, &[Part::Symbol(SET), Part::only(b';'), Part::Symbol(CUE)]),
                rule(SET, true, &[Part::Symbol(NUM), Part::only(b'@'), Part::Symbol(NUM)]),
                rule(NUM, false, &[digit]),
                rule(NUM, false, &[digit, Part::Symbol(NUM)]),
                rule(CUE, false, &[Part::only(b'#'), Part::Symbol(REST)]),
                rule(REST, false, &[]),
                rule(REST, false, &[Part::Except([10, 13, 13]), Part::Symbol(REST)]),
            ],
        }
    }

    /// The grammar of a packed table, or the first question about it with the answer no.
    pub fn packed(table: &[u8]) -> Result<Grammar, TableFault> {
        let fault = |number, rule: usize| TableFault { number, rule: rule as u32 };
        let (Some(header), Some(rows)) = (table.get(..8), table.get(8..)) else {
            return Err(fault(51, 0));
        };
        let symbols = pair(header, 0);
        let count = pair(header, 2) as usize;
        if count > 1_000 || rows.len() != 64 * count {
            return Err(fault(51, 0));
        }
        let start = pair(header, 4);
        if !(1..=256).contains(&symbols) || start >= symbols || pair(header, 6) != 0 {
            return Err(fault(52, 0));
        }
        let rules = rows.chunks_exact(64).enumerate().map(|(n, row)| {
            let left = pair(row, 0);
            let parts = row[3] as usize;
            if left >= symbols || row[2] > 1 || parts > 15 {
                return Err(fault(53, n));
            }
            let (used, unused) = row[4..].split_at(4 * parts);
            let parts = used.chunks_exact(4).map(|slot| packed_part(slot, symbols)).collect::<Option<_>>().ok_or(fault(54, n))?;
            if unused.iter().any(|b| *b != 0) {
                return Err(fault(55, n));
            }
            Ok(Some(Rule { left, loose: row[2] == 1, parts }))
        });
        Ok(Grammar { start, symbols, rules: rules.collect::<Result<_, _>>()? })
    }

    /// Lets blanks stand between the parts of loose rules, where one symbol and two rules more are within the bounds.
    pub fn spaced(mut self) -> Grammar {
        if self.rules.len() > 1_022 || self.symbols > 255 {
            return self;
        }
        let blank = Part::Symbol(self.symbols);
        for rule in self.rules.iter_mut().flatten() {
            if rule.loose && (2..=128).contains(&rule.parts.len()) {
                rule.loose = false;
                let mut spread = Vec::with_capacity(2 * rule.parts.len() - 1);
                for part in &rule.parts {
                    if !spread.is_empty() {
                        spread.push(blank);
                    }
                    spread.push(*part);
                }
                rule.parts = spread;
            }
        }
        self.rules.push(Some(Rule { left: self.symbols, loose: false, parts: vec![] }));
        self.rules.push(Some(Rule { left: self.symbols, loose: false, parts: vec![Part::only(b' '), blank] }));
        self.symbols += 1;
        self
    }

    /// Makes a rule number a gap; false where it cannot be barred.
    pub fn bar(&mut self, number: u16) -> bool {
        if let Some(rule) = self.rules.get_mut(number as usize) {
            *rule = None;
        }
        number < 1_024
    }

    /// The grammar that a caller of the library chooses, or the refusal's number and the rule. The house grammar itself, with blanks or
    /// without, is built once and for all.
    pub fn chosen(table: &[u8], blanks: bool, bars: impl Iterator<Item = u16>) -> Result<Cow<'static, Grammar>, TableFault> {
        static HOUSE: LazyLock<[Grammar; 2]> = LazyLock::new(|| [Grammar::house(), Grammar::house().spaced()]);
        let mut grammar = match table {
            [] => Cow::Borrowed(&HOUSE[blanks as usize]),
            _ if blanks => Cow::Owned(Grammar::packed(table)?.spaced()),
            _ => Cow::Owned(Grammar::packed(table)?),
        };
        for bar in bars {
            if !grammar.to_mut().bar(bar) {
                return Err(TableFault { number: 56, rule: 0 });
            }
        }
        Ok(grammar)
    }

    fn rule(&self, number: u16) -> Option<&Rule> {
        self.rules.get(number as usize)?.as_ref()
    }
}

fn pair(bytes: &[u8], at: usize) -> u16 {
    u16::from_be_bytes([bytes[at], bytes[at + 1]])
}

fn packed_part(slot: &[u8], symbols: u16) -> Option<Part> {
    match *slot {
        [1, 0, ..] if pair(slot, 2) < symbols => Some(Part::Symbol(pair(slot, 2))),
        [2, low, high, 0] if low <= high => Some(Part::Range(low, high)),
        [3, x, y, z] => Some(Part::Except([x, y, z])),
        _ => None,
    }
}

// Guides.

#[derive(Clone, Copy, PartialEq, Eq, Debug)]
pub enum Event {
    Enter(u16),
    Byte(u8),
    Leave,
}

#[derive(Clone, Copy, PartialEq, Eq, Debug)]
pub struct Fault {
    pub number: u32,
    pub place: usize,
}

/// The events of a listing, to its end or to a fault.
pub struct Listing<'a> {
    bytes: &'a [u8],
    offset: usize,
}

impl<'a> Listing<'a> {
    pub fn new(bytes: &'a [u8]) -> Listing<'a> {
        Listing { bytes, offset: 0 }
    }
}

fn hex(digit: u8) -> Option<u8> {
    match digit {
        b'0'..=b'9' => Some(digit - b'0'),
        b'a'..=b'f' => Some(digit - b'a' + 10),
        _ => None,
    }
}

/// The event of the first line, and the line's length with its ending.
#[inline]
fn line(rest: &[u8]) -> Option<(Event, usize)> {
    match rest {
        [b')', b'\n', ..] => Some((Event::Leave, 2)),
        [b'=', high, low, b'\n', ..] => Some((Event::Byte(hex(*high)? << 4 | hex(*low)?), 4)),
        [b'(', d @ b'0'..=b'9', b'\n', ..] => Some((Event::Enter((d - b'0') as u16), 3)),
        [b'(', digits @ ..] => {
            let count = digits.iter().take(5).position(|b| *b == b'\n')?;
            let digits = &digits[..count];
            if !matches!(digits.first(), Some(b'1'..=b'9')) || !digits.iter().all(u8::is_ascii_digit) {
                return None;
            }
            let number = digits.iter().fold(0, |n, d| 10 * n + (d - b'0') as u16);
            Some((Event::Enter(number), count + 2))
        }
        _ => None,
    }
}

impl Iterator for Listing<'_> {
    type Item = Result<Event, Fault>;

    #[inline]
    fn next(&mut self) -> Option<Self::Item> {
        if self.bytes.len() > LONGEST_GUIDE {
            return Some(Err(Fault { number: 31, place: 0 }));
        }
        let rest = &self.bytes[self.offset..];
        if rest.is_empty() {
            return None;
        }
        Some(match line(rest) {
            Some((event, length)) => {
                self.offset += length;
                Ok(event)
            }
            None => Err(Fault { number: 32, place: self.offset }),
        })
    }
}

/// The events of a link table, to its end or to a fault.
pub struct LinkTable<'a> {
    bytes: &'a [u8],
    told: usize,
    /// The link to go on with; none before the first record.
    link: Option<u16>,
    siblings: Vec<u16>,
}

impl<'a> LinkTable<'a> {
    pub fn new(bytes: &'a [u8]) -> LinkTable<'a> {
        LinkTable { bytes, told: 0, link: None, siblings: Vec::with_capacity(256) }
    }

    fn fault(&self, number: u32) -> Option<Result<Event, Fault>> {
        Some(Err(Fault { number, place: 8 * self.told }))
    }
}

impl Iterator for LinkTable<'_> {
    type Item = Result<Event, Fault>;

    #[inline]
    fn next(&mut self) -> Option<Self::Item> {
        if self.told == 0 && (self.bytes.len() > LONGEST_GUIDE || self.bytes.len() % 8 != 0) {
            return Some(Err(Fault { number: 41, place: 0 }));
        }
        let record = self.bytes.get(8 * self.told..8 * self.told + 8);
        match self.link {
            Some(0) => {
                if let Some(sibling) = self.siblings.pop() {
                    self.link = Some(sibling);
                    return Some(Ok(Event::Leave));
                }
                return if record.is_none() { None } else { self.fault(45) };
            }
            Some(link) if link as usize != self.told || record.is_none() => return self.fault(43),
            Some(_) => {}
            None if record.is_none() => return None,
            None => {}
        }
        let Some(&[kind, zero, v1, v0, c1, c0, s1, s0]) = record else { return self.fault(43) };
        let value = u16::from_be_bytes([v1, v0]);
        let child = u16::from_be_bytes([c1, c0]);
        let sibling = u16::from_be_bytes([s1, s0]);
        match (kind, zero) {
            (1, 0) if value <= 9_999 => {
                if self.siblings.len() >= 256 {
                    return self.fault(44);
                }
                self.siblings.push(sibling);
                self.link = Some(child);
                self.told += 1;
                Some(Ok(Event::Enter(value)))
            }
            (2, 0) if value <= 255 && child == 0 => {
                self.link = Some(sibling);
                self.told += 1;
                Some(Ok(Event::Byte(value as u8)))
            }
            _ => self.fault(42),
        }
    }
}

// The check.

#[derive(Clone, Copy, PartialEq, Eq, Debug)]
pub struct Accepted {
    pub rules: u32,
    pub steps: u32,
    pub bytes: usize,
}

#[derive(Clone, Copy, PartialEq, Eq, Debug)]
pub struct Refused {
    pub number: u32,
    pub events: u32,
    pub bytes: usize,
    pub fault: Option<Fault>,
}

/// Checks guides against one grammar, with one stack: for each open node, the parts still to come.
pub struct Checker<'g> {
    grammar: &'g Grammar,
    open: Vec<&'g [Part]>,
}

impl<'g> Checker<'g> {
    pub fn new(grammar: &'g Grammar) -> Checker<'g> {
        Checker { grammar, open: Vec::with_capacity(64) }
    }

    /// With so many frames lent; at most 1,024 count.
    pub fn check(&mut self, guide: impl Iterator<Item = Result<Event, Fault>>, text: &[u8], frames: usize) -> Result<Accepted, Refused> {
        let limit = frames.min(MOST_FRAMES);
        let open = &mut self.open;
        open.clear();
        let (mut events, mut rules, mut used) = (0u32, 0u32, 0usize);
        macro_rules! no {
            ($number:expr) => {
                return Err(Refused { number: $number, events, bytes: used, fault: None })
            };
        }
        for answer in guide {
            let event = match answer {
                Ok(event) => event,
                Err(fault) => return Err(Refused { number: 5, events, bytes: used, fault: Some(fault) }),
            };
            if events >= MOST_EVENTS {
                no!(6);
            }
            match event {
                Event::Enter(number) => {
                    let awaited = match open.last() {
                        Some([Part::Symbol(symbol), ..]) => *symbol,
                        None if rules == 0 => self.grammar.start,
                        _ => no!(7),
                    };
                    let Some(rule) = self.grammar.rule(number) else { no!(8) };
                    if rule.left != awaited {
                        no!(9);
                    }
                    if open.len() >= limit {
                        no!(10);
                    }
                    if let Some(parts) = open.last_mut() {
                        *parts = &parts[1..];
                    }
                    open.push(&rule.parts);
                    rules += 1;
                }
                Event::Byte(byte) => {
                    let Some(parts) = open.last_mut() else { no!(7) };
                    let allowed = match parts {
                        [Part::Range(low, high), ..] => (*low..=*high).contains(&byte),
                        [Part::Except(bytes), ..] => !bytes.contains(&byte),
                        _ => no!(7),
                    };
                    if !allowed {
                        no!(11);
                    }
                    if text.get(used) != Some(&byte) {
                        no!(12);
                    }
                    *parts = &parts[1..];
                    used += 1;
                }
                Event::Leave => match open.last() {
                    Some([]) => {
                        open.pop();
                    }
                    _ => no!(7),
                },
            }
            events += 1;
        }
        if rules == 0 || !open.is_empty() {
            no!(7);
        }
        if used < text.len() {
            no!(13);
        }
        Ok(Accepted { rules, steps: events + 1, bytes: used })
    }
}

// Answers in numbers.

#[repr(C)]
#[derive(Clone, Copy, PartialEq, Eq, Debug, Default)]
pub struct Answer {
    pub refusal: u32,
    pub rules: u32,
    pub steps: u32,
    pub events: u32,
    pub fault: u32,
    pub rule: u32,
    pub cleared: u32,
    pub free: u32,
    pub bytes: usize,
    pub place: usize,
}

impl Answer {
    pub fn refused(number: u32) -> Answer {
        Answer { refusal: number, ..Answer::default() }
    }
}

impl From<TableFault> for Answer {
    fn from(fault: TableFault) -> Answer {
        Answer { refusal: fault.number, rule: fault.rule, ..Answer::default() }
    }
}

impl From<Result<Accepted, Refused>> for Answer {
    fn from(verdict: Result<Accepted, Refused>) -> Answer {
        match verdict {
            Ok(Accepted { rules, steps, bytes }) => Answer { rules, steps, bytes, ..Answer::default() },
            Err(Refused { number, events, bytes, fault }) => {
                let Fault { number: fault, place } = fault.unwrap_or(Fault { number: 0, place: 0 });
                Answer { refusal: number, events, bytes, fault, place, ..Answer::default() }
            }
        }
    }
}

pub const UNKNOWN_FORM: u32 = 255;

/// What `fekhtovi_check` answers.
pub fn check(table: &[u8], blanks: u8, bars: &[u16], text: &[u8], form: u8, guide: &[u8], frames: usize) -> Answer {
    if form != 1 && form != 2 {
        return Answer::refused(UNKNOWN_FORM);
    }
    match Grammar::chosen(table, blanks != 0, bars.iter().copied()) {
        Ok(grammar) => check_with(&mut Checker::new(&grammar), text, form, guide, frames).into(),
        Err(fault) => fault.into(),
    }
}

/// The check under a grammar that was built before.
pub fn check_with(checker: &mut Checker, text: &[u8], form: u8, guide: &[u8], frames: usize) -> Result<Accepted, Refused> {
    if form == 1 { checker.check(Listing::new(guide), text, frames) } else { checker.check(LinkTable::new(guide), text, frames) }
}

// The memory.

pub struct Memory {
    texts: Vec<Option<Vec<u8>>>,
    free: usize,
}

fn blocks_for(bytes: usize) -> usize {
    bytes.div_ceil(BLOCK_BYTES)
}

impl Default for Memory {
    fn default() -> Memory {
        Memory::new()
    }
}

impl Memory {
    pub fn new() -> Memory {
        Memory { texts: vec![None; LAST_NUMBER as usize + 1], free: BLOCKS }
    }

    /// The place of a cue number.
    fn place(&mut self, number: u16) -> Result<&mut Option<Vec<u8>>, Answer> {
        match self.texts.get_mut(number as usize) {
            Some(place) if number > 0 => Ok(place),
            _ => Err(Answer::refused(1)),
        }
    }

    pub fn load(&mut self, number: u16, text: &[u8], check: impl FnOnce() -> Result<Accepted, Refused>) -> Result<Answer, Answer> {
        if self.place(number)?.is_some() {
            return Err(Answer::refused(2));
        }
        if text.len() > LONGEST_TEXT {
            return Err(Answer::refused(3));
        }
        if blocks_for(text.len()) > self.free {
            return Err(Answer::refused(4));
        }
        let verdict = check();
        if verdict.is_ok() {
            self.free -= blocks_for(text.len());
            *self.place(number)? = Some(text.to_vec());
        }
        Ok(verdict.into())
    }

    pub fn clear(&mut self, number: u16) -> Result<Answer, Answer> {
        let text = self.place(number)?.take().ok_or(Answer::refused(14))?;
        self.free += blocks_for(text.len());
        Ok(Answer { cleared: number as u32, ..Answer::default() })
    }

    pub fn fetch(&mut self, number: u16, buffer: &mut [u8]) -> Result<Answer, Answer> {
        let text = self.place(number)?.as_ref().ok_or(Answer::refused(14))?;
        let room = buffer.get_mut(..text.len()).ok_or(Answer::refused(15))?;
        room.copy_from_slice(text);
        Ok(Answer { bytes: text.len(), ..Answer::default() })
    }

    pub fn free(&self) -> Answer {
        Answer { free: self.free as u32, ..Answer::default() }
    }
}

// Scripts of calls.

#[derive(Clone, Copy, PartialEq, Eq, Debug)]
pub enum Kind {
    Load,
    Clear,
    Fetch,
    Free,
}

/// One call of a script, with what it is handed.
#[derive(Clone, Copy, Debug)]
pub struct Call<'a> {
    pub kind: Kind,
    pub form: u8,
    pub blanks: u8,
    pub number: u16,
    pub frames: u16,
    pub buffer: u16,
    pub table: &'a [u8],
    pub bars: &'a [u8],
    pub text: &'a [u8],
    pub guide: &'a [u8],
}

impl<'a> Call<'a> {
    pub fn new(kind: Kind, number: u16) -> Call<'a> {
        Call { kind, form: 1, blanks: 0, number, frames: 1_024, buffer: 0, table: &[], bars: &[], text: &[], guide: &[] }
    }

    /// Puts the call behind a script.
    pub fn write(&self, script: &mut Vec<u8>) {
        let kind = match self.kind {
            Kind::Load => 1,
            Kind::Clear => 2,
            Kind::Fetch => 3,
            Kind::Free => 4,
        };
        script.extend([kind, self.form, self.blanks]);
        for number in [self.number, self.frames, self.buffer] {
            script.extend(number.to_be_bytes());
        }
        for field in [self.table, self.bars, self.text, self.guide] {
            script.extend((field.len() as u16).to_be_bytes());
            script.extend(field);
        }
    }

    /// Takes the first call off a script; none at its end and where no whole call stands.
    fn read(script: &mut &'a [u8]) -> Option<Call<'a>> {
        let (&[kind, form, blanks, n1, n0, f1, f0, b1, b0], mut rest) = script.split_first_chunk()?;
        let kind = match kind {
            1 => Kind::Load,
            2 => Kind::Clear,
            3 => Kind::Fetch,
            4 => Kind::Free,
            _ => return None,
        };
        let mut field = || {
            let (length, behind) = rest.split_first_chunk()?;
            let (field, behind) = behind.split_at_checked(u16::from_be_bytes(*length) as usize)?;
            rest = behind;
            Some(field)
        };
        let (table, bars, text, guide) = (field()?, field()?, field()?, field()?);
        if bars.len() % 2 != 0 {
            return None;
        }
        *script = rest;
        let [number, frames, buffer] = [[n1, n0], [f1, f0], [b1, b0]].map(u16::from_be_bytes);
        Some(Call { kind, form, blanks, number, frames, buffer, table, bars, text, guide })
    }
}

pub const RECORD: usize = 80;

impl Answer {
    /// Ten numbers of eight bytes, the highest first.
    pub fn write(&self, record: &mut [u8]) {
        let Answer { refusal, rules, steps, events, fault, rule, cleared, free, bytes, place } = *self;
        let small = [refusal, rules, steps, events, fault, rule, cleared, free].map(u64::from);
        for (place, number) in record.chunks_exact_mut(8).zip(small.into_iter().chain([bytes as u64, place as u64])) {
            place.copy_from_slice(&number.to_be_bytes());
        }
    }
}

fn load(memory: &mut Memory, call: &Call) -> Result<Answer, Answer> {
    if call.form != 1 && call.form != 2 {
        return Err(Answer::refused(UNKNOWN_FORM));
    }
    let grammar = Grammar::chosen(call.table, call.blanks != 0, call.bars.chunks_exact(2).map(|p| pair(p, 0)))?;
    memory.load(call.number, call.text, || check_with(&mut Checker::new(&grammar), call.text, call.form, call.guide, call.frames as usize))
}

/// What `fekhtovi_replay` writes and answers. `each` is told the answer of each call.
pub fn replay(mut script: &[u8], answers: &mut [u8], mut each: impl FnMut(&Answer)) -> usize {
    let mut memory = Memory::new();
    let mut written = 0;
    while let Some(call) = Call::read(&mut script) {
        let buffer = if call.kind == Kind::Fetch { call.buffer as usize } else { 0 };
        let Some(place) = answers[written..].get_mut(..RECORD + buffer) else { break };
        let (record, buffer) = place.split_at_mut(RECORD);
        let answer = match call.kind {
            Kind::Load => load(&mut memory, &call),
            Kind::Clear => memory.clear(call.number),
            Kind::Fetch => memory.fetch(call.number, buffer),
            Kind::Free => Ok(memory.free()),
        };
        let answer = answer.unwrap_or_else(|refused| refused);
        each(&answer);
        answer.write(record);
        written += place.len();
    }
    written
}
