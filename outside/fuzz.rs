//! Compares the proved library with the model, answer by answer and byte by byte, on inputs that are valid, damaged or made up.
//!
//!     fuzz [COUNT] [SEED]
//!
//! The same count and seed give the same inputs. Status 1, and what is needed to see it again, where the two disagree.
mod heap_parser;
mod library;
mod model;
mod samples;

use heap_parser::uniform::Tree;
use model::{Answer, Call, Grammar, Kind};
use samples::Rng;
use std::collections::BTreeMap;
use std::process::ExitCode;

/// The refusals and the guides' faults that have to come up.
const REFUSALS: [u32; 22] = [1, 2, 3, 4, 5, 6, 7, 8, 9, 10, 11, 12, 13, 14, 15, 51, 52, 53, 54, 55, 56, 255];
const FAULTS: [u32; 7] = [31, 32, 41, 42, 43, 44, 45];

/// What a check is handed.
#[derive(Clone, Debug)]
struct Input {
    table: Vec<u8>,
    blanks: u8,
    bars: Vec<u16>,
    text: Vec<u8>,
    form: u8,
    guide: Vec<u8>,
    frames: usize,
}

fn some_input(rng: &mut Rng) -> Input {
    let mut input = sound_input(rng);
    for _ in 0..*rng.pick(&[0, 0, 0, 1, 1, 2, 5]) {
        damage(rng, &mut input);
    }
    input
}

/// An input in which nothing is wrong, unless it is too large.
fn sound_input(rng: &mut Rng) -> Input {
    let blanks = rng.below(2) as u8 * (1 + rng.below(255) as u8);
    let own = rng.one_in(2);
    let mut grammar = if own { samples::some_grammar(rng) } else { Grammar::house() };
    let table = if own || rng.one_in(4) { samples::packed_table(&grammar) } else { vec![] };
    if blanks != 0 {
        grammar = grammar.spaced();
    }
    let bars: Vec<u16> = if rng.one_in(4) { (0..rng.below(4)).map(|_| *rng.pick(&[5, 6, 9, 40, 999, 1_023])).collect() } else { vec![] };
    let large = rng.one_in(100);
    let tree = if !own && blanks == 0 && (large || rng.one_in(2)) {
        house_tree(rng, large)
    } else {
        let budget = if large { 3_000 } else { 1 + rng.below(40) };
        samples::some_tree(rng, &grammar, budget).unwrap_or(Tree::Leaf(b'?'))
    };
    let (events, text) = samples::walk(&tree);
    let form = 1 + rng.below(2) as u8;
    let guide = if form == 1 { samples::listing(&events) } else { samples::link_table(&tree) };
    let frames = if rng.one_in(8) { rng.below(12) } else { *rng.pick(&[64, 1_024, 1_024, 1_200]) };
    Input { table, blanks, bars, text, form, guide, frames }
}

fn house_tree(rng: &mut Rng, large: bool) -> Tree {
    if rng.one_in(4) {
        let bytes = if large { *rng.pick(&[300, 1_000, 3_900, 5_000]) } else { rng.below(60) };
        let remark: Vec<u8> = (0..bytes).map(|_| *rng.pick(b"abc #;@7\x00\xff")).collect();
        return samples::house_tree(&[b"#".as_slice(), &remark].concat());
    }
    let (bytes, digits) = if large { (*rng.pick(&[300, 2_000, 4_090, 4_500, 6_000]), 1 + rng.below(30)) } else { (rng.below(80), 3) };
    samples::house_tree(&samples::settings(rng, bytes, digits))
}

/// Makes one thing wrong.
fn damage(rng: &mut Rng, input: &mut Input) {
    match rng.below(12) {
        0 => input.form = *rng.pick(&[0, 1, 2, 3, 255]),
        1 => input.frames = rng.below(30),
        2 => input.bars.push(*rng.pick(&[0, 1, 2, 3, 7, 1_023, 1_024, 65_535])),
        3 | 4 => change(rng, &mut input.text),
        5 if !input.table.is_empty() => change_table(rng, &mut input.table),
        6 => input.guide.extend(vec![rng.byte(); if rng.one_in(20) { 65_000 } else { rng.below(17) }]),
        7 if input.form == 2 => change_record(rng, &mut input.guide),
        8 if input.form == 1 => change_line(rng, &mut input.guide),
        _ => change(rng, &mut input.guide),
    }
}

/// Changes, removes or adds a few bytes, or cuts the end off.
fn change(rng: &mut Rng, bytes: &mut Vec<u8>) {
    let at = rng.below(bytes.len() + 1);
    match rng.below(5) {
        0 if at < bytes.len() => bytes[at] = rng.byte(),
        1 if at < bytes.len() => bytes[at] ^= 1 << rng.below(8),
        2 if at < bytes.len() => {
            bytes.remove(at);
        }
        3 => bytes.truncate(at),
        _ => bytes.insert(at, *rng.pick(b"\n()=07@;# z")),
    }
}

/// Changes a byte of the header, of a rule's head, of a part, or of the padding.
fn change_table(rng: &mut Rng, table: &mut Vec<u8>) {
    match rng.below(4) {
        0 => change(rng, table),
        1 if table.len() >= 8 => table[rng.below(8)] = rng.below(6) as u8,
        _ if table.len() >= 72 => {
            let row = 8 + 64 * rng.below((table.len() - 8) / 64);
            let at = row + *rng.pick(&[0, 1, 2, 3, 4, 5, 6, 7, 8, 9, 20, 63]);
            if let Some(byte) = table.get_mut(at) {
                *byte = *rng.pick(&[0, 1, 2, 3, 4, 16, 255]);
            }
        }
        _ => table.clear(),
    }
}

/// Changes a field of a record, or repeats the last record.
fn change_record(rng: &mut Rng, table: &mut Vec<u8>) {
    if table.len() < 8 {
        return;
    }
    let at = 8 * rng.below(table.len() / 8);
    match rng.below(6) {
        0 => table[at] = rng.below(4) as u8,
        1 => table[at + 1] = rng.below(2) as u8,
        2 => table[at + 2] = *rng.pick(&[0, 1, 39, 40]),
        3 => table[at + 5] = table[at + 5].wrapping_add(1),
        4 => table[at + 7] = *rng.pick(&[0, table[at + 7].wrapping_add(1)]),
        _ => table.extend_from_within(at..at + 8),
    }
}

/// Changes the rule number of a line, or puts in, takes out or repeats a line.
fn change_line(rng: &mut Rng, listing: &mut Vec<u8>) {
    let mut lines: Vec<Vec<u8>> = listing.split_inclusive(|b| *b == 10).map(<[u8]>::to_vec).collect();
    let at = rng.below(lines.len() + 1);
    match rng.below(4) {
        0 if at < lines.len() => {
            lines.remove(at);
        }
        1 if at < lines.len() => lines.insert(at, lines[at].clone()),
        2 if at < lines.len() && lines[at][0] == b'(' => lines[at] = format!("({}\n", rng.pick(&[0, 1, 2, 3, 4, 7, 8, 9, 77, 1_024, 9_999, 10_000])).into_bytes(),
        _ => lines.insert(at, rng.pick(&[&b")\n"[..], b"(3\n", b"=37\n", b"(03\n", b"=3A\n", b"\n", b") \n", b"(\n"]).to_vec()),
    }
    *listing = lines.concat();
}

/// A script of loads, clears, fetches and frees, some of them damaged, and the bytes that its answers are lent.
fn some_script(rng: &mut Rng) -> (Vec<u8>, usize) {
    let numbers: Vec<u16> = (0..1 + rng.below(4)).map(|_| 1 + rng.below(120) as u16).collect();
    let number = |rng: &mut Rng| if rng.one_in(12) { *rng.pick(&[0, 1, 120, 121, 256, 65_535]) } else { *rng.pick(&numbers) };
    let fill = rng.one_in(40);
    let mut script = Vec::new();
    let mut room = 0;
    if fill {
        fill_memory(rng, &mut script, &mut room);
    }
    for _ in 0..1 + rng.below(12) {
        let input = if rng.one_in(2) { sound_input(rng) } else { some_input(rng) };
        let bars: Vec<u8> = input.bars.iter().flat_map(|bar| bar.to_be_bytes()).collect();
        let kind = *rng.pick(&[Kind::Load, Kind::Load, Kind::Load, Kind::Clear, Kind::Fetch, Kind::Fetch, Kind::Free]);
        let mut call = Call::new(kind, number(rng));
        if kind == Kind::Load || rng.one_in(10) {
            call.form = input.form;
            call.blanks = input.blanks;
            call.frames = input.frames as u16;
            call.table = &input.table[..input.table.len().min(65_535)];
            call.bars = &bars;
            call.text = &input.text[..input.text.len().min(65_535)];
            call.guide = &input.guide[..input.guide.len().min(65_535)];
        }
        call.buffer = if rng.one_in(3) { rng.below(20) as u16 } else { *rng.pick(&[100, 4_096, 5_000]) };
        call.write(&mut script);
        room += model::RECORD + if kind == Kind::Fetch { call.buffer as usize } else { 0 };
    }
    match rng.below(12) {
        0 => change(rng, &mut script),
        1 => script.extend([0; 30]),
        2 => script.push(1),
        _ => {}
    }
    let room = match rng.below(6) {
        0 => rng.below(room + 1),
        1 => room + rng.below(200),
        _ => room,
    };
    (script, room)
}

/// Loads of long remarks, until the blocks run out.
fn fill_memory(rng: &mut Rng, script: &mut Vec<u8>, room: &mut usize) {
    let tree = samples::house_tree(&samples::settings(rng, 4_000, 30));
    let (events, text) = samples::walk(&tree);
    let guide = samples::listing(&events);
    for number in 1..=9 {
        let call = Call { text: &text, guide: &guide, ..Call::new(Kind::Load, number) };
        call.write(script);
        *room += model::RECORD;
    }
}

/// How often each refusal and each fault came up.
#[derive(Default)]
struct Counts {
    refusals: BTreeMap<u32, u64>,
    faults: BTreeMap<u32, u64>,
}

impl Counts {
    fn add(&mut self, answer: &Answer) {
        *self.refusals.entry(answer.refusal).or_default() += 1;
        if answer.fault != 0 {
            *self.faults.entry(answer.fault).or_default() += 1;
        }
    }
}

fn try_check(rng: &mut Rng, frames: &mut [library::Frame], counts: &mut Counts) -> Result<(), String> {
    let input = some_input(rng);
    let Input { table, blanks, bars, text, form, guide, frames: lent } = &input;
    let expected = model::check(table, *blanks, bars, text, *form, guide, *lent);
    let answer = library::check(table, *blanks, bars, text, *form, guide, &mut frames[..*lent]);
    counts.add(&expected);
    if answer == expected { Ok(()) } else { Err(format!("check: {answer:?}, and the model {expected:?}, for {input:?}")) }
}

fn try_replay(rng: &mut Rng, counts: &mut Counts) -> Result<(), String> {
    let (script, room) = some_script(rng);
    let filling = rng.byte();
    let mut expected = vec![filling; room];
    let mut answers = vec![filling; room];
    let expected_length = model::replay(&script, &mut expected, |answer| counts.add(answer));
    let length = library::replay(&script, &mut answers);
    if length != expected_length {
        return Err(format!("replay: {length} bytes, and the model {expected_length}, for {script:?} with {room} bytes of {filling}"));
    }
    match answers.iter().zip(&expected).position(|(a, b)| a != b) {
        None => Ok(()),
        Some(at) => Err(format!("replay: byte {at} is {}, and the model's {}, for {script:?} with {room} bytes of {filling}", answers[at], expected[at])),
    }
}

fn main() -> ExitCode {
    let mut arguments = std::env::args().skip(1).map(|word| word.parse().expect("a number"));
    let count: u64 = arguments.next().unwrap_or(300_000);
    let seed: u64 = arguments.next().unwrap_or(1);
    let mut frames = vec![library::Frame::default(); 1_200];
    let mut counts = Counts::default();
    let mut disagreements = 0;
    for n in 0..count {
        let mut rng = Rng::new(seed ^ n.wrapping_mul(0xD134_2543_DE82_EF95));
        let tried = if n % 4 == 3 { try_replay(&mut rng, &mut counts) } else { try_check(&mut rng, &mut frames, &mut counts) };
        if let Err(found) = tried {
            disagreements += 1;
            if disagreements <= 3 {
                eprintln!("input {n} of seed {seed}: {found}");
            }
        }
    }
    println!("refusal: times (0 is none)");
    counts.refusals.iter().for_each(|(number, times)| println!("{number:>7}: {times}"));
    println!("fault of a guide: times");
    counts.faults.iter().for_each(|(number, times)| println!("{number:>7}: {times}"));
    let missing = REFUSALS.iter().filter(|n| !counts.refusals.contains_key(n)).chain(FAULTS.iter().filter(|n| !counts.faults.contains_key(n)));
    let missing: Vec<_> = missing.collect();
    if !missing.is_empty() {
        println!("never came up: {missing:?}");
    }
    println!("{count} inputs, {disagreements} disagreements");
    if disagreements == 0 && missing.is_empty() { ExitCode::SUCCESS } else { ExitCode::FAILURE }
}
