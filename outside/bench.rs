//! How fast the proved library is, beside the model in plain Rust and two parsers that build their tree on the heap.
//!
//!     bench [ROUNDS]
//!
//! Every line is one run over the same samples: the sides take turns, round by round, and the median round counts, so that all of them
//! see the same machine. Times are the thread's processor time on Linux. What each side is given:
//!
//! - the product: the text, the guide, the grammar as bytes (each call opens and checks a table anew) and 1,024 frames that it is lent;
//! - the model: the text, the guide and a grammar that was built before; in the column `/bytes` the grammar as bytes, as the product;
//! - a heap parser: the text alone. It builds the tree, counts its rule nodes and drops it.
//!
//! No buffer is cleared between calls, on either side.
mod heap_parser;
mod library;
mod model;
mod samples;

use model::{Call, Checker, Grammar, Kind};
use samples::Rng;
use std::hint::black_box;

const SIZES: [usize; 4] = [10, 100, 1_000, 4_000];

/// A link table has at most 8,000 records. 4,000 digits, or 3,000 with blanks between them, would exceed that.
const LINK_TABLE_SIZES: [usize; 4] = [10, 100, 1_000, 2_500];

struct Sample {
    text: Vec<u8>,
    listing: Vec<u8>,
    links: Vec<u8>,
    events: u64,
}

impl Sample {
    fn of(tree: &heap_parser::uniform::Tree) -> Sample {
        let (events, text) = samples::walk(tree);
        Sample { text, listing: samples::listing(&events), links: samples::link_table(tree), events: events.len() as u64 + 1 }
    }

    fn guide(&self, form: u8) -> &[u8] {
        if form == 1 { &self.listing } else { &self.links }
    }
}

/// Texts of about so many bytes, of numbers with up to `digits` digits: long texts of short numbers would be too deep.
fn house_samples(bytes: usize, digits: usize, blanks: usize) -> Vec<Sample> {
    let mut rng = Rng::new(bytes as u64);
    let count = (200_000 / bytes).clamp(50, 4_096);
    let mut sample = || {
        let tree = samples::house_tree(&samples::settings(&mut rng, bytes.saturating_sub(digits), digits));
        Sample::of(&if blanks > 0 { samples::with_blanks(&mut rng, tree, blanks) } else { tree })
    };
    (0..count).map(|_| sample()).collect()
}

#[repr(C)]
struct Time {
    seconds: i64,
    nanoseconds: i64,
}

unsafe extern "C" {
    fn clock_gettime(clock: i32, time: *mut Time) -> i32;
}

/// The processor time of this thread in nanoseconds: time in which another program runs does not count.
fn processor_time() -> f64 {
    const THREAD_CPU_TIME: i32 = 3;
    let mut time = Time { seconds: 0, nanoseconds: 0 };
    unsafe { clock_gettime(THREAD_CPU_TIME, &mut time) };
    time.seconds as f64 * 1e9 + time.nanoseconds as f64
}

/// The medians of alternating rounds, in nanoseconds.
fn medians(rounds: usize, sides: &mut [&mut dyn FnMut() -> u64]) -> Vec<f64> {
    let mut times = vec![Vec::new(); sides.len()];
    for round in 0..rounds + 2 {
        for (side, times) in sides.iter_mut().zip(&mut times) {
            let start = processor_time();
            black_box(side());
            if round >= 2 {
                times.push(processor_time() - start);
            }
        }
    }
    let median = |times: &mut Vec<f64>| {
        times.sort_by(f64::total_cmp);
        times[times.len() / 2]
    };
    times.iter_mut().map(median).collect()
}

/// A grammar as a caller of the library chooses it.
#[derive(Clone)]
struct Choice {
    name: &'static str,
    table: Vec<u8>,
    blanks: u8,
    bars: Vec<u16>,
}

impl Choice {
    fn built(&self) -> Grammar {
        Grammar::chosen(&self.table, self.blanks != 0, self.bars.iter().copied()).expect("a lawful choice").into_owned()
    }

    fn product(&self, sample: &Sample, form: u8, frames: &mut [library::Frame]) -> u64 {
        library::check(black_box(&self.table), self.blanks, &self.bars, black_box(&sample.text), form, black_box(sample.guide(form)), frames).rules as u64
    }

    fn model(&self, sample: &Sample, form: u8) -> u64 {
        model::check(black_box(&self.table), self.blanks, &self.bars, black_box(&sample.text), form, black_box(sample.guide(form)), 1_024).rules as u64
    }
}

fn model_kept(checker: &mut Checker, sample: &Sample, form: u8) -> u64 {
    model::check_with(checker, black_box(&sample.text), form, black_box(sample.guide(form)), 1_024).map_or(0, |accepted| accepted.rules as u64)
}

const COLUMNS: &str = "                          bytes  events | product  model  typed uniform  ns/event | checks/s  Mevents/s | /model /bytes /typed /uniform";

fn row(name: &str, bytes: usize, checks: usize, events: u64, times: &[f64]) {
    let [product, kept, given, heap @ ..] = times else { return };
    let per = |time: f64| time / events as f64;
    let heaps = |f: &dyn Fn(f64) -> f64, width: usize| match heap {
        [typed, uniform] => format!("{:6.2} {:width$.2}", f(*typed), f(*uniform)),
        _ => format!("{:>6} {:>width$}", "-", "-"),
    };
    println!(
        "{name:<25} {bytes:>5} {:>7} | {:7.2} {:6.2} {}           | {:8.0} {:10.1} | {:6.2} {:6.2} {}",
        events as usize / checks, per(*product), per(*kept), heaps(&per, 7), checks as f64 / product * 1e9, events as f64 / product * 1e3,
        product / kept, product / given, heaps(&|time| product / time, 8),
    );
}

fn checks(rounds: usize, form: u8, choice: &Choice, spaces: usize, heap: bool) {
    for bytes in if form == 1 { SIZES } else { LINK_TABLE_SIZES } {
        let digits: usize = if form == 1 && spaces == 0 { 6 } else { 20 };
        let samples = house_samples(bytes, digits.min(bytes / 3), spaces);
        let events: u64 = samples.iter().map(|s| s.events).sum();
        let mut frames = vec![library::Frame::default(); 1_024];
        let grammar = choice.built();
        let mut checker = Checker::new(&grammar);
        let mut product = || samples.iter().map(|s| choice.product(s, form, &mut frames)).sum();
        let mut kept = || samples.iter().map(|s| model_kept(&mut checker, s, form)).sum();
        let mut given = || samples.iter().map(|s| choice.model(s, form)).sum();
        let mut typed = || samples.iter().map(|s| heap_parser::typed::parse(black_box(&s.text)).map_or(0, |t| heap_parser::typed::rules(black_box(&t)) as u64)).sum();
        let mut uniform = || samples.iter().map(|s| heap_parser::uniform::parse(black_box(&s.text)).map_or(0, |t| heap_parser::uniform::rules(black_box(&t)) as u64)).sum();
        let mut sides: Vec<&mut dyn FnMut() -> u64> = vec![&mut product, &mut kept, &mut given];
        if heap {
            sides.push(&mut typed);
            sides.push(&mut uniform);
        }
        agree(&mut sides);
        let times = medians(rounds, &mut sides);
        row(choice.name, bytes, samples.len(), events, &times);
    }
}

/// Every side has counted the same rule nodes.
fn agree(sides: &mut [&mut dyn FnMut() -> u64]) {
    let rules: Vec<u64> = sides.iter_mut().map(|side| side()).collect();
    assert!(rules[0] > 0 && rules.iter().all(|r| *r == rules[0]), "the sides disagree: {rules:?}");
}

/// The choices take turns, call by call, all in one library.
fn alternating(rounds: usize, choices: &[Choice]) {
    for bytes in SIZES {
        let samples = house_samples(bytes, 6.min(bytes / 3), 0);
        let events: u64 = samples.iter().map(|s| s.events).sum();
        let mut frames = vec![library::Frame::default(); 1_024];
        let grammars: Vec<Grammar> = choices.iter().map(Choice::built).collect();
        let mut checkers: Vec<Checker> = grammars.iter().map(Checker::new).collect();
        let turns = || samples.iter().zip((0..choices.len()).cycle());
        let mut product = || turns().map(|(s, n)| choices[n].product(s, 1, &mut frames)).sum();
        let mut kept = || turns().map(|(s, n)| model_kept(&mut checkers[n], s, 1)).sum();
        let mut given = || turns().map(|(s, n)| choices[n].model(s, 1)).sum();
        let mut sides: Vec<&mut dyn FnMut() -> u64> = vec![&mut product, &mut kept, &mut given];
        agree(&mut sides);
        let times = medians(rounds, &mut sides);
        row("three of these, in turns", bytes, samples.len(), events, &times);
    }
}

/// How long a script takes on each side, in nanoseconds.
fn replays(rounds: usize, script: &[u8]) -> [f64; 2] {
    let times = if script.len() < 10_000 { 20 } else { 2 };
    let mut answers = vec![0; 2_000_000];
    let mut other = vec![0; 2_000_000];
    let mut product = || (0..times).map(|_| library::replay(black_box(script), &mut answers) as u64).sum();
    let mut model = || (0..times).map(|_| model::replay(black_box(script), &mut other, |_| ()) as u64).sum();
    assert_eq!(product(), model(), "the sides disagree");
    let found = medians(rounds, &mut [&mut product, &mut model]);
    [found[0] / times as f64, found[1] / times as f64]
}

fn call_row(name: &str, bytes: usize, calls: u16, with: [f64; 2], without: [f64; 2]) {
    let [product, model] = [0, 1].map(|side| (with[side] - without[side]) / calls as f64);
    println!("{name:<25} {bytes:>5} {calls:>7} | {product:9.0} {model:9.0} | {:10.0} | {:6.2}", 1e9 / product, product / model);
}

fn script<'a>(calls: impl IntoIterator<Item = Call<'a>>) -> Vec<u8> {
    let mut script = Vec::new();
    calls.into_iter().for_each(|call| call.write(&mut script));
    script
}

/// Each call by the difference of two scripts: with so many such calls, and without.
fn calls(rounds: usize) {
    println!("\nCalls on the memory; ns a call. Each is the difference of two scripts, with so many such calls and without.\nA clear takes as long for a text of any length, and is lost in the loads before it where these take long");
    println!("                          bytes   calls |   product     model |    calls/s | /model");
    let nothing = replays(rounds, &[]);
    call_row("new memory (empty script)", 0, 1, nothing, [0.0; 2]);
    let frees = script((0..400).map(|_| Call::new(Kind::Free, 0)));
    call_row("free", 0, 400, replays(rounds, &frees), nothing);
    for bytes in SIZES {
        let sample = &house_samples(bytes, 6.min(bytes / 3), 0)[0];
        let length = sample.text.len();
        let load = |n| Call { text: &sample.text, guide: &sample.listing, ..Call::new(Kind::Load, n) };
        let count = (512 / length.div_ceil(64)).min(120) as u16;
        let loads = script((1..=count).map(load));
        let loaded = replays(rounds, &loads);
        call_row("load, by a listing", length, count, loaded, nothing);
        if bytes == SIZES[0] {
            let clears = [loads, script((1..=count).map(|n| Call::new(Kind::Clear, n)))].concat();
            call_row("clear", length, count, replays(rounds, &clears), loaded);
        }
        let held = script([load(1)]);
        let fetches = (0..400).map(|_| Call { buffer: length as u16, ..Call::new(Kind::Fetch, 1) });
        call_row("fetch", length, 400, replays(rounds, &[held.clone(), script(fetches)].concat()), replays(rounds, &held));
    }
}

fn main() {
    let rounds: usize = std::env::args().nth(1).and_then(|n| n.parse().ok()).unwrap_or(41);
    let table = samples::packed_table(&Grammar::house());
    let choice = |name, table: &[u8], blanks, bars: &[u16]| Choice { name, table: table.to_vec(), blanks, bars: bars.to_vec() };
    let house = choice("house", &[], 0, &[]);
    let packed = choice("house as packed table", &table, 0, &[]);
    let spaced = choice("house, blanks", &[], 1, &[]);
    let barred = choice("house, 3 bars", &[], 0, &[5, 9, 1_000]);
    let layers = choice("packed, blanks, 3 bars", &table, 1, &[5, 12, 1_000]);
    println!("Check of a listing\n{COLUMNS}");
    checks(rounds, 1, &house, 0, true);
    checks(rounds, 1, &packed, 0, false);
    checks(rounds, 1, &spaced, 1, false);
    checks(rounds, 1, &barred, 0, false);
    checks(rounds, 1, &layers, 1, false);
    alternating(rounds, &[house.clone(), packed.clone(), barred]);
    println!("\nCheck of a link table\n{COLUMNS}");
    checks(rounds, 2, &house, 0, true);
    checks(rounds, 2, &packed, 0, false);
    checks(rounds, 2, &spaced, 1, false);
    calls(rounds);
}
