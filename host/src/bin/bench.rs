//! Times of the library against the Rust model, in one run on the same inputs; of syndrome and
//! repairs also against Rust that sums and repairs the same way; of lists against a plain loop.
//!
//! `cargo run --release --offline --bin bench`
//!
//! Each figure is the best of many short samples, taken in turns. Buffers are made once and not
//! cleared between calls; the opening of a whole run clears the string, on both sides.

#[path = "../by_subtraction.rs"]
mod by_subtraction;

use std::hint::black_box;
use std::time::Instant;

use lunetteorris::model::Model;
use lunetteorris::{
    pack, sheet_rows, unpack, BitString, Ends, Library, Marker, Settings, HOLDER_BYTES, MAX_BITS,
    MAX_LIST_BITS, MAX_MARKER_BITS, QUESTION_BYTES, REBUILDER_BYTES, REPLY_BYTES, ROW_BYTES,
};

const LENGTHS: [usize; 3] = [4_096, 16_384, MAX_BITS];
/// Bits of marker words.
const MARKER_LENGTHS: [usize; 3] = [256, 1_024, MAX_MARKER_BITS];
/// What the copies of whole runs have lost and gained.
const CHANGES: [Change; 5] = [
    Change::Edits(0),
    Change::Edits(1),
    Change::Edits(33),
    Change::Edits(131),
    Change::Bursts(33),
];
/// Bits of the one run that a copy has lost or gained.
const RUNS: [usize; 4] = [1, 7, 16, 32];
/// Samples of each side, and the least time of one.
const SAMPLES: usize = 60;
const SAMPLE_SECONDS: f64 = 0.002;
/// Bound on the ratio of the times.
const RATIO: f64 = 1.1;

fn main() {
    if cfg!(feature = "model-only") {
        println!("Built with model-only: the columns called Rattle are the model.");
    }
    println!("{} cores, {} GB of memory.", cores(), memory());
    println!("Times in microseconds, best of {SAMPLES} samples; buffers not cleared first.");
    let mut growth = Vec::new();
    let mut grows = |name: &str, times: [f64; 3]| {
        growth.push((name.to_string(), times[2] / times[1], None));
    };
    let mut worst = print_functions(&FUNCTIONS, LENGTHS, "Rust", &mut grows);
    worst = worst.max(print_functions(
        &FUNCTIONS_SAME_WAY,
        LENGTHS,
        "Rust, same way",
        |_, _| (),
    ));
    worst = worst.max(print_functions(&MARKERS, MARKER_LENGTHS, "Rust", grows));
    println!();
    println!(
        "{:<24}{:>8}{:>12}{:>12}{:>8}{:>14}",
        "one run of bits", "bits", "Rattle", "Rust", "ratio", "answer bytes"
    );
    for run in RUNS {
        for lost in [true, false] {
            let one = OneRun::new(run, lost);
            let change = if lost { "lost" } else { "gained" };
            for (end, (library, model)) in [
                ("holder", one.time_holder()),
                ("rebuilder", one.time_rebuilder()),
            ] {
                let ratio = library / model;
                worst = worst.max(ratio);
                let name = format!("{end}, {run} {change}");
                let bits = one.x.bits();
                let bytes = one.answer.len();
                println!("{name:<24}{bits:>8}{library:>12.2}{model:>12.2}{ratio:>8.2}{bytes:>14}");
            }
        }
    }
    println!();
    println!(
        "{:<24}{:>8}{:>12}{:>12}{:>8}{:>11}{:>16}{:>14}{:>12}",
        "whole run",
        "bits",
        "Rattle",
        "Rust",
        "ratio",
        "questions",
        "question bytes",
        "answer bytes",
        "bits asked"
    );
    for change in CHANGES {
        let name = change.name();
        let runs = LENGTHS.map(|bits| {
            let mut run = Run::new(bits, change);
            let traffic = run.check();
            let (library, model) = run.time();
            let ratio = library / model;
            worst = worst.max(ratio);
            println!(
                "{name:<24}{bits:>8}{library:>12.2}{model:>12.2}{ratio:>8.2}\
                 {:>11}{:>16}{:>14}{:>12}{}",
                traffic.questions,
                traffic.question_bytes,
                traffic.answer_bytes,
                traffic.bits_asked,
                if traffic.whole {
                    "  whole string asked"
                } else {
                    ""
                }
            );
            (library, traffic.bits_asked as f64)
        });
        let [_, short, long] = runs;
        growth.push((name, long.0 / short.0, Some(long.1 / short.1)));
    }
    println!();
    println!("Growth of Rattle's time from 16,384 to 65,536 bits, of markers from 1,024 to 4,096;");
    println!("4.0 is linear. A run goes over its pieces again on each level: its growth is to be");
    println!("that of the bits asked about.");
    for (name, time, asked) in growth {
        let asked = asked.map_or(String::new(), |asked| format!("  (bits asked {asked:.2})"));
        println!("{name:<24}{time:>8.2}{asked}");
    }
    println!();
    let verdict = if worst <= RATIO { "within" } else { "ABOVE" };
    println!("Worst ratio {worst:.3}, {verdict} the bound of {RATIO}.");
    print_lists();
}

/// Prints the functions' times at these lengths, Rust's under this title; `see` gets the library's.
/// Gives the worst ratio.
fn print_functions(
    functions: &[Function],
    lengths: [usize; 3],
    title: &str,
    mut see: impl FnMut(&str, [f64; 3]),
) -> f64 {
    let width = 12.max(title.len() + 2);
    let mut worst: f64 = 0.0;
    println!();
    println!(
        "{:<24}{:>8}{:>12}{title:>width$}{:>8}",
        "function", "bits", "Rattle", "ratio"
    );
    for (name, time) in functions {
        let times = lengths.map(|bits| {
            let (library, rust) = time(bits);
            let ratio = library / rust;
            worst = worst.max(ratio);
            println!("{name:<24}{bits:>8}{library:>12.2}{rust:>width$.2}{ratio:>8.2}");
            library
        });
        see(name, times);
    }
    worst
}

fn cores() -> usize {
    std::thread::available_parallelism().map_or(0, |cores| cores.get())
}

/// Gigabytes, as far as the system tells.
fn memory() -> String {
    let text = std::fs::read_to_string("/proc/meminfo").unwrap_or_default();
    let total = text.lines().find_map(|line| line.strip_prefix("MemTotal:"));
    let kilobytes = total.and_then(|rest| rest.split_whitespace().next()?.parse::<u64>().ok());
    kilobytes.map_or("?".to_string(), |kilobytes| (kilobytes >> 20).to_string())
}

// Time

/// Best times of one call of each, in microseconds.
fn compare(mut library: impl FnMut(), mut rust: impl FnMut()) -> (f64, f64) {
    let calls_library = calls_for_a_sample(&mut library);
    let calls_rust = calls_for_a_sample(&mut rust);
    let mut best = (f64::MAX, f64::MAX);
    for _ in 0..SAMPLES {
        best.0 = best.0.min(time_of(&mut library, calls_library));
        best.1 = best.1.min(time_of(&mut rust, calls_rust));
    }
    (best.0 * 1e6, best.1 * 1e6)
}

/// Seconds for one of `calls` calls.
fn time_of(call: &mut impl FnMut(), calls: usize) -> f64 {
    let before = Instant::now();
    for _ in 0..calls {
        call();
    }
    before.elapsed().as_secs_f64() / calls as f64
}

fn calls_for_a_sample(call: &mut impl FnMut()) -> usize {
    let mut calls = 1;
    while time_of(call, calls) * (calls as f64) < SAMPLE_SECONDS {
        calls *= 2;
    }
    calls
}

// Inputs

/// Marsaglia's 64-bit xorshift (13, 7, 17).
struct Random(u64);

impl Random {
    fn next(&mut self) -> u64 {
        self.0 ^= self.0 << 13;
        self.0 ^= self.0 >> 7;
        self.0 ^= self.0 << 17;
        self.0
    }

    fn below(&mut self, bound: usize) -> usize {
        (self.next() >> 11) as usize % bound
    }
}

fn random_bits(bits: usize, random: &mut Random) -> Vec<bool> {
    (0..bits).map(|_| random.next() >> 63 == 1).collect()
}

fn packed(bits: &[bool]) -> BitString {
    BitString::from_bits(bits.iter().copied()).expect("at most 65,536 bits")
}

// Functions

type Function = (&'static str, fn(usize) -> (f64, f64));

/// Against the model.
const FUNCTIONS: [Function; 6] = [
    ("syndrome", time_syndrome::<Model>),
    ("hash", time_hash),
    ("put-in", time_put_in::<Model>),
    ("take-out", time_take_out::<Model>),
    ("anchor, random Y", time_anchor_random),
    ("anchor, all-zero Y", time_anchor_zero),
];

/// Against Rust that sums and repairs the same way.
const FUNCTIONS_SAME_WAY: [Function; 3] = [
    ("syndrome", time_syndrome::<SameWay>),
    ("put-in", time_put_in::<SameWay>),
    ("take-out", time_take_out::<SameWay>),
];

/// Syndrome and repairs: of library, model or `by_subtraction`.
trait Codes {
    fn syndrome_of(s: &[u8], bits: usize) -> u64;
    fn repair_of(s: &[u8], bits: usize, n: usize, a: usize, out: &mut [u8]) -> u64;
}

impl<E: Ends> Codes for E {
    fn syndrome_of(s: &[u8], bits: usize) -> u64 {
        E::syndrome(s, bits)
    }

    fn repair_of(s: &[u8], bits: usize, n: usize, a: usize, out: &mut [u8]) -> u64 {
        E::repair(s, bits, n, a, out)
    }
}

struct SameWay;

impl Codes for SameWay {
    fn syndrome_of(s: &[u8], bits: usize) -> u64 {
        pack(Ok(by_subtraction::syndrome(s, black_box(0), bits).into()))
    }

    fn repair_of(s: &[u8], bits: usize, n: usize, a: usize, out: &mut [u8]) -> u64 {
        pack(Ok(
            by_subtraction::repair(s, black_box(0), bits, n, a, out).into()
        ))
    }
}

fn time_syndrome<R: Codes>(bits: usize) -> (f64, f64) {
    fn call<C: Codes>(s: &BitString) -> u64 {
        black_box(C::syndrome_of(black_box(s.as_bytes()), s.bits()))
    }
    let s = packed(&random_bits(bits, &mut Random(1)));
    assert_eq!(call::<Library>(&s), call::<R>(&s));
    compare(|| _ = call::<Library>(&s), || _ = call::<R>(&s))
}

fn time_hash(bits: usize) -> (f64, f64) {
    fn call<E: Ends>(s: &BitString) -> u64 {
        black_box(E::hash(black_box(s.as_bytes()), s.bits(), 16, 1))
    }
    let s = packed(&random_bits(bits, &mut Random(2)));
    assert_eq!(call::<Library>(&s), call::<Model>(&s));
    compare(|| _ = call::<Library>(&s), || _ = call::<Model>(&s))
}

/// A repair of `s` to the string `x`.
fn time_repair<R: Codes>(s: &BitString, x: &BitString) -> (f64, f64) {
    fn call<C: Codes>(s: &BitString, n: usize, a: usize, out: &mut [u8]) -> u64 {
        black_box(C::repair_of(
            black_box(s.as_bytes()),
            s.bits(),
            n,
            a,
            black_box(out),
        ))
    }
    let n = x.bits();
    let a = unpack(Model::syndrome(x.as_bytes(), n)).expect("legal") as usize;
    let mut outs = [vec![0; n.div_ceil(8)], vec![0; n.div_ceil(8)]];
    let [out, out_rust] = &mut outs;
    assert_eq!(call::<Library>(s, n, a, out), pack(Ok(1)));
    assert_eq!(call::<R>(s, n, a, out_rust), pack(Ok(1)));
    assert_eq!((&out[..], &out_rust[..]), (x.as_bytes(), x.as_bytes()));
    compare(
        || _ = call::<Library>(s, n, a, out),
        || _ = call::<R>(s, n, a, out_rust),
    )
}

fn time_put_in<R: Codes>(bits: usize) -> (f64, f64) {
    let x = random_bits(bits, &mut Random(3));
    let mut s = x.clone();
    s.remove(bits / 2);
    time_repair::<R>(&packed(&s), &packed(&x))
}

fn time_take_out<R: Codes>(bits: usize) -> (f64, f64) {
    let s = random_bits(bits, &mut Random(4));
    let mut x = s.clone();
    x.remove(bits / 2);
    time_repair::<R>(&packed(&s), &packed(&x))
}

/// A search of the whole window that finds no place.
fn time_anchor(y: &BitString, anchor: &BitString) -> (f64, f64) {
    fn call<E: Ends>(y: &BitString, anchor: &BitString) -> u64 {
        let bits = y.bits();
        let m = anchor.bits();
        black_box(E::anchor(
            black_box(y.as_bytes()),
            bits,
            0,
            bits,
            bits,
            (bits - m) / 2,
            m as u32,
            8,
            anchor.as_bytes(),
        ))
    }
    assert_eq!(
        (call::<Library>(y, anchor), call::<Model>(y, anchor)),
        (0, 0)
    );
    compare(
        || _ = call::<Library>(y, anchor),
        || _ = call::<Model>(y, anchor),
    )
}

fn time_anchor_random(bits: usize) -> (f64, f64) {
    let y = packed(&random_bits(bits, &mut Random(5)));
    let anchor = packed(&random_bits(64, &mut Random(6)));
    time_anchor(&y, &anchor)
}

fn time_anchor_zero(bits: usize) -> (f64, f64) {
    let mut anchor = [false; 64];
    anchor[63] = true;
    time_anchor(&packed(&vec![false; bits]), &packed(&anchor))
}

// Marker words

/// Against the model.
const MARKERS: [Function; 4] = [
    ("marker built", time_marker_built),
    ("marker read, whole", |n| time_marker_read(n, |_| ())),
    ("marker read, one lost", |n| {
        time_marker_read(n, |word| _ = word.remove(word.len() / 2))
    }),
    ("marker read, one added", |n| {
        time_marker_read(n, |word| word.insert(word.len() / 2, true))
    }),
];

/// A random message, its word of n bits, and the word's syndrome.
fn marker(n: usize) -> (BitString, BitString, usize) {
    let a = n / 3;
    let marker = Marker::new(n, a).expect("n and a are in range");
    let message = packed(&random_bits(marker.message_bits(), &mut Random(9)));
    let word = marker.build(&message).expect("the message has its length");
    (message, word, a)
}

fn time_marker_built(n: usize) -> (f64, f64) {
    fn call<E: Ends>(message: &BitString, n: usize, a: usize, out: &mut [u8]) -> u64 {
        black_box(E::marker_build(
            black_box(message.as_bytes()),
            message.bits(),
            black_box(n),
            a,
            black_box(out),
        ))
    }
    let (message, word, a) = marker(n);
    let mut outs = [vec![0; n.div_ceil(8)], vec![0; n.div_ceil(8)]];
    let [out, out_model] = &mut outs;
    assert_eq!(call::<Library>(&message, n, a, out), pack(Ok(1)));
    assert_eq!(call::<Model>(&message, n, a, out_model), pack(Ok(1)));
    assert_eq!(
        (&out[..], &out_model[..]),
        (word.as_bytes(), word.as_bytes())
    );
    compare(
        || _ = call::<Library>(&message, n, a, out),
        || _ = call::<Model>(&message, n, a, out_model),
    )
}

fn time_marker_read(n: usize, damage: impl Fn(&mut Vec<bool>)) -> (f64, f64) {
    fn call<E: Ends>(received: &BitString, n: usize, a: usize, out: &mut [u8]) -> u64 {
        black_box(E::marker_read(
            black_box(received.as_bytes()),
            received.bits(),
            black_box(n),
            a,
            black_box(out),
        ))
    }
    let (message, word, a) = marker(n);
    let mut received: Vec<bool> = word.iter().collect();
    damage(&mut received);
    let received = packed(&received);
    let bytes = message.as_bytes();
    let mut outs = [vec![0; bytes.len()], vec![0; bytes.len()]];
    let [out, out_model] = &mut outs;
    assert_eq!(call::<Library>(&received, n, a, out), pack(Ok(1)));
    assert_eq!(call::<Model>(&received, n, a, out_model), pack(Ok(1)));
    assert_eq!((&out[..], &out_model[..]), (bytes, bytes));
    compare(
        || _ = call::<Library>(&received, n, a, out),
        || _ = call::<Model>(&received, n, a, out_model),
    )
}

// One run of bits lost or gained: the holder's answer and the rebuilder's call

/// The states after the opening, the question that waits, and its answer.
struct OneRun {
    x: BitString,
    y: BitString,
    holder: [u8; HOLDER_BYTES],
    rebuilder: [u8; REBUILDER_BYTES],
    question: Vec<u8>,
    answer: Vec<u8>,
}

impl OneRun {
    /// The longer string has 65,536 bits; the run stands in its middle.
    fn new(run: usize, lost: bool) -> OneRun {
        let long = random_bits(MAX_BITS, &mut Random(8 + run as u64));
        let mut short = long.clone();
        let at = (MAX_BITS - run) / 2;
        short.drain(at..at + run);
        let (long, short) = (packed(&long), packed(&short));
        let (x, y) = if lost { (long, short) } else { (short, long) };
        let mut buffers = Buffers::new(x.bits());
        let mut messages = Vec::new();
        let mut states = Vec::new();
        run_with::<Model>(&x, &y, &mut buffers, |states_before, question, answer| {
            states.push(states_before);
            messages.push((question.to_vec(), answer.to_vec()));
        });
        assert_eq!(messages.len(), 2, "the opening, then one question");
        let (holder, rebuilder) = states[1];
        let (question, answer) = messages.pop().expect("two messages");
        OneRun {
            x,
            y,
            holder,
            rebuilder,
            question,
            answer,
        }
    }

    fn time_holder(&self) -> (f64, f64) {
        fn call<E: Ends>(one: &OneRun, reply: &mut [u8]) -> u64 {
            let mut state = one.holder;
            black_box(E::holder_answer(
                &mut state,
                black_box(one.x.as_bytes()),
                one.x.bits(),
                &one.question,
                reply,
            ))
        }
        let mut replies = [[0; REPLY_BYTES]; 2];
        let [reply, reply_model] = &mut replies;
        let length = self.answer.len();
        assert_eq!(call::<Library>(self, reply), pack(Ok(length as u64)));
        assert_eq!(call::<Model>(self, reply_model), pack(Ok(length as u64)));
        assert_eq!(reply[..length], self.answer);
        assert_eq!(reply_model[..length], self.answer);
        compare(
            || _ = call::<Library>(self, reply),
            || _ = call::<Model>(self, reply_model),
        )
    }

    fn time_rebuilder(&self) -> (f64, f64) {
        fn call<E: Ends>(one: &OneRun, buffers: &mut Buffers) -> u64 {
            buffers.rebuilder = one.rebuilder;
            black_box(E::rebuilder_call(
                &mut buffers.rebuilder,
                black_box(one.y.as_bytes()),
                one.y.bits(),
                &mut buffers.string,
                &mut buffers.sheet,
                &one.answer,
                &mut buffers.question,
            ))
        }
        let mut library = Buffers::new(self.x.bits());
        let mut model = library.clone();
        assert_eq!(call::<Library>(self, &mut library), 0, "finished");
        assert_eq!(call::<Model>(self, &mut model), 0, "finished");
        assert!(library == model);
        assert_eq!(library.string, self.x.as_bytes());
        compare(
            || _ = call::<Library>(self, &mut library),
            || _ = call::<Model>(self, &mut model),
        )
    }
}

// Whole runs

/// What a copy has lost and gained, in turns, losses first.
#[derive(Clone, Copy)]
enum Change {
    /// So many bits.
    Edits(usize),
    /// So many runs of 2 to 32 bits.
    Bursts(usize),
}

impl Change {
    fn name(self) -> String {
        match self {
            Change::Edits(edits) => format!("{edits} edits"),
            Change::Bursts(bursts) => format!("{bursts} bursts"),
        }
    }

    fn count(self) -> usize {
        match self {
            Change::Edits(count) | Change::Bursts(count) => count,
        }
    }

    /// Bits of the next loss or gain.
    fn length(self, random: &mut Random) -> usize {
        match self {
            Change::Edits(_) => 1,
            Change::Bursts(_) => 2 + random.below(31),
        }
    }
}

/// States and buffers of both ends.
#[derive(Clone, PartialEq)]
struct Buffers {
    holder: [u8; HOLDER_BYTES],
    rebuilder: [u8; REBUILDER_BYTES],
    string: Vec<u8>,
    sheet: Vec<u8>,
    question: [u8; QUESTION_BYTES],
    reply: [u8; REPLY_BYTES],
}

impl Buffers {
    /// For a reference of so many bits under the house settings.
    fn new(bits: usize) -> Buffers {
        Buffers {
            holder: [0; HOLDER_BYTES],
            rebuilder: [0; REBUILDER_BYTES],
            string: vec![0; bits.div_ceil(8)],
            sheet: vec![0; ROW_BYTES * sheet_rows(bits, Settings::HOUSE.anchor as usize)],
            question: [0; QUESTION_BYTES],
            reply: [0; REPLY_BYTES],
        }
    }
}

#[derive(Debug, Default, PartialEq)]
struct Traffic {
    questions: usize,
    question_bytes: usize,
    answer_bytes: usize,
    /// Lengths of the ranges in all questions together.
    bits_asked: usize,
    whole: bool,
}

struct Run {
    x: BitString,
    y: BitString,
    library: Buffers,
    model: Buffers,
}

impl Run {
    /// Random X; Y with bits lost and gained at random places.
    fn new(bits: usize, change: Change) -> Run {
        let mut random = Random(7 + (bits * 1_000 + change.count()) as u64);
        let x = random_bits(bits, &mut random);
        let mut y = x.clone();
        let mut length = 0;
        for edit in 0..change.count() {
            // What is gained is as long as what was lost before it, so that Y stays within X's length.
            if edit % 2 == 0 {
                length = change.length(&mut random);
                let at = random.below(y.len() + 1 - length);
                y.drain(at..at + length);
            } else {
                let at = random.below(y.len() + 1);
                let gained = random_bits(length, &mut random);
                y.splice(at..at, gained);
            }
        }
        let buffers = Buffers::new(bits);
        Run {
            x: packed(&x),
            y: packed(&y),
            library: buffers.clone(),
            model: buffers,
        }
    }

    /// One run of each: same traffic, same buffers, X rebuilt.
    fn check(&mut self) -> Traffic {
        let traffic = run::<Library>(&self.x, &self.y, &mut self.library);
        assert_eq!(traffic, run::<Model>(&self.x, &self.y, &mut self.model));
        assert!(self.library == self.model);
        assert_eq!(self.library.string, self.x.as_bytes());
        traffic
    }

    fn time(&mut self) -> (f64, f64) {
        let (x, y) = (&self.x, &self.y);
        let (library, model) = (&mut self.library, &mut self.model);
        compare(
            || _ = black_box(run::<Library>(black_box(x), black_box(y), library)),
            || _ = black_box(run::<Model>(black_box(x), black_box(y), model)),
        )
    }
}

/// The third number of a question: the length of its range.
fn range_length(question: &[u8]) -> usize {
    let (mut numbers, mut value, mut place) = (0, 0, 0);
    for &byte in question {
        value |= (byte as usize & 0x7f) << place;
        place += 7;
        if byte < 0x80 {
            numbers += 1;
            if numbers == 3 {
                return value;
            }
            (value, place) = (0, 0);
        }
    }
    unreachable!("a question after the opening has three numbers or four")
}

/// A whole run under the house settings.
fn run<E: Ends>(x: &BitString, y: &BitString, buffers: &mut Buffers) -> Traffic {
    run_with::<E>(x, y, buffers, |_, _, _| ())
}

/// The same, seen by `see` at each question: the states of holder and rebuilder before its answer is
/// given and taken, the question and the answer.
fn run_with<E: Ends>(
    x: &BitString,
    y: &BitString,
    buffers: &mut Buffers,
    mut see: impl FnMut(([u8; HOLDER_BYTES], [u8; REBUILDER_BYTES]), &[u8], &[u8]),
) -> Traffic {
    let Settings {
        anchor,
        hash,
        window,
        key,
        ceiling,
    } = Settings::HOUSE;
    let taken = |packed| unpack(packed).expect("an honest call is taken") as usize;
    let mut traffic = Traffic::default();
    taken(E::holder_fresh(&mut buffers.holder));
    let mut length = taken(E::rebuilder_start(
        anchor,
        hash,
        window,
        key,
        ceiling,
        y.as_bytes(),
        y.bits(),
        &mut buffers.rebuilder,
        &mut buffers.question,
    ));
    while length > 0 {
        let question = &buffers.question[..length];
        let states = (buffers.holder, buffers.rebuilder);
        let reply_length = taken(E::holder_answer(
            &mut buffers.holder,
            x.as_bytes(),
            x.bits(),
            question,
            &mut buffers.reply,
        ));
        traffic.questions += 1;
        traffic.question_bytes += length;
        traffic.answer_bytes += reply_length;
        traffic.bits_asked += if traffic.questions > 1 {
            range_length(question)
        } else {
            0
        };
        see(states, question, &buffers.reply[..reply_length]);
        traffic.whole = reply_length == 1 + x.bits().div_ceil(8);
        length = taken(E::rebuilder_call(
            &mut buffers.rebuilder,
            y.as_bytes(),
            y.bits(),
            &mut buffers.string,
            &mut buffers.sheet,
            &buffers.reply[..reply_length],
            &mut buffers.question,
        ));
    }
    traffic
}

// All strings of one syndrome

/// Bounds on the longest list: its milliseconds, and how many times as fast as the loop it is.
const LIST_MILLISECONDS: f64 = 20.0;
const LIST_FACTOR: f64 = 4.0;

/// The lists of the longest strings, against a loop over all numbers.
fn print_lists() {
    println!();
    println!(
        "{:<24}{:>8}{:>12}{:>12}{:>8}",
        "all of one syndrome", "a", "Rattle", "Rust loop", "ratio"
    );
    let (mut slowest, mut least): (f64, f64) = (0.0, f64::MAX);
    for a in [0, 10] {
        let (library, plain) = time_list(MAX_LIST_BITS, a);
        slowest = slowest.max(library / 1e3);
        least = least.min(plain / library);
        let name = format!("list, n {MAX_LIST_BITS}");
        let ratio = library / plain;
        println!("{name:<24}{a:>8}{library:>12.2}{plain:>12.2}{ratio:>8.2}");
    }
    let time = if slowest <= LIST_MILLISECONDS {
        "within"
    } else {
        "ABOVE"
    };
    let factor = if least >= LIST_FACTOR {
        "at least"
    } else {
        "BELOW"
    };
    println!();
    println!("Slowest list {slowest:.2} ms, {time} the bound of {LIST_MILLISECONDS} ms;");
    println!("{least:.2} times as fast as the loop, {factor} the {LIST_FACTOR} asked for.");
}

fn time_list(n: usize, a: usize) -> (f64, f64) {
    fn call(n: usize, a: usize, out: &mut [u32]) -> u64 {
        black_box(Library::list(black_box(n), black_box(a), black_box(out)))
    }
    let mut list = Vec::with_capacity(1 << n);
    plain_list(n as u32, a as u32, &mut list);
    let mut out = vec![0; list.len()];
    assert_eq!(call(n, a, &mut out), pack(Ok(list.len() as u64)));
    assert!(out == list);
    compare(
        || _ = call(n, a, &mut out),
        || {
            plain_list(
                black_box(n as u32),
                black_box(a as u32),
                black_box(&mut list),
            )
        },
    )
}

/// Each number's syndrome, bit by bit. Of the plain forms tried this one is the fastest: a loop that
/// adds to a variable takes twice the time.
fn plain_list(n: u32, a: u32, list: &mut Vec<u32>) {
    list.clear();
    for number in 0..1 << n {
        let sum: u32 = (1..=n).filter(|i| number >> (n - i) & 1 == 1).sum();
        if sum % (n + 1) == a {
            list.push(number);
        }
    }
}
