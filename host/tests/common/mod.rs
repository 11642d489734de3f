//! What the tests share: random numbers, strings, and calls made on library and model alike.
#![allow(dead_code, unused_imports)]

pub mod c;

use std::env;
use std::process::{Command, Output};

pub use lunetteorris::layout::{
    HOLDER_ANSWERS, HOLDER_OPENED, REBUILDER_ANSWERED as ANSWERED, REBUILDER_CEILING as CEILING,
    REBUILDER_COUNTED as COUNTED, REBUILDER_H as H, REBUILDER_KEY as KEY, REBUILDER_M as M,
    REBUILDER_N as N, REBUILDER_PHASE as PHASE, REBUILDER_PIECES as PIECES, REBUILDER_ROWS as ROWS,
    REBUILDER_STAGE as STAGE, REBUILDER_WAITING as WAITING, REBUILDER_Y_BITS as Y_BITS, ROW_HOW,
    ROW_LENGTH, ROW_START,
};
use lunetteorris::model::{holder_sound, rebuilder_sound, Model, NUMBERS_BYTES};
use lunetteorris::{
    sheet_rows, unpack, BitString, Ends, Library, Refusal, Settings, HOLDER_BYTES, QUESTION_BYTES,
    REBUILDER_BYTES, ROW_BYTES,
};

/// Marsaglia's 64-bit xorshift (13, 7, 17), high bits used.
pub struct Random(u64);

impl Random {
    pub fn new(seed: u64) -> Random {
        Random(seed.wrapping_mul(0x9e37_79b9_7f4a_7c15) | 1)
    }

    pub fn next(&mut self) -> u64 {
        self.0 ^= self.0 << 13;
        self.0 ^= self.0 >> 7;
        self.0 ^= self.0 << 17;
        self.0.wrapping_mul(0x2545_f491_4f6c_dd1d)
    }

    /// A number below the bound.
    pub fn below(&mut self, bound: usize) -> usize {
        (((self.next() >> 32) * bound as u64) >> 32) as usize
    }

    /// A number from first to last, both possible.
    pub fn between(&mut self, first: usize, last: usize) -> usize {
        first + self.below(last - first + 1)
    }

    pub fn bit(&mut self) -> bool {
        self.next() >> 63 == 1
    }

    pub fn number(&mut self) -> u32 {
        (self.next() >> 32) as u32
    }

    pub fn byte(&mut self) -> u8 {
        (self.next() >> 56) as u8
    }

    pub fn pick<T: Copy>(&mut self, choices: &[T]) -> T {
        choices[self.below(choices.len())]
    }

    pub fn bytes(&mut self, length: usize) -> Vec<u8> {
        (0..length).map(|_| self.byte()).collect()
    }
}

// Strings

pub fn packed(bits: &[bool]) -> BitString {
    BitString::from_bits(bits.iter().copied()).expect("at most 65,536 bits")
}

pub fn bits_of(text: &str) -> Vec<bool> {
    text.bytes().map(|c| c == b'1').collect()
}

/// The bits of packed bytes.
pub fn unpacked(bytes: &[u8], bits: usize) -> Vec<bool> {
    (0..bits)
        .map(|i| bytes[i / 8] >> (7 - i % 8) & 1 == 1)
        .collect()
}

pub fn random_bits(random: &mut Random, bits: usize) -> Vec<bool> {
    (0..bits).map(|_| random.bit()).collect()
}

#[derive(Clone, Copy, Debug, PartialEq)]
pub enum Reference {
    Random,
    AllZero,
    AllOne,
    Periodic,
    Sparse,
}

pub const REFERENCES: [Reference; 5] = [
    Reference::Random,
    Reference::AllZero,
    Reference::AllOne,
    Reference::Periodic,
    Reference::Sparse,
];

pub fn reference(random: &mut Random, kind: Reference, bits: usize) -> Vec<bool> {
    match kind {
        Reference::Random => random_bits(random, bits),
        Reference::AllZero => vec![false; bits],
        Reference::AllOne => vec![true; bits],
        Reference::Periodic => {
            let length = random.between(1, 40);
            let period = random_bits(random, length);
            (0..bits).map(|i| period[i % period.len()]).collect()
        }
        Reference::Sparse => {
            let every = random.between(20, 200);
            (0..bits).map(|_| random.below(every) == 0).collect()
        }
    }
}

#[derive(Clone, Copy, Debug, PartialEq)]
pub enum Change {
    None,
    OneDeletion,
    OneInsertion,
    FewEdits,
    ManyEdits,
    Burst,
    Bursts,
    BurstAndSubstitutions,
    Substitutions,
    Mixed,
    Unrelated,
    UnrelatedLength,
    Empty,
}

pub const CHANGES: [Change; 13] = [
    Change::None,
    Change::OneDeletion,
    Change::OneInsertion,
    Change::FewEdits,
    Change::ManyEdits,
    Change::Burst,
    Change::Bursts,
    Change::BurstAndSubstitutions,
    Change::Substitutions,
    Change::Mixed,
    Change::Unrelated,
    Change::UnrelatedLength,
    Change::Empty,
];

fn delete(random: &mut Random, y: &mut Vec<bool>) {
    if !y.is_empty() {
        y.remove(random.below(y.len()));
    }
}

fn insert(random: &mut Random, y: &mut Vec<bool>) {
    let at = random.below(y.len() + 1);
    y.insert(at, random.bit());
}

fn substitute(random: &mut Random, y: &mut [bool]) {
    if !y.is_empty() {
        let at = random.below(y.len());
        y[at] = !y[at];
    }
}

/// Loses or gains a run of at most so many bits.
fn burst(random: &mut Random, y: &mut Vec<bool>, longest: usize) {
    let at = random.below(y.len() + 1);
    let length = random.between(2, longest);
    if random.bit() {
        y.drain(at..(at + length).min(y.len()));
    } else {
        let gained = random_bits(random, length);
        y.splice(at..at, gained);
    }
}

fn insert_or_delete(random: &mut Random, y: &mut Vec<bool>, edits: usize) {
    for _ in 0..edits {
        if random.bit() {
            delete(random, y);
        } else {
            insert(random, y);
        }
    }
}

/// A copy of `x`, at most `most` bits long.
pub fn copy_of(random: &mut Random, x: &[bool], change: Change, most: usize) -> Vec<bool> {
    let mut y = x.to_vec();
    match change {
        Change::None => {}
        Change::OneDeletion => delete(random, &mut y),
        Change::OneInsertion => insert(random, &mut y),
        Change::FewEdits => {
            let edits = random.between(2, 6);
            insert_or_delete(random, &mut y, edits)
        }
        Change::ManyEdits => {
            let edits = random.between(7, 7 + x.len() / 40);
            insert_or_delete(random, &mut y, edits)
        }
        Change::Burst => {
            let longest = random.pick(&[3, 32, 60]);
            burst(random, &mut y, longest)
        }
        Change::Bursts => {
            for _ in 0..random.between(2, 2 + x.len() / 400) {
                burst(random, &mut y, 34);
            }
        }
        Change::BurstAndSubstitutions => {
            burst(random, &mut y, 34);
            for _ in 0..random.between(1, 3) {
                substitute(random, &mut y);
            }
        }
        Change::Substitutions => {
            for _ in 0..random.between(1, 8) {
                substitute(random, &mut y);
            }
        }
        Change::Mixed => {
            for _ in 0..random.between(1, 12) {
                match random.below(3) {
                    0 => delete(random, &mut y),
                    1 => insert(random, &mut y),
                    _ => substitute(random, &mut y),
                }
            }
        }
        Change::Unrelated => y = random_bits(random, x.len()),
        Change::UnrelatedLength => {
            let length = random.between(0, 2 * x.len() + 8);
            y = random_bits(random, length);
        }
        Change::Empty => y.clear(),
    }
    y.truncate(most);
    y
}

// Settings

/// Settings under 01's names.
#[derive(Clone, Copy, Debug)]
pub struct Numbers {
    pub m: u32,
    pub h: u32,
    pub k: u32,
    pub key: u32,
    pub ceiling: u32,
}

pub const HOUSE: Numbers = Numbers {
    m: Settings::HOUSE.anchor,
    h: Settings::HOUSE.hash,
    k: Settings::HOUSE.window,
    key: Settings::HOUSE.key,
    ceiling: Settings::HOUSE.ceiling,
};

/// Settings within their limits, the limits themselves often.
pub fn settings(random: &mut Random) -> Numbers {
    let any_m = random.between(8, 64) as u32;
    let any_h = random.between(8, 32) as u32;
    let any_k = random.between(1, 8) as u32;
    let any_key = random.number().max(1);
    let small_ceiling = random.between(1, 60) as u32;
    let middle_ceiling = random.between(61, 600) as u32;
    Numbers {
        m: random.pick(&[8, 8, 16, 64, any_m]),
        h: random.pick(&[8, 8, 16, 32, any_h]),
        k: random.pick(&[1, 2, 8, any_k]),
        key: random.pick(&[1, u32::MAX, any_key, any_key]),
        ceiling: random.pick(&[0, small_ceiling, middle_ceiling, 4_096, 16_384, 16_384]),
    }
}

// Numbers in states

pub fn field(state: &[u8], at: usize) -> usize {
    u32::from_le_bytes(state[at..at + 4].try_into().unwrap()) as usize
}

pub fn set_field(state: &mut [u8], at: usize, value: u32) {
    state[at..at + 4].copy_from_slice(&value.to_le_bytes());
}

/// A piece of a rebuilder's state: x, p, y, q.
pub fn piece(state: &[u8], i: usize) -> [usize; 4] {
    [0, 4, 8, 12].map(|at| field(state, PIECES + 16 * i + at))
}

/// The leftmost waiting piece.
pub fn leftmost(state: &[u8]) -> Option<[usize; 4]> {
    let last = field(state, WAITING).checked_sub(1)?;
    Some(piece(state, last))
}

/// The question that a state asks after the opening, by its phase and stage as docs/STATE.md has
/// them: kind, start, length, and B for a burst. Empty when finished.
pub fn asked(state: &[u8]) -> Vec<usize> {
    let Some([x, p, _, q]) = leftmost(state) else {
        return vec![];
    };
    if field(state, PHASE) == 2 {
        return vec![3, 0, field(state, N)];
    }
    let m = field(state, M);
    let c = || (p - m) / 2;
    match field(state, STAGE) {
        0 if q == p => vec![1, x, p],
        1 if q + 1 == p => vec![2, x, p],
        2 if q == p + 1 => vec![2, x, p],
        3 => vec![3, x + c(), m],
        4 => vec![3, x + c() + m, m],
        5 => vec![3, x + c() - m, m],
        6 => vec![3, x, p],
        7 if is_burst(p, q) => vec![4, x, p, p.abs_diff(q)],
        stage => panic!("stage {stage} of a piece of {p} bits with {q} of Y"),
    }
}

/// Whether a piece of p bits with q of Y is asked by its columns.
pub fn is_burst(p: usize, q: usize) -> bool {
    (2..=32).contains(&p.abs_diff(q))
}

/// How many questions the leftmost piece has had at most when it comes to a stage.
pub fn questions_had(stage: u32) -> usize {
    match stage {
        7 => 0,
        _ => stage.saturating_sub(2) as usize,
    }
}

/// The B columns of some bits.
pub fn columns(bits: &[bool], b: usize) -> Vec<Vec<bool>> {
    (0..b)
        .map(|j| bits.iter().skip(j).step_by(b).copied().collect())
        .collect()
}

/// The bits that have these columns.
pub fn woven(columns: &[Vec<bool>]) -> Vec<bool> {
    let length = columns.iter().map(Vec::len).sum();
    (0..length)
        .map(|i| columns[i % columns.len()][i / columns.len()])
        .collect()
}

/// A reply buffer of so many bytes is enough for every reply on n bits.
pub fn reply_bytes(n: usize) -> usize {
    (1 + n.div_ceil(8)).max(NUMBERS_BYTES)
}

/// The rows in use: start, length, how.
pub fn rows(state: &[u8], sheet: &[u8]) -> Vec<[usize; 3]> {
    sheet[..ROW_BYTES * field(state, ROWS)]
        .chunks_exact(ROW_BYTES)
        .map(|row| [ROW_START, ROW_LENGTH, ROW_HOW].map(|at| field(row, at)))
        .collect()
}

// Numbers in messages

pub fn encoded(mut value: u32) -> Vec<u8> {
    let mut bytes = Vec::new();
    while value >= 0x80 {
        bytes.push(value as u8 | 0x80);
        value >>= 7;
    }
    bytes.push(value as u8);
    bytes
}

pub fn message(numbers: &[u32]) -> Vec<u8> {
    numbers.iter().flat_map(|&number| encoded(number)).collect()
}

/// The numbers of a message that has nothing else.
pub fn decoded(message: &[u8]) -> Vec<usize> {
    let mut numbers = Vec::new();
    let (mut value, mut place) = (0, 0);
    for &byte in message {
        value |= (byte as usize & 0x7f) << place;
        place += 7;
        if byte < 0x80 {
            numbers.push(value);
            (value, place) = (0, 0);
        }
    }
    numbers
}

// Calls on both

/// A rebuilder's state and buffers.
#[derive(Clone, Debug, PartialEq)]
pub struct RebuilderSide {
    pub state: Vec<u8>,
    pub string: Vec<u8>,
    pub sheet: Vec<u8>,
    pub question: Vec<u8>,
}

/// A holder's state and buffer.
#[derive(Clone, Debug, PartialEq)]
pub struct HolderSide {
    pub state: Vec<u8>,
    pub reply: Vec<u8>,
}

pub type Outcome = Result<usize, Refusal>;

fn outcome(packed: u64) -> Outcome {
    unpack(packed).map(|value| value as usize)
}

/// The holder's call on library and model: same result, same bytes; on a refusal nothing changes,
/// on an answer only the state's and the reply's own bytes.
pub fn holder_call(side: &mut HolderSide, x: &[u8], bits: usize, message: &[u8]) -> Outcome {
    let before = side.clone();
    let mut model = side.clone();
    let got = Library::holder_answer(&mut side.state, x, bits, message, &mut side.reply);
    let want = Model::holder_answer(&mut model.state, x, bits, message, &mut model.reply);
    let told = || format!("before {before:?}, {bits} bits, message {message:02x?}");
    assert_eq!(got, want, "{}", told());
    assert!(
        *side == model,
        "library {side:?}, model {model:?}, {}",
        told()
    );
    let got = outcome(got);
    match got {
        Err(_) => assert!(*side == before, "changed {side:?}, {}", told()),
        Ok(length) => {
            assert_eq!(side.reply[length..], before.reply[length..], "{}", told());
            let behind = |side: &HolderSide| side.state[HOLDER_BYTES..].to_vec();
            assert_eq!(behind(side), behind(&before), "{}", told());
            assert!(holder_sound(&side.state), "{}", told());
        }
    }
    got
}

/// The rebuilder's call on library and model: same result, same bytes; on a refusal nothing
/// changes, on a taken answer nothing behind the state, the string, the used rows and the question.
pub fn rebuilder_call(side: &mut RebuilderSide, y: &[u8], bits: usize, message: &[u8]) -> Outcome {
    let before = side.clone();
    let mut model = side.clone();
    let got = Library::rebuilder_call(
        &mut side.state,
        y,
        bits,
        &mut side.string,
        &mut side.sheet,
        message,
        &mut side.question,
    );
    let want = Model::rebuilder_call(
        &mut model.state,
        y,
        bits,
        &mut model.string,
        &mut model.sheet,
        message,
        &mut model.question,
    );
    let told = || format!("before {before:02x?}, {bits} bits, message {message:02x?}");
    assert_eq!(got, want, "{}", told());
    assert!(
        *side == model,
        "library {side:02x?}, model {model:02x?}, {}",
        told()
    );
    let got = outcome(got);
    match got {
        Err(_) => assert!(*side == before, "changed {side:02x?}, {}", told()),
        Ok(length) => {
            let behind = |side: &RebuilderSide| side.state[REBUILDER_BYTES..].to_vec();
            assert_eq!(behind(side), behind(&before), "{}", told());
            let string = field(&side.state, N).div_ceil(8);
            let used = field(&side.state, ROWS).max(field(&before.state, ROWS)) * ROW_BYTES;
            assert_eq!(side.string[string..], before.string[string..], "{}", told());
            assert_eq!(side.sheet[used..], before.sheet[used..], "{}", told());
            assert_eq!(
                side.question[length..],
                before.question[length..],
                "{}",
                told()
            );
            assert!(rebuilder_sound(&side.state), "{}", told());
        }
    }
    got
}

/// A fresh holder whose reply buffer is filled with random bytes.
pub fn fresh_holder(random: &mut Random, reply_bytes: usize) -> HolderSide {
    let mut states = [random.bytes(HOLDER_BYTES), random.bytes(HOLDER_BYTES)];
    let [state, model] = &mut states;
    assert_eq!(Library::holder_fresh(state), 0);
    assert_eq!(Model::holder_fresh(model), 0);
    assert_eq!(state, model);
    assert!(holder_sound(state));
    HolderSide {
        state: state.clone(),
        reply: random.bytes(reply_bytes),
    }
}

/// The rebuilder's start on library and model; random bytes in all buffers, made for `n` bits
/// with some bytes to spare. Gives the question's length as well.
pub fn started(
    random: &mut Random,
    settings: Numbers,
    y: &[u8],
    bits: usize,
    n: usize,
) -> (RebuilderSide, usize) {
    let Numbers {
        m,
        h,
        k,
        key,
        ceiling,
    } = settings;
    let spare = [random.below(4), random.below(20), random.below(4)];
    let mut side = RebuilderSide {
        state: random.bytes(REBUILDER_BYTES),
        string: random.bytes(n.div_ceil(8) + spare[0]),
        sheet: random.bytes(ROW_BYTES * sheet_rows(n, m as usize) + spare[1]),
        question: random.bytes(QUESTION_BYTES + spare[2]),
    };
    let mut model = side.clone();
    let got = Library::rebuilder_start(
        m,
        h,
        k,
        key,
        ceiling,
        y,
        bits,
        &mut side.state,
        &mut side.question,
    );
    let want = Model::rebuilder_start(
        m,
        h,
        k,
        key,
        ceiling,
        y,
        bits,
        &mut model.state,
        &mut model.question,
    );
    assert_eq!(got, want);
    assert_eq!(side, model);
    assert!(rebuilder_sound(&side.state));
    (side, outcome(got).expect("settings and Y are legal"))
}

// Example programs

/// A run of an example program, which `cargo test` builds with all tests.
pub fn example(name: &str, arguments: &[&str]) -> Output {
    let test = env::current_exe().expect("the test has a path");
    let folder = test.ancestors().nth(2).expect("the build's folder");
    let program = folder.join("examples").join(name);
    assert!(
        program.is_file(),
        "{} is missing: run `cargo test` without a choice of tests, or build the example",
        program.display()
    );
    let run = Command::new(program).args(arguments).output();
    run.expect("the example runs")
}

/// What an example program prints; its status is 0.
pub fn printed_by_example(name: &str, arguments: &[&str]) -> String {
    let output = example(name, arguments);
    assert!(output.status.success(), "{output:?}");
    String::from_utf8(output.stdout).expect("the example prints ASCII")
}

/// An example program prints nothing, says this first and ends with this status.
pub fn refused_by_example(name: &str, arguments: &[&str], status: i32, reason: &str) {
    let output = example(name, arguments);
    assert_eq!(output.status.code(), Some(status), "{output:?}");
    assert!(output.stdout.is_empty(), "{output:?}");
    let said = String::from_utf8_lossy(&output.stderr);
    assert!(said.starts_with(reason), "{said}");
}
