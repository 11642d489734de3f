//! Calls on damaged input, library against model: messages, states, buffers, strings, and calls
//! out of turn. `holder_call` and `rebuilder_call` compare everything and that a refusal changed
//! nothing.

mod common;

use common::*;
use lunetteorris::model::{holder_sound, legal, rebuilder_sound, Model, MAX_ANSWERS};
use lunetteorris::{
    sheet_rows, unpack, Ends, Library, Refusal, HOLDER_BYTES, MAX_BITS, QUESTION_BYTES,
    REBUILDER_BYTES, ROW_BYTES,
};

/// Calls made, by refusal number; 0 counts those taken.
#[derive(Debug, Default)]
struct Seen([usize; 11]);

impl Seen {
    fn add(&mut self, outcome: Outcome) -> Outcome {
        self.0[outcome.map_or_else(|refusal| refusal.number() as usize, |_| 0)] += 1;
        outcome
    }

    /// At least so many calls, and each of these numbers among them.
    fn hold(&self, calls: usize, numbers: &[usize]) {
        println!("{self:?}");
        assert!(self.0.iter().sum::<usize>() >= calls, "{self:?}");
        for &number in numbers {
            assert!(self.0[number] > 0, "refusal {number} in {self:?}");
        }
    }
}

const ALL: [usize; 10] = [0, 2, 3, 4, 5, 6, 7, 8, 9, 10];

// Cases

/// A rebuilder's call that an honest run makes, or a damaged one.
#[derive(Clone)]
struct RebuilderCase {
    side: RebuilderSide,
    y: Vec<u8>,
    bits: usize,
    message: Vec<u8>,
    /// Bits of X.
    n: usize,
}

impl RebuilderCase {
    fn call(mut self, seen: &mut Seen) -> (Outcome, RebuilderSide) {
        let outcome = rebuilder_call(&mut self.side, &self.y, self.bits, &self.message);
        (seen.add(outcome), self.side)
    }

    fn compare(self, seen: &mut Seen) {
        _ = self.call(seen);
    }
}

#[derive(Clone)]
struct HolderCase {
    side: HolderSide,
    x: Vec<u8>,
    bits: usize,
    message: Vec<u8>,
}

impl HolderCase {
    fn call(mut self, seen: &mut Seen) -> (Outcome, HolderSide) {
        let outcome = holder_call(&mut self.side, &self.x, self.bits, &self.message);
        (seen.add(outcome), self.side)
    }

    fn compare(self, seen: &mut Seen) {
        _ = self.call(seen);
    }
}

/// Every call of an honest run before it is made, and each end once more after the finish.
fn cases(
    random: &mut Random,
    x: &[bool],
    y: &[bool],
    settings: Numbers,
) -> (Vec<HolderCase>, Vec<RebuilderCase>) {
    let (n, y_bits) = (x.len(), y.len());
    let (x, y) = (packed(x).into_bytes(), packed(y).into_bytes());
    let holder = fresh_holder(random, reply_bytes(n));
    let (rebuilder, length) = started(random, settings, &y, y_bits, n);
    let message = rebuilder.question[..length].to_vec();
    let mut holder = HolderCase {
        side: holder,
        x,
        bits: n,
        message,
    };
    let mut rebuilder = RebuilderCase {
        side: rebuilder,
        y,
        bits: y_bits,
        message: Vec::new(),
        n,
    };
    let (mut holder_cases, mut rebuilder_cases) = (Vec::new(), Vec::new());
    loop {
        holder_cases.push(holder.clone());
        let replied = holder_call(&mut holder.side, &holder.x, n, &holder.message).unwrap();
        rebuilder.message = holder.side.reply[..replied].to_vec();
        rebuilder_cases.push(rebuilder.clone());
        let side = &mut rebuilder.side;
        let length = rebuilder_call(side, &rebuilder.y, y_bits, &rebuilder.message).unwrap();
        if length == 0 {
            break;
        }
        holder.message = side.question[..length].to_vec();
    }
    holder_cases.push(holder);
    rebuilder_cases.push(rebuilder);
    (holder_cases, rebuilder_cases)
}

/// The cases of a short run; over many of them every kind of question is asked.
fn short_run(random: &mut Random, longest: usize) -> (Vec<HolderCase>, Vec<RebuilderCase>) {
    let n = random.between(0, longest);
    let kind = random.pick(&REFERENCES);
    let x = reference(random, kind, n);
    let change = random.pick(&CHANGES);
    let y = copy_of(random, &x, change, MAX_BITS);
    let settings = Numbers {
        m: random.pick(&[8, 10]),
        h: random.pick(&[8, 11, 16, 32]),
        k: 2,
        key: random.number().max(1),
        ceiling: random.pick(&[0, 20, 60, 16_384, 16_384]),
    };
    cases(random, &x, &y, settings)
}

// Damage

/// Messages that differ from `message` in one byte, are cut, or are lengthened.
fn damaged_messages(random: &mut Random, message: &[u8]) -> Vec<Vec<u8>> {
    let mut all = Vec::new();
    for i in 0..message.len() {
        let any = random.byte();
        let byte = message[i];
        for value in [
            0,
            1,
            2,
            3,
            4,
            0x0f,
            0x10,
            0x7f,
            0x80,
            0xff,
            any,
            byte ^ 1,
            byte ^ 0x80,
        ] {
            let mut changed = message.to_vec();
            changed[i] = value;
            all.push(changed);
        }
        all.push(message[..i].to_vec());
        for value in [0, 0x80, any] {
            let mut longer = message.to_vec();
            longer.insert(i, value);
            all.push(longer);
        }
        let mut shorter = message.to_vec();
        shorter.remove(i);
        all.push(shorter);
    }
    for tail in [
        &[0][..],
        &[0x80],
        &[0xff],
        &[0, 0],
        &[0x80, 0x80, 0x80, 0x80, 0x80],
    ] {
        all.push([message, tail].concat());
    }
    // Numbers at the limits of their form, alone and behind each kind.
    let numbers: [&[u8]; 9] = [
        &[],
        &[0x00],
        &[0x7f],
        &[0x80],
        &[0x80, 0x00],
        &[0x80, 0x80, 0x80, 0x80, 0x00],
        &[0xff, 0xff, 0xff, 0xff, 0x0f],
        &[0xff, 0xff, 0xff, 0xff, 0x10],
        &[0xff, 0xff, 0xff, 0xff, 0x8f],
    ];
    for number in numbers {
        all.push(number.to_vec());
        for kind in 0..=5 {
            all.push([&[kind][..], number].concat());
            all.push([&[kind][..], number, number].concat());
            all.push([&[kind][..], number, number, number].concat());
        }
    }
    all
}

/// Values to put in place of a field's value.
fn other_values(random: &mut Random, value: u32) -> [u32; 11] {
    [
        0,
        1,
        2,
        value.wrapping_add(1),
        value.wrapping_sub(1),
        value ^ 1 << random.below(32),
        value.wrapping_mul(2),
        random.below(500) as u32,
        MAX_BITS as u32,
        MAX_BITS as u32 + 1,
        u32::MAX,
    ]
}

/// Forms of a string that break the string rule or have another bit count.
fn damaged_strings(random: &mut Random, bytes: &[u8], bits: usize) -> Vec<(Vec<u8>, usize)> {
    let mut all = vec![
        ([bytes, &[0]].concat(), bits),
        (bytes.to_vec(), bits + 1),
        (bytes.to_vec(), bits + 8),
        (bytes.to_vec(), bits.wrapping_sub(1)),
        (bytes.to_vec(), usize::MAX),
        (bytes.to_vec(), 1 << 32 | bits),
        (vec![0; MAX_BITS / 8 + 1], MAX_BITS + 1),
        // Legal, of another bit count.
        (vec![0; MAX_BITS / 8], MAX_BITS),
        (vec![0; (bits + 1).div_ceil(8)], bits + 1),
        (Vec::new(), 0),
    ];
    if bits > 0 {
        all.push((bytes[..bytes.len() - 1].to_vec(), bits));
        all.push((vec![0; (bits - 1).div_ceil(8)], bits - 1));
    }
    if bits % 8 != 0 {
        let mut spare = bytes.to_vec();
        *spare.last_mut().unwrap() |= 1 << random.below(8 - bits % 8);
        all.push((spare, bits));
    }
    all
}

/// A buffer at other lengths.
fn at_lengths(buffer: &[u8], lengths: &[usize]) -> Vec<Vec<u8>> {
    let resized = |&length: &usize| {
        let mut other = buffer.to_vec();
        other.resize(length, 0xa5);
        other
    };
    lengths.iter().map(resized).collect()
}

/// Buffers that are just long enough, longer or too short.
fn other_buffers(side: &RebuilderSide, n: usize) -> Vec<RebuilderSide> {
    let mut all = Vec::new();
    for question in at_lengths(&side.question, &[0, 1, 3, 6, 7, 8, 9]) {
        all.push(RebuilderSide {
            question,
            ..side.clone()
        });
    }
    let needed = n.div_ceil(8);
    for string in at_lengths(&side.string, &[0, needed.saturating_sub(1), needed]) {
        all.push(RebuilderSide {
            string,
            ..side.clone()
        });
    }
    let needed = ROW_BYTES * sheet_rows(n, field(&side.state, M));
    for sheet in at_lengths(&side.sheet, &[0, needed - ROW_BYTES, needed - 1, needed]) {
        all.push(RebuilderSide {
            sheet,
            ..side.clone()
        });
    }
    let lengths = [
        0,
        4,
        REBUILDER_BYTES - 1,
        REBUILDER_BYTES + 1,
        REBUILDER_BYTES + 4,
    ];
    for state in at_lengths(&side.state, &lengths) {
        all.push(RebuilderSide {
            state,
            ..side.clone()
        });
    }
    all
}

/// Puts another value in a random field of a state, mostly one of the first `head`.
fn damage_field(random: &mut Random, state: &mut [u8], head: usize) {
    let words = state.len() / 4;
    let among = if random.below(4) > 0 { head } else { words };
    let at = 4 * random.below(among.min(words));
    let value = field(state, at) as u32;
    let values = other_values(random, value);
    set_field(state, at, random.pick(&values));
}

// One damage at a time

#[test]
fn messages_to_the_rebuilder() {
    let random = &mut Random::new(30);
    let mut seen = Seen::default();
    for _ in 0..60 {
        for case in short_run(random, 300).1 {
            for message in damaged_messages(random, &case.message) {
                RebuilderCase {
                    message,
                    ..case.clone()
                }
                .compare(&mut seen);
            }
        }
    }
    seen.hold(50_000, &[0, 3, 4, 5, 6, 7, 8]);
}

#[test]
fn messages_to_the_holder() {
    let random = &mut Random::new(31);
    let mut seen = Seen::default();
    for _ in 0..60 {
        for case in short_run(random, 300).0 {
            for message in damaged_messages(random, &case.message) {
                HolderCase {
                    message,
                    ..case.clone()
                }
                .compare(&mut seen);
            }
        }
    }
    seen.hold(30_000, &[0, 3, 4, 5, 6, 7, 8, 10]);
}

/// Any two bytes, and questions on all ranges around a short X.
#[test]
fn all_short_messages() {
    let random = &mut Random::new(32);
    let mut seen = Seen::default();
    let (holders, rebuilders) = loop {
        let cases = short_run(random, 200);
        if cases.0.len() > 6 {
            break cases;
        }
    };
    for message in 0..=0xffffu16 {
        let message = message.to_be_bytes().to_vec();
        for case in [&holders[0], &holders[3]] {
            HolderCase {
                message: message.clone(),
                ..case.clone()
            }
            .compare(&mut seen);
        }
        for case in [&rebuilders[0], &rebuilders[3]] {
            RebuilderCase {
                message: message.clone(),
                ..case.clone()
            }
            .compare(&mut seen);
        }
    }
    for b in [0, 1, 2, 5, 32, 33] {
        for start in 0..=210 {
            for length in 0..=210 {
                let message = message(&[4, start, length, b]);
                HolderCase {
                    message,
                    ..holders[3].clone()
                }
                .compare(&mut seen);
            }
        }
    }
    for kind in 1..=3 {
        for start in 0..=210 {
            for length in 0..=210 {
                let message = message(&[kind, start, length]);
                HolderCase {
                    message,
                    ..holders[3].clone()
                }
                .compare(&mut seen);
            }
        }
    }
    seen.hold(650_000, &[0, 3, 4, 5, 6, 8, 10]);
}

#[test]
fn fields_of_a_rebuilder_state() {
    let random = &mut Random::new(33);
    let mut seen = Seen::default();
    for run in 0..60 {
        for case in short_run(random, 400).1 {
            // Each field of some states; of the others those in use and the next piece's.
            let used = 13 + 4 * (field(&case.side.state, WAITING) + 1).min(32);
            let words = if run % 10 == 0 {
                REBUILDER_BYTES / 4
            } else {
                used
            };
            for word in 0..words {
                let value = field(&case.side.state, 4 * word) as u32;
                for other in other_values(random, value) {
                    let mut case = case.clone();
                    set_field(&mut case.side.state, 4 * word, other);
                    case.compare(&mut seen);
                }
            }
        }
    }
    seen.hold(100_000, &[0, 2, 3, 4, 6, 7, 8, 9]);
}

#[test]
fn fields_of_a_holder_state() {
    let random = &mut Random::new(34);
    let mut seen = Seen::default();
    let x = packed(&random_bits(random, 37)).into_bytes();
    let messages = [
        message(&[0, 1, 8, 1]),
        message(&[0, 1, 33, 1]),
        message(&[1, 3, 20]),
        message(&[2, 0, 37]),
        message(&[3, 30, 7]),
        message(&[3, 30, 8]),
        message(&[4, 0, 37, 5]),
        message(&[4, 0, 38, 33]),
        message(&[5]),
        vec![],
        vec![0x80],
        vec![0x80, 0],
    ];
    for opened in [0, 1, 2, u32::MAX] {
        for bits in [0, 36, 37, 38, 65_536, 65_537] {
            for h in [0, 7, 8, 32, 33, u32::MAX] {
                for key in [0, 1, u32::MAX] {
                    for answers in [0, 1, 2, 999_999, 1_000_000, 1_000_001, u32::MAX] {
                        let mut state = vec![0; HOLDER_BYTES];
                        for (i, value) in [opened, bits, h, key, answers].into_iter().enumerate() {
                            set_field(&mut state, 4 * i, value);
                        }
                        for message in &messages {
                            let side = HolderSide {
                                state: state.clone(),
                                reply: vec![0xee; 12],
                            };
                            let (x, message) = (x.clone(), message.clone());
                            HolderCase {
                                side,
                                x,
                                bits: 37,
                                message,
                            }
                            .compare(&mut seen);
                        }
                    }
                }
            }
        }
    }
    seen.hold(30_000, &[0, 2, 3, 4, 5, 6, 8, 10]);
}

/// Each number in place of opened, phase or stage. One that none has gets 3, for a string of any
/// bit count; 2 comes first only for a string that breaks the string rule.
#[test]
fn numbers_that_none_has() {
    let random = &mut Random::new(43);
    let mut seen = Seen::default();
    let mut sound = [0; 8];
    let any = |random: &mut Random| {
        let any = random.number() | 8;
        [any, 1 << 8, 1 << 16, 1 << 31, u32::MAX]
    };
    for _ in 0..60 {
        let (holders, rebuilders) = short_run(random, 300);
        for case in rebuilders {
            for (at, known) in [(PHASE, 3), (STAGE, 8)] {
                for number in (0..10).chain(any(random)) {
                    let mut case = case.clone();
                    set_field(&mut case.side.state, at, number);
                    let is_sound = rebuilder_sound(&case.side.state);
                    if at == STAGE && field(&case.side.state, WAITING) == 0 {
                        assert_eq!(is_sound, number == 0, "no piece waits");
                    }
                    let (outcome, _) = case.clone().call(&mut seen);
                    if number >= known {
                        assert!(!is_sound);
                        assert_eq!(outcome, Err(Refusal::OutOfTurn));
                    } else if at == STAGE && is_sound {
                        sound[number as usize] += 1;
                    }
                    for (y, bits) in damaged_strings(random, &case.y, case.bits) {
                        let kept = legal(&y, bits);
                        if kept && bits == case.bits {
                            continue;
                        }
                        let case = RebuilderCase {
                            y,
                            bits,
                            ..case.clone()
                        };
                        let wanted = if kept && number >= known {
                            Refusal::OutOfTurn
                        } else {
                            Refusal::BadString
                        };
                        assert_eq!(case.call(&mut seen).0, Err(wanted));
                    }
                }
            }
        }
        for case in holders {
            for number in (2..10).chain(any(random)) {
                let mut case = case.clone();
                set_field(&mut case.side.state, HOLDER_OPENED, number);
                assert!(!holder_sound(&case.side.state));
                let (outcome, _) = case.clone().call(&mut seen);
                assert_eq!(outcome, Err(Refusal::OutOfTurn));
                for (x, bits) in damaged_strings(random, &case.x, case.bits) {
                    let wanted = if legal(&x, bits) {
                        Refusal::OutOfTurn
                    } else {
                        Refusal::BadString
                    };
                    let case = HolderCase {
                        x,
                        bits,
                        ..case.clone()
                    };
                    assert_eq!(case.call(&mut seen).0, Err(wanted));
                }
            }
        }
    }
    println!("{sound:?}");
    assert!(sound.iter().all(|&states| states > 0), "{sound:?}");
    seen.hold(100_000, &[0, 2, 3]);
}

/// The stage and the lengths of the one waiting piece: which go together, and how many questions
/// may have been answered.
#[test]
fn stages_and_lengths() {
    let mut seen = Seen::default();
    let (m, h, n) = (8, 9, 200);
    let y = vec![0; 25];
    // 4(m + h) = 68.
    for p in [1u32, 2, 7, 8, 9, 67, 68, 69, 200] {
        let near = [0, 1, 2, 3, 6, 7, 8, 9, 10, 66, 67, 68, 69, 70, 199, 200];
        // Bursts at their limits, and one bit past them.
        let bursts = [2, 32, 33]
            .into_iter()
            .flat_map(|b: u32| [p + b, p.saturating_sub(b)]);
        for q in near.into_iter().chain(bursts).filter(|&q| q <= 200) {
            for stage in 0..9 {
                let suits = match stage {
                    0 => q == p,
                    1 => q + 1 == p,
                    2 => q == p + 1,
                    3..=5 => p >= 68 && q >= 8,
                    6 => true,
                    7 => (2..=32).contains(&p.abs_diff(q)),
                    _ => false,
                };
                // 9 floor(n/m) + 6 in all, 9 floor(p/m) + 5 for the piece but for those it had.
                let had = [0, 0, 0, 1, 2, 3, 4, 0, 0][stage as usize];
                let most = 9 * 25 + 6 + had - (9 * (p / 8) + 5);
                for (answered, within) in [(0, false), (1, true), (most, true), (most + 1, false)] {
                    let mut state = vec![0; REBUILDER_BYTES];
                    let head = [m, h, 1, 1, 100, 200, 1, n, answered, 0, 0, stage, 1];
                    let piece = [0, p, 0, q];
                    for (i, value) in head.into_iter().chain(piece).enumerate() {
                        set_field(&mut state, 4 * i, value);
                    }
                    let goes_on = suits && within;
                    let told = || format!("p {p}, q {q}, stage {stage}, {answered} answered");
                    assert_eq!(rebuilder_sound(&state), goes_on, "{}", told());
                    let side = RebuilderSide {
                        state,
                        string: vec![0; 25],
                        sheet: vec![0; ROW_BYTES * sheet_rows(200, 8)],
                        question: vec![0; QUESTION_BYTES],
                    };
                    // An empty message ends inside its kind.
                    let case = RebuilderCase {
                        side,
                        y: y.clone(),
                        bits: 200,
                        message: vec![],
                        n: 200,
                    };
                    let wanted = if goes_on {
                        Refusal::Truncated
                    } else {
                        Refusal::OutOfTurn
                    };
                    assert_eq!(case.call(&mut seen).0, Err(wanted), "{}", told());
                }
            }
        }
    }
    seen.hold(4_000, &[3, 4]);
}

/// Questions of kind 4 to the holder: ranges, B, reply buffers and trailing bytes, with the order of
/// refusals 7, 10, 8, 9.
#[test]
fn burst_questions() {
    let random = &mut Random::new(44);
    let mut seen = Seen::default();
    let n = 70;
    let x = packed(&random_bits(random, n)).into_bytes();
    let mut side = fresh_holder(random, reply_bytes(n));
    let unopened = side.clone();
    holder_call(&mut side, &x, n, &message(&[0, 1, 32, 77])).unwrap();
    let numbers = [0, 1, 2, 3, 31, 32, 33, 34, 64, 127, 128, 16_384, u32::MAX];
    for b in numbers {
        for start in [0, 1, 35, 69, 70, 71, u32::MAX] {
            for length in [0, 1, 2, 31, 32, 33, 35, 69, 70, 71, u32::MAX] {
                let question = message(&[4, start, length, b]);
                let case = HolderCase {
                    side: side.clone(),
                    x: x.clone(),
                    bits: n,
                    message: question.clone(),
                };
                let in_x = length > 0 && start as u64 + length as u64 <= n as u64;
                let refusal = if !(2..=32).contains(&b) {
                    Some(Refusal::BadBurst)
                } else if !in_x {
                    Some(Refusal::OutOfRange)
                } else {
                    None
                };
                let (outcome, after) = case.clone().call(&mut seen);
                assert_eq!(outcome.err(), refusal, "{question:?}");
                let with = |message: Vec<u8>, reply: usize| {
                    let mut case = case.clone();
                    case.message = message;
                    case.side.reply.truncate(reply);
                    case
                };
                let trailing = with([&question[..], &[0]].concat(), 0);
                let truncated = with(question[..question.len() - 1].to_vec(), 0);
                let bad_number = with([&question[..question.len() - 1], &[0x80, 0]].concat(), 0);
                for (case, wanted) in [
                    (trailing, Refusal::TrailingBytes),
                    (truncated, Refusal::Truncated),
                    (bad_number, Refusal::BadNumber),
                ] {
                    // A cut B of two bytes may be a whole number: the call is compared only.
                    let outcome = case.call(&mut seen).0;
                    assert!(b >= 128 || outcome == Err(wanted), "{question:?}");
                }
                let mut early = case.clone();
                early.side = unopened.clone();
                assert_eq!(early.call(&mut seen).0, Err(Refusal::OutOfTurn));
                match outcome {
                    Err(refusal) => {
                        let short = with(question, 0);
                        assert_eq!(short.call(&mut seen).0, Err(refusal));
                    }
                    Ok(replied) => {
                        let answer = decoded(&after.reply[..replied]);
                        assert_eq!(answer.len(), b as usize + 2);
                        for reply in [0, 1, replied - 1] {
                            let short = with(question.clone(), reply);
                            assert_eq!(short.call(&mut seen).0, Err(Refusal::BufferTooShort));
                        }
                        let exact = with(question, replied);
                        assert_eq!(exact.call(&mut seen).0, Ok(replied));
                    }
                }
            }
        }
    }
    seen.hold(5_000, &[0, 3, 4, 5, 7, 8, 9, 10]);
}

/// A sound state whose one piece of p bits with q of Y is asked by its columns.
fn burst_case(random: &mut Random, h: u32, p: usize, q: usize) -> RebuilderCase {
    let y = packed(&random_bits(random, q)).into_bytes();
    let mut state = vec![0; REBUILDER_BYTES];
    let head = [8, h, 1, 1, 16_384, q as u32, 1, p as u32, 1, 0, 0, 7, 1];
    let piece = [0, p as u32, 0, q as u32];
    for (i, value) in head.into_iter().chain(piece).enumerate() {
        set_field(&mut state, 4 * i, value);
    }
    assert!(rebuilder_sound(&state));
    let side = RebuilderSide {
        state,
        string: vec![0; p.div_ceil(8)],
        sheet: vec![0; ROW_BYTES * sheet_rows(p, 8)],
        question: vec![0xee; QUESTION_BYTES],
    };
    RebuilderCase {
        side,
        y,
        bits: q,
        message: vec![],
        n: p,
    }
}

/// Answers of kind 4 to the rebuilder: each syndrome at its column's length and above it, the hash at
/// its limit and above it, a number too few or too many, buffers too short.
#[test]
fn burst_answers() {
    let random = &mut Random::new(45);
    let mut seen = Seen::default();
    for (p, q) in [
        (1usize, 3usize),
        (1, 33),
        (2, 0),
        (3, 7),
        (5, 3),
        (31, 33),
        (32, 0),
        (33, 1),
        (40, 8),
        (63, 70),
        (64, 96),
        (300, 290),
        (4_500, 4_532),
    ] {
        for h in [8, 19, 32] {
            let b = p.abs_diff(q);
            let case = burst_case(random, h, p, q);
            let lengths: Vec<u32> = (0..b).map(|j| ((p + b - 1 - j) / b) as u32).collect();
            let call = |syndromes: &[u32], hash: u64, tail: &[u8], seen: &mut Seen| {
                // A hash of 2^32 needs a fifth byte above 0f.
                let hash = match u32::try_from(hash) {
                    Ok(hash) => encoded(hash),
                    Err(_) => vec![0x80, 0x80, 0x80, 0x80, 0x10],
                };
                let mut case = case.clone();
                case.message = [&message(&[4])[..], &message(syndromes), &hash, tail].concat();
                case.call(seen).0
            };
            let past = if h == 32 {
                Refusal::BadNumber
            } else {
                Refusal::OutOfRange
            };
            let most = (1 << h) - 1;
            assert!(call(&lengths, most, &[], &mut seen).is_ok());
            assert!(call(&vec![0; b], 0, &[], &mut seen).is_ok());
            assert_eq!(call(&lengths, most + 1, &[], &mut seen), Err(past));
            assert_eq!(
                call(&lengths, most, &[0], &mut seen),
                Err(Refusal::TrailingBytes)
            );
            for j in 0..b {
                let mut above = lengths.clone();
                for value in [lengths[j] + 1, lengths[j] + 2, p as u32 + 1, u32::MAX] {
                    above[j] = value;
                    assert_eq!(
                        call(&above, most, &[], &mut seen),
                        Err(Refusal::OutOfRange),
                        "p {p}, q {q}, column {j}, syndrome {value}"
                    );
                    // 7 comes before 8.
                    assert_eq!(
                        call(&above, most, &[1], &mut seen),
                        Err(Refusal::TrailingBytes)
                    );
                }
            }
            // One syndrome left out: the hash is read in its place, and the message ends too early.
            assert_eq!(
                call(&vec![0; b - 1], 0, &[], &mut seen),
                Err(Refusal::Truncated)
            );
            for kind in [0, 1, 2, 3, 5] {
                let mut other = case.clone();
                other.message = [&message(&[kind])[..], &vec![0; b + 1]].concat();
                assert_eq!(other.call(&mut seen).0, Err(Refusal::BadKind));
            }
            let mut taken = case.clone();
            taken.message = [&[4][..], &vec![0; b + 1]].concat();
            for side in other_buffers(&taken.side, p) {
                RebuilderCase {
                    side,
                    ..taken.clone()
                }
                .compare(&mut seen);
            }
            for message in damaged_messages(random, &taken.message) {
                RebuilderCase {
                    message,
                    ..taken.clone()
                }
                .compare(&mut seen);
            }
        }
    }
    seen.hold(20_000, &[0, 3, 4, 5, 6, 7, 8, 9]);
}

#[test]
fn buffers_and_strings() {
    let random = &mut Random::new(35);
    let mut seen = Seen::default();
    for _ in 0..150 {
        let (holders, rebuilders) = short_run(random, 300);
        for case in rebuilders {
            for side in other_buffers(&case.side, case.n) {
                RebuilderCase {
                    side,
                    ..case.clone()
                }
                .compare(&mut seen);
            }
            for (y, bits) in damaged_strings(random, &case.y, case.bits) {
                RebuilderCase {
                    y,
                    bits,
                    ..case.clone()
                }
                .compare(&mut seen);
            }
        }
        for case in holders {
            let (_, after) = case.clone().call(&mut Seen::default());
            let HolderSide { state, reply } = &case.side;
            // Every length up to the whole buffer: the reply's own is enough.
            for length in 0..reply.len() {
                let side = HolderSide {
                    state: state.clone(),
                    reply: reply[..length].to_vec(),
                };
                let (outcome, short) = HolderCase {
                    side,
                    ..case.clone()
                }
                .call(&mut seen);
                assert!(outcome.is_err() || short.reply == after.reply[..length]);
            }
            let lengths = [0, 4, HOLDER_BYTES - 1, HOLDER_BYTES + 1, HOLDER_BYTES + 4];
            for state in at_lengths(state, &lengths) {
                let side = HolderSide {
                    state,
                    reply: reply.clone(),
                };
                HolderCase {
                    side,
                    ..case.clone()
                }
                .compare(&mut seen);
            }
            for (x, bits) in damaged_strings(random, &case.x, case.bits) {
                HolderCase {
                    x,
                    bits,
                    ..case.clone()
                }
                .compare(&mut seen);
            }
        }
    }
    seen.hold(40_000, &[0, 2, 3, 9]);
}

/// A state's buffer may be longer than the state: the call is the same, and later bytes stay. A
/// shorter one gets 3, whatever the message and the other buffers are.
#[test]
fn state_buffers() {
    let random = &mut Random::new(41);
    let mut seen = Seen::default();
    for _ in 0..60 {
        let (holders, rebuilders) = short_run(random, 300);
        for case in rebuilders {
            let (outcome, after) = case.clone().call(&mut seen);
            for more in [1, 3, 4, 36] {
                let spare = random.bytes(more);
                let mut longer = case.clone();
                longer.side.state.extend(&spare);
                let mut expected = after.clone();
                expected.state.extend(&spare);
                assert_eq!(longer.call(&mut seen), (outcome, expected));
            }
            for length in [0, 1, 4, REBUILDER_BYTES - 4, REBUILDER_BYTES - 1] {
                let mut shorter = case.clone();
                shorter.side.state.truncate(length);
                if random.bit() {
                    shorter.message.clear();
                    shorter.side.question.clear();
                    shorter.side.sheet.clear();
                }
                assert_eq!(shorter.call(&mut seen).0, Err(Refusal::OutOfTurn));
            }
        }
        for case in holders {
            let (outcome, after) = case.clone().call(&mut seen);
            for more in [1, 3, 4, 36] {
                let spare = random.bytes(more);
                let mut longer = case.clone();
                longer.side.state.extend(&spare);
                let mut expected = after.clone();
                expected.state.extend(&spare);
                assert_eq!(longer.call(&mut seen), (outcome, expected));
            }
            for length in [0, 1, 4, HOLDER_BYTES - 4, HOLDER_BYTES - 1] {
                let mut shorter = case.clone();
                shorter.side.state.truncate(length);
                if random.bit() {
                    shorter.message.clear();
                    shorter.side.reply.clear();
                }
                assert_eq!(shorter.call(&mut seen).0, Err(Refusal::OutOfTurn));
            }
        }
    }
    seen.hold(5_000, &[0, 3]);
}

/// A whole run on states that were made in longer buffers, at any address.
#[test]
fn runs_in_longer_state_buffers() {
    let random = &mut Random::new(42);
    let (x, y) = ("1100101011110000101001101", "110010101111000101001101");
    let (x, y) = (packed(&bits_of(x)), packed(&bits_of(y)));
    for first in 0..8 {
        let mut holder = random.bytes(first + HOLDER_BYTES + 12);
        let mut rebuilder = random.bytes(first + REBUILDER_BYTES + 12);
        let before = (holder.clone(), rebuilder.clone());
        let mut question = random.bytes(QUESTION_BYTES);
        let mut reply = random.bytes(12);
        let mut string = random.bytes(x.as_bytes().len());
        let mut sheet = random.bytes(ROW_BYTES * sheet_rows(x.bits(), HOUSE.m as usize));
        let Numbers {
            m,
            h,
            k,
            key,
            ceiling,
        } = HOUSE;
        unpack(Library::holder_fresh(&mut holder[first..])).expect("a longer buffer");
        let mut length = unpack(Library::rebuilder_start(
            m,
            h,
            k,
            key,
            ceiling,
            y.as_bytes(),
            y.bits(),
            &mut rebuilder[first..],
            &mut question,
        ))
        .expect("a longer buffer") as usize;
        while length > 0 {
            let replied = unpack(Library::holder_answer(
                &mut holder[first..],
                x.as_bytes(),
                x.bits(),
                &question[..length],
                &mut reply,
            ))
            .expect("the holder's longer buffer is taken") as usize;
            length = unpack(Library::rebuilder_call(
                &mut rebuilder[first..],
                y.as_bytes(),
                y.bits(),
                &mut string,
                &mut sheet,
                &reply[..replied],
                &mut question,
            ))
            .expect("the rebuilder's longer buffer is taken") as usize;
        }
        assert_eq!(string, x.as_bytes());
        assert_eq!(holder[..first], before.0[..first]);
        assert_eq!(
            holder[first + HOLDER_BYTES..],
            before.0[first + HOLDER_BYTES..]
        );
        assert_eq!(rebuilder[..first], before.1[..first]);
        assert_eq!(
            rebuilder[first + REBUILDER_BYTES..],
            before.1[first + REBUILDER_BYTES..]
        );
    }
}

#[test]
fn starts() {
    let random = &mut Random::new(36);
    let mut seen = Seen::default();
    for _ in 0..30_000 {
        let mut numbers = settings(random);
        let field = match random.below(9) {
            0 => &mut numbers.m,
            1 => &mut numbers.h,
            2 => &mut numbers.k,
            3 => &mut numbers.key,
            4 => &mut numbers.ceiling,
            _ => &mut 0,
        };
        *field = random.pick(&[0, 1, 7, 8, 9, 32, 33, 64, 65, 16_384, 16_385, u32::MAX]);
        let bits = random.between(0, 70);
        let mut y = (packed(&random_bits(random, bits)).into_bytes(), bits);
        if random.below(4) == 0 {
            let all = damaged_strings(random, &y.0, bits);
            y = all[random.below(all.len())].clone();
        }
        let (exact, longer) = (REBUILDER_BYTES, REBUILDER_BYTES + 6);
        let state = random.pick(&[exact, exact, exact, longer, exact - 1, 0]);
        let (exact, longer) = (QUESTION_BYTES, QUESTION_BYTES + 4);
        let question = random.pick(&[exact, exact, exact, longer, exact - 1, 0]);
        let before = (random.bytes(state), random.bytes(question));
        let (mut library, mut model) = (before.clone(), before.clone());
        let Numbers {
            m,
            h,
            k,
            key,
            ceiling,
        } = numbers;
        let (y, bits) = (&y.0[..], y.1);
        let (state, question) = (&mut library.0, &mut library.1);
        let got = Library::rebuilder_start(m, h, k, key, ceiling, y, bits, state, question);
        let (state, question) = (&mut model.0, &mut model.1);
        let want = Model::rebuilder_start(m, h, k, key, ceiling, y, bits, state, question);
        assert_eq!(got, want, "{numbers:?} {bits} {y:02x?}");
        assert_eq!(library, model, "{numbers:?} {bits} {y:02x?}");
        match seen.add(unpack(got).map(|length| length as usize)) {
            Err(_) => assert_eq!(library, before),
            Ok(length) => {
                assert_eq!(library.1[..length], message(&[0, 1, h, key]));
                assert_eq!(library.1[length..], before.1[length..]);
                assert_eq!(library.0[REBUILDER_BYTES..], before.0[REBUILDER_BYTES..]);
                assert!(rebuilder_sound(&library.0));
            }
        }
    }
    seen.hold(30_000, &[0, 1, 2, 9]);
}

// Several damages at once, for the order of refusals

#[test]
fn several_damages() {
    let random = &mut Random::new(37);
    let mut seen = Seen::default();
    for _ in 0..250 {
        let (holders, rebuilders) = short_run(random, 200);
        for original in rebuilders {
            for _ in 0..60 {
                let mut case = original.clone();
                if random.below(2) == 0 {
                    let all = other_buffers(&case.side, case.n);
                    case.side = all[random.below(all.len())].clone();
                }
                if random.below(3) == 0 && !case.side.state.is_empty() {
                    damage_field(random, &mut case.side.state, 13);
                }
                if random.below(4) == 0 {
                    let all = damaged_strings(random, &case.y, case.bits);
                    (case.y, case.bits) = all[random.below(all.len())].clone();
                }
                if random.below(2) == 0 {
                    let all = damaged_messages(random, &case.message);
                    case.message = all[random.below(all.len())].clone();
                }
                case.compare(&mut seen);
            }
        }
        for original in holders {
            for _ in 0..60 {
                let mut case = original.clone();
                if random.below(2) == 0 {
                    let length = random.below(case.side.reply.len());
                    case.side.reply.truncate(length);
                }
                if random.below(3) == 0 {
                    damage_field(random, &mut case.side.state, 5);
                }
                match random.below(16) {
                    0 | 1 => _ = case.side.state.pop(),
                    2 | 3 => case.side.state.extend([0xa5; 4]),
                    _ => {}
                }
                if random.below(4) == 0 {
                    let all = damaged_strings(random, &case.x, case.bits);
                    (case.x, case.bits) = all[random.below(all.len())].clone();
                }
                if random.below(2) == 0 {
                    let all = damaged_messages(random, &case.message);
                    case.message = all[random.below(all.len())].clone();
                }
                case.compare(&mut seen);
            }
        }
    }
    seen.hold(100_000, &ALL);
}

// Answers of the right form with any values

/// An answer of the awaited form to a sound state, often one that settles.
fn formed_answer(random: &mut Random, state: &[u8], y: &[bool], longest: usize) -> Vec<u8> {
    let (h, key) = (field(state, H) as u32, field(state, KEY) as u32);
    let any_hash = random.number() >> (32 - h);
    let hash_of = |bits: &[bool]| {
        let s = packed(bits);
        unpack(Model::hash(s.as_bytes(), s.bits(), h, key)).unwrap() as u32
    };
    let bits_answer = |bits: &[bool]| [&[3][..], packed(bits).as_bytes()].concat();
    match field(state, PHASE) {
        0 => return message(&[0, random.between(0, longest) as u32]),
        2 => return bits_answer(&random_bits(random, field(state, N))),
        _ => {}
    }
    let Some([_, p, y_start, q]) = leftmost(state) else {
        return vec![0, 0];
    };
    let copy = &y[y_start..y_start + q];
    let settles = random.bit();
    match field(state, STAGE) {
        0 => message(&[1, if settles { hash_of(copy) } else { any_hash }]),
        1 | 2 => {
            let a = random.between(0, p);
            let s = packed(copy);
            let mut out = vec![0; p.div_ceil(8)];
            let done = unpack(Model::repair(s.as_bytes(), q, p, a, &mut out)) == Ok(1);
            let hash = if done && settles {
                hash_of(&unpacked(&out, p))
            } else {
                any_hash
            };
            message(&[2, a as u32, hash])
        }
        6 => bits_answer(&random_bits(random, p)),
        7 => {
            // One bit is put in or taken out in each column, at any place.
            let mut repaired = columns(copy, p.abs_diff(q));
            for column in &mut repaired {
                if q < p {
                    column.insert(random.below(column.len() + 1), random.bit());
                } else {
                    column.remove(random.below(column.len()));
                }
            }
            let mut answer = vec![4];
            for column in &repaired {
                let s = packed(column);
                let a = unpack(Model::syndrome(s.as_bytes(), s.bits())).unwrap() as u32;
                let any = random.between(0, column.len()) as u32;
                let damaged = !settles && random.below(20) == 0;
                answer.push(if damaged { any } else { a });
            }
            answer.push(if settles {
                hash_of(&woven(&repaired))
            } else {
                any_hash
            });
            message(&answer)
        }
        _ => {
            let m = field(state, M);
            let r = random.between(0, q - m);
            let near = random.between(r.min((q - m) / 2), r.max((q - m) / 2));
            let anchor = copy[near..near + m].to_vec();
            let any = random_bits(random, m);
            bits_answer(if random.below(4) > 0 { &anchor } else { &any })
        }
    }
}

/// What holds of a finished state whatever the answers were.
fn check_finished(side: &RebuilderSide) {
    let state = &side.state;
    let (n, m, ceiling) = (field(state, N), field(state, M), field(state, CEILING));
    let whole = 1 + n.div_ceil(8);
    assert!(field(state, ANSWERED) <= 9 * (n / m) + 6);
    assert!(field(state, COUNTED) <= ceiling + whole + whole.max(102));
    let mut rows = rows(state, &side.sheet);
    rows.sort();
    let mut end = 0;
    for [start, length, how] in rows {
        assert_eq!(start, end);
        assert!(length > 0 && (1..=6).contains(&how));
        end += length;
    }
    assert_eq!(end, n);
}

#[test]
fn runs_with_any_answers() {
    let random = &mut Random::new(38);
    let mut seen = Seen::default();
    for _ in 0..4_000 {
        let longest = random.pick(&[20, 300, 2_000]);
        let y_bits = random.between(0, longest);
        let kind = random.pick(&REFERENCES);
        let y = reference(random, kind, y_bits);
        let y_packed = packed(&y);
        let settings = settings(random);
        // A bit count of X near Y's makes hash, syndrome and burst questions.
        let near = (y_bits + random.below(5)).saturating_sub(2);
        let burst = (y_bits + random.below(69)).saturating_sub(34);
        let any = random.between(0, longest);
        let n = random.pick(&[near, burst, any, any]);
        let (side, _) = started(random, settings, y_packed.as_bytes(), y_bits, n);
        let message = message(&[0, n as u32]);
        let y_bytes = y_packed.into_bytes();
        let mut case = RebuilderCase {
            side,
            y: y_bytes,
            bits: y_bits,
            message,
            n,
        };
        loop {
            let (outcome, side) = case.clone().call(&mut seen);
            case.side = side;
            if outcome.expect("an answer of the awaited form is taken") == 0 {
                break;
            }
            case.message = formed_answer(random, &case.side.state, &y, n);
        }
        check_finished(&case.side);
    }
    seen.hold(20_000, &[0]);
}

/// Runs whose state is altered now and then; a state that passes as sound goes on.
#[test]
fn runs_with_altered_states() {
    let random = &mut Random::new(39);
    let mut seen = Seen::default();
    let mut finished = 0;
    for _ in 0..3_000 {
        let y_bits = random.between(0, 600);
        let y = random_bits(random, y_bits);
        let y_packed = packed(&y);
        let numbers = Numbers {
            m: 8,
            h: 8,
            ceiling: 16_384,
            ..settings(random)
        };
        let near = (y_bits + random.below(5)).saturating_sub(2);
        let burst = (y_bits + random.below(69)).saturating_sub(34);
        let n = random.pick(&[near, burst]);
        let (side, _) = started(random, numbers, y_packed.as_bytes(), y_bits, n);
        let message = message(&[0, n as u32]);
        let y_bytes = y_packed.into_bytes();
        let mut case = RebuilderCase {
            side,
            y: y_bytes,
            bits: y_bits,
            message,
            n,
        };
        for _ in 0..200 {
            let (outcome, side) = case.clone().call(&mut seen);
            case.side = side;
            match outcome {
                Ok(0) => {
                    finished += 1;
                    break;
                }
                Ok(_) => {}
                Err(Refusal::BufferTooShort) => break,
                Err(refusal) => panic!("{refusal} for a sound state and a formed answer"),
            }
            if random.below(3) == 0 {
                let mut altered = case.side.state.clone();
                for _ in 0..random.between(1, 3) {
                    let words = 13 + 4 * field(&case.side.state, WAITING);
                    damage_field(random, &mut altered, words);
                }
                let other = RebuilderSide {
                    state: altered.clone(),
                    ..case.side.clone()
                };
                RebuilderCase {
                    side: other,
                    ..case.clone()
                }
                .compare(&mut seen);
                // Y's bit count and the finish aside, soundness decides.
                let same_y = field(&altered, Y_BITS) == y_bits;
                let goes_on = field(&altered, PHASE) != 1 || field(&altered, WAITING) > 0;
                if rebuilder_sound(&altered) && same_y && goes_on {
                    case.side.state = altered;
                }
            }
            case.message = formed_answer(random, &case.side.state, &y, n);
        }
    }
    assert!(finished > 1_000, "{finished} finished");
    seen.hold(20_000, &[0, 3]);
}

// States made up near the limits of soundness

/// The longest piece at each index of the stack.
fn longest_pieces() -> [usize; 32] {
    let mut longest = [MAX_BITS; 32];
    for i in 1..32 {
        longest[i] = 5 * longest[i - 1] / 8;
    }
    longest
}

/// What is wrong with a made-up state.
#[derive(Clone, Copy, PartialEq)]
enum Wrong {
    Nothing,
    Answered,
    Counted,
    Rows,
    Stage,
    Phase,
    Piece,
    Copy,
    Order,
}

/// A value at a limit, just below it or well within it; just past it if it is to be wrong.
fn near(random: &mut Random, limit: usize, wrong: bool) -> usize {
    if wrong {
        return limit + 1;
    }
    let within = random.between(0, limit);
    random.pick(&[limit, limit, limit.saturating_sub(1), within])
}

/// A state of a rebuilder for `y_bits` bits, sound for the most part, near its limits.
fn made_up_state(random: &mut Random, y_bits: usize) -> Vec<u8> {
    use Wrong::*;
    let any_wrong = random.pick(&[Answered, Counted, Rows, Stage, Phase, Piece, Copy, Order]);
    let wrong = random.pick(&[Nothing, Nothing, any_wrong]);
    let Numbers {
        m,
        h,
        k,
        key,
        ceiling,
    } = settings(random);
    let m_bits = m as usize;
    let n = random.pick(&[0, 50, 400, 2_500, y_bits]);
    let waiting = random.pick(&[0, 1, 1, 2, 3, 9, 10, 12, 15, 17, 20, 22, 23]);
    let waiting = if n == 0 {
        0
    } else {
        waiting.min(1 + n / (2 * m_bits))
    };
    let longest = longest_pieces();
    let wrong_at = random.below(waiting.max(1));
    let mut state = vec![0; REBUILDER_BYTES];
    let (mut x, mut y, mut to_ask, mut to_write) = (0, 0, 0, 0);
    for i in (0..waiting).rev() {
        // The pieces to come need an anchor's bits and one of their own at least.
        let room = (n - x)
            .saturating_sub(i * (m_bits + 1))
            .max(1)
            .min(longest[i]);
        let even = (n / waiting).saturating_sub(m_bits).max(1);
        let p_any = random.between(1, even);
        let p = random.pick(&[room, even.min(room), p_any.min(room)]);
        let p = if wrong == Piece && wrong_at == i {
            longest[i] + 1
        } else {
            p
        };
        let left = y_bits.saturating_sub(y);
        let q_any = random.between(0, 2 * p + 2);
        let b = random.pick(&[2, 2, 7, 31, 32, 32, 33]);
        let burst = random.pick(&[p + b, p.saturating_sub(b)]);
        let q = random.pick(&[p, p + 1, p - 1, burst, burst, q_any]);
        let q = q.min(left);
        let q = if wrong == Copy && wrong_at == i {
            left + 1
        } else {
            q
        };
        for (field, value) in [x, p, y, q].into_iter().enumerate() {
            set_field(&mut state, PIECES + 16 * i + 4 * field, value as u32);
        }
        (x, y) = (x + p, y + q);
        if wrong == Order && wrong_at == i {
            let back = random.pick(&[(1, 0), (0, 1)]);
            (x, y) = (x - back.0, y.saturating_sub(back.1));
        } else if x + m_bits < n && random.below(8) > 0 {
            x += m_bits;
        }
        x = x.min(n);
        to_ask += 9 * (p / m_bits) + 5;
        to_write += sheet_rows(p, m_bits);
    }
    let stages: Vec<u32> = match leftmost_of(&state, waiting) {
        None => vec![0],
        Some([_, p, _, q]) => {
            let first = [
                (q == p, 0),
                (q + 1 == p, 1),
                (q == p + 1, 2),
                (is_burst(p, q), 7),
            ]
            .into_iter()
            .find(|&(suits, _)| suits);
            let first = first.map_or(vec![], |(_, stage)| vec![stage; 2]);
            let anchors: &[u32] = if p >= 4 * (m + h) as usize && q >= m_bits {
                &[3, 4, 5]
            } else {
                &[]
            };
            [&first, anchors, &[6]].concat()
        }
    };
    let stage = if wrong == Stage {
        random.below(9) as u32
    } else {
        random.pick(&stages)
    };
    let phase = random.pick(if waiting > 0 { &[1, 1, 2] } else { &[1] });
    let phase = if wrong == Phase {
        random.pick(&[0, 2, 3])
    } else {
        phase
    };
    let whole = 1 + n.div_ceil(8);
    let most_questions = 9 * (n / m_bits) + 6;
    let most_answered = match phase {
        2 => most_questions - 1,
        _ => (most_questions + questions_had(stage)).saturating_sub(to_ask),
    };
    let answered = near(random, most_answered, wrong == Answered).max(1);
    let over = ceiling as usize + whole.max(102);
    let counted = match phase {
        2 if wrong == Counted => random.pick(&[ceiling as usize, over + 1]),
        2 => random.between(ceiling as usize + 1, over),
        _ if waiting > 0 => near(random, ceiling as usize, wrong == Counted),
        _ => near(random, over + whole, wrong == Counted),
    };
    let most_rows = sheet_rows(n, m_bits).saturating_sub(to_write);
    let rows = near(random, most_rows, wrong == Rows);
    let head = [m, h, k, key, ceiling, y_bits as u32, phase, n as u32];
    let counts = [answered, counted, rows, stage as usize, waiting].map(|count| count as u32);
    for (i, value) in head.into_iter().chain(counts).enumerate() {
        set_field(&mut state, 4 * i, value);
    }
    state
}

fn leftmost_of(state: &[u8], waiting: usize) -> Option<[usize; 4]> {
    waiting.checked_sub(1).map(|last| piece(state, last))
}

#[test]
fn made_up_states() {
    let random = &mut Random::new(40);
    let mut seen = Seen::default();
    let (mut sound, mut unsound) = (0, 0);
    let mut columns_asked = 0;
    for _ in 0..60 {
        let y_bits = random.pick(&[0, 60, 1_000, 2_501, 3_000]);
        let y = random_bits(random, y_bits);
        let y_bytes = packed(&y).into_bytes();
        for _ in 0..500 {
            let state = made_up_state(random, y_bits);
            let (n, m) = (field(&state, N), field(&state, M));
            let is_sound = rebuilder_sound(&state);
            let goes_on = is_sound && (field(&state, PHASE) != 1 || field(&state, WAITING) > 0);
            *if is_sound { &mut sound } else { &mut unsound } += 1;
            columns_asked += (goes_on && field(&state, STAGE) == 7) as usize;
            let message = if goes_on {
                formed_answer(random, &state, &y, n)
            } else {
                vec![random.below(5) as u8, 0]
            };
            let side = RebuilderSide {
                state,
                string: random.bytes(n.div_ceil(8)),
                sheet: random.bytes(ROW_BYTES * sheet_rows(n, m)),
                question: random.bytes(QUESTION_BYTES),
            };
            let case = RebuilderCase {
                side,
                y: y_bytes.clone(),
                bits: y_bits,
                message,
                n,
            };
            let (outcome, _) = case.call(&mut seen);
            assert_eq!(outcome.is_ok(), goes_on);
        }
    }
    println!("{sound} sound, {unsound} not");
    assert!(
        sound > 5_000 && unsound > 5_000,
        "{sound} sound, {unsound} not"
    );
    assert!(columns_asked > 500, "{columns_asked} at columns");
    seen.hold(30_000, &[0, 3]);
}

/// The longest stack of full length: a state with the largest pieces at each index.
#[test]
fn limits_of_the_stack() {
    let mut seen = Seen::default();
    let longest = longest_pieces();
    let y = vec![0; MAX_BITS / 8];
    for waiting in 1..=32 {
        for more in [0, 1] {
            let mut state = vec![0; REBUILDER_BYTES];
            let head = [
                8,
                8,
                1,
                1,
                16_384,
                MAX_BITS as u32,
                1,
                MAX_BITS as u32,
                1,
                0,
                0,
                6,
            ];
            for (i, value) in head.into_iter().enumerate() {
                set_field(&mut state, 4 * i, value);
            }
            set_field(&mut state, WAITING, waiting as u32);
            // The leftmost piece is at its limit or past it, the others have one bit.
            let mut x = 0;
            for i in (0..waiting).rev() {
                let p = if i == waiting - 1 {
                    longest[i] + more
                } else {
                    1
                };
                for (field, value) in [x, p, 0, 0].into_iter().enumerate() {
                    set_field(&mut state, PIECES + 16 * i + 4 * field, value as u32);
                }
                x += p;
            }
            let p = longest[waiting - 1] + more;
            let fits = more == 0 && p > 0 && (0..waiting).all(|i| longest[i] > 0);
            assert_eq!(
                rebuilder_sound(&state),
                fits,
                "{waiting} pieces, {more} more"
            );
            let side = RebuilderSide {
                state,
                string: vec![0; MAX_BITS / 8],
                sheet: vec![0; ROW_BYTES * sheet_rows(MAX_BITS, 8)],
                question: vec![0; QUESTION_BYTES],
            };
            let message = [&[3][..], &vec![0; p.div_ceil(8)]].concat();
            let case = RebuilderCase {
                side,
                y: y.clone(),
                bits: MAX_BITS,
                message,
                n: MAX_BITS,
            };
            assert_eq!(case.call(&mut seen).0.is_ok(), fits);
        }
    }
}

/// A holder gives 1,000,000 answers and no more.
#[test]
fn spent_answers() {
    let mut side = HolderSide {
        state: vec![0; HOLDER_BYTES],
        reply: vec![0; 12],
    };
    for (i, value) in [1, 8, 8, 1, MAX_ANSWERS as u32 - 2].into_iter().enumerate() {
        set_field(&mut side.state, 4 * i, value);
    }
    let question = message(&[1, 0, 8]);
    assert!(holder_call(&mut side, &[0x5a], 8, &question).is_ok());
    assert!(holder_call(&mut side, &[0x5a], 8, &question).is_ok());
    assert_eq!(field(&side.state, HOLDER_ANSWERS), MAX_ANSWERS);
    assert!(holder_sound(&side.state));
    for message in [question, vec![], vec![0x80, 0], vec![9]] {
        let spent = holder_call(&mut side, &[0x5a], 8, &message);
        assert_eq!(spent, Err(Refusal::OutOfTurn));
    }
    let string = holder_call(&mut side, &[0x5a, 0], 8, &[]);
    assert_eq!(string, Err(Refusal::BadString));
}
