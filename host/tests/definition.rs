//! Library and model against a slow, direct reading of 01 and of 02's CR 1: every repair tried, every
//! place looked at, pieces kept in a plain list, nothing packed and no state between calls.

mod common;

use common::*;
use lunetteorris::model::Model;
use lunetteorris::{unpack, Ends, Library};
use std::collections::{BTreeSet, VecDeque};

// Codes and hash

fn syndrome(b: &[bool]) -> usize {
    let sum: usize = (1..=b.len()).filter(|&i| b[i - 1]).sum();
    sum % (b.len() + 1)
}

fn row(key: u32, i: usize) -> u32 {
    (0..i).fold(key, |v, _| {
        let v = v ^ (v << 13);
        let v = v ^ (v >> 17);
        v ^ (v << 5)
    })
}

/// Rows from 1 to n; the one at index 0 is the key.
fn row_list(key: u32, n: usize) -> Vec<u32> {
    let mut rows = vec![key];
    for _ in 0..n {
        rows.push(row(rows[rows.len() - 1], 1));
    }
    rows
}

fn hash(b: &[bool], h: u32, rows: &[u32]) -> u32 {
    let low = ((1u64 << h) - 1) as u32;
    (1..=b.len())
        .filter(|&i| b[i - 1])
        .fold(0, |sum, i| sum ^ (rows[i] & low))
}

/// All strings got by putting one bit in.
fn longer(b: &[bool]) -> BTreeSet<Vec<bool>> {
    let mut all = BTreeSet::new();
    for place in 0..=b.len() {
        for bit in [false, true] {
            let mut s = b.to_vec();
            s.insert(place, bit);
            all.insert(s);
        }
    }
    all
}

/// All strings got by taking one bit out.
fn shorter(b: &[bool]) -> BTreeSet<Vec<bool>> {
    let without = |place| {
        let mut s = b.to_vec();
        s.remove(place);
        s
    };
    (0..b.len()).map(without).collect()
}

fn with_syndrome(all: BTreeSet<Vec<bool>>, a: usize) -> Vec<Vec<bool>> {
    all.into_iter().filter(|s| syndrome(s) == a).collect()
}

/// One bit put in or taken out to n bits of this syndrome.
fn one_bit(b: &[bool], n: usize, a: usize) -> Option<Vec<bool>> {
    let all = if b.len() < n { longer(b) } else { shorter(b) };
    with_syndrome(all, a).pop()
}

/// One bit put in or taken out in each column, to the syndromes of the original's columns.
fn one_bit_a_column(original: &[bool], copy: &[bool], b: usize) -> Option<Vec<bool>> {
    let pairs = columns(original, b).into_iter().zip(columns(copy, b));
    let repaired: Option<Vec<_>> = pairs
        .map(|(original, copy)| one_bit(&copy, original.len(), syndrome(&original)))
        .collect();
    repaired.map(|columns| woven(&columns))
}

fn repaired<E: Ends>(b: &[bool], n: usize, a: usize) -> Option<Vec<bool>> {
    let s = packed(b);
    let mut out = vec![0xff; n.div_ceil(8)];
    match unpack(E::repair(s.as_bytes(), s.bits(), n, a, &mut out)).unwrap() {
        0 => None,
        _ => Some(unpacked(&out, n)),
    }
}

fn check_repairs<E: Ends>(b: &[bool]) {
    for a in 0..=b.len() + 1 {
        let found = with_syndrome(longer(b), a);
        assert_eq!(found.len(), 1, "put-in has exactly one result");
        assert_eq!(
            repaired::<E>(b, b.len() + 1, a),
            Some(found[0].clone()),
            "{b:?} {a}"
        );
    }
    for a in 0..b.len() {
        let found = with_syndrome(shorter(b), a);
        assert!(found.len() <= 1, "take-out has at most one result");
        assert_eq!(
            repaired::<E>(b, b.len() - 1, a),
            found.first().cloned(),
            "{b:?} {a}"
        );
    }
}

#[test]
fn repairs_of_all_short_strings() {
    for bits in 0..=9 {
        for v in 0..1usize << bits {
            let b: Vec<bool> = (0..bits).map(|i| v >> i & 1 == 1).collect();
            check_repairs::<Library>(&b);
            check_repairs::<Model>(&b);
        }
    }
}

#[test]
fn repairs_of_longer_strings() {
    let random = &mut Random::new(1);
    for _ in 0..60 {
        let bits = random.between(10, 40);
        let kind = random.pick(&REFERENCES);
        let b = reference(random, kind, bits);
        check_repairs::<Library>(&b);
        check_repairs::<Model>(&b);
    }
}

#[test]
fn syndromes_and_hashes() {
    let random = &mut Random::new(2);
    for _ in 0..2_000 {
        let bits = random.between(0, 200);
        let kind = random.pick(&REFERENCES);
        let b = reference(random, kind, bits);
        let h = random.between(8, 32) as u32;
        let key = random.number().max(1);
        let s = packed(&b);
        let want = hash(&b, h, &row_list(key, bits)) as u64;
        assert_eq!(unpack(Library::hash(s.as_bytes(), bits, h, key)), Ok(want));
        assert_eq!(unpack(Model::hash(s.as_bytes(), bits, h, key)), Ok(want));
        let want = syndrome(&b) as u64;
        assert_eq!(unpack(Library::syndrome(s.as_bytes(), bits)), Ok(want));
        assert_eq!(unpack(Model::syndrome(s.as_bytes(), bits)), Ok(want));
    }
}

// The anchor search

fn place(copy: &[bool], p: usize, s: usize, k: usize, anchor: &[bool]) -> Option<usize> {
    let (q, m) = (copy.len(), anchor.len());
    let distance = |r: usize| (2 * r as i64 - (2 * s as i64 + q as i64 - p as i64)).abs();
    let mut root = 0;
    while (root + 1) * (root + 1) <= q {
        root += 1;
    }
    (0..(q + 1).saturating_sub(m))
        .filter(|&r| copy[r..r + m] == *anchor && distance(r) <= 2 * (k * root) as i64)
        .min_by_key(|&r| (distance(r), r))
}

#[test]
fn places() {
    let random = &mut Random::new(3);
    let mut placed = 0;
    for _ in 0..20_000 {
        let bits = random.between(0, 300);
        let kind = random.pick(&REFERENCES);
        let y = reference(random, kind, bits);
        let start = random.between(0, bits);
        let q = random.between(0, bits - start);
        let m = random.pick(&[8, 9, 16, 33, 64]);
        let p = random.between(m, m.max(q + 40));
        let s = random.between(0, p - m);
        let k = random.between(1, 8);
        let copy = &y[start..start + q];
        let anchor = if q >= m && random.below(4) > 0 {
            let r = random.between(0, q - m);
            copy[r..r + m].to_vec()
        } else {
            random_bits(random, m)
        };
        let want = place(copy, p, s, k, &anchor);
        placed += want.is_some() as usize;
        let want = want.map_or(0, |r| r as u64 + 1);
        let (y, a) = (packed(&y), packed(&anchor));
        let (y, a) = (y.as_bytes(), a.as_bytes());
        let library = Library::anchor(y, bits, start, q, p, s, m as u32, k as u32, a);
        let model = Model::anchor(y, bits, start, q, p, s, m as u32, k as u32, a);
        assert_eq!(unpack(library), Ok(want));
        assert_eq!(unpack(model), Ok(want));
    }
    assert!((4_000..16_000).contains(&placed), "{placed} placed");
}

// The whole run

/// What a run consists of: messages in order, rows, string, counted bytes.
#[derive(Debug, PartialEq)]
struct Record {
    messages: Vec<Vec<u8>>,
    rows: Vec<[usize; 3]>,
    string: Vec<bool>,
    counted: usize,
}

#[derive(Clone, Copy)]
struct Piece {
    x: usize,
    p: usize,
    y: usize,
    q: usize,
}

struct Direct<'a> {
    x: &'a [bool],
    y: &'a [bool],
    settings: Numbers,
    hash_rows: Vec<u32>,
    waiting: VecDeque<Piece>,
    record: Record,
}

#[derive(Clone, Copy)]
enum Question {
    Hash,
    Syndrome,
    Burst(usize),
    Anchor(usize),
    Bits,
}

impl Direct<'_> {
    /// Writes down a question and its answer, whose bytes are counted.
    fn ask(&mut self, question: &[u32], answer: Vec<u8>) {
        self.record.messages.push(message(question));
        self.record.counted += answer.len();
        self.record.messages.push(answer);
    }

    fn ask_bits(&mut self, start: usize, length: usize) -> Vec<bool> {
        let bits = self.x[start..start + length].to_vec();
        let mut answer = vec![3];
        answer.extend(packed(&bits).as_bytes());
        self.ask(&[3, start as u32, length as u32], answer);
        bits
    }

    fn settle(&mut self, start: usize, bits: &[bool], how: usize) {
        self.record.string[start..start + bits.len()].copy_from_slice(bits);
        self.record.rows.push([start, bits.len(), how]);
    }

    /// The questions that a piece may need, in order.
    fn questions(&self, piece: Piece) -> Vec<Question> {
        let (m, h) = (self.settings.m as usize, self.settings.h as usize);
        let Piece { p, q, .. } = piece;
        let mut questions = Vec::new();
        if q == p {
            questions.push(Question::Hash);
        }
        if q + 1 == p || q == p + 1 {
            questions.push(Question::Syndrome);
        }
        if is_burst(p, q) {
            questions.push(Question::Burst(p.abs_diff(q)));
        }
        if !(p < 4 * (m + h) || q < m) {
            let c = (p - m) / 2;
            questions.extend([c, c + m, c - m].map(Question::Anchor));
        }
        questions.push(Question::Bits);
        questions
    }

    /// Asks one question of the leftmost piece; whether the piece is done with.
    fn work(&mut self, piece: Piece, question: Question) -> bool {
        let Numbers { m, h, k, .. } = self.settings;
        let Piece { x, p, y, q } = piece;
        let (original, copy) = (&self.x[x..x + p], &self.y[y..y + q]);
        let value = hash(original, h, &self.hash_rows);
        let range = [x as u32, p as u32];
        let settled = match question {
            Question::Hash => {
                let agrees = hash(copy, h, &self.hash_rows) == value;
                let copy = copy.to_vec();
                self.ask(&[1, range[0], range[1]], message(&[1, value]));
                agrees.then_some((copy, 1))
            }
            Question::Syndrome => {
                let a = syndrome(original);
                let how = if q < p { 2 } else { 3 };
                let found = one_bit(copy, p, a);
                self.ask(&[2, range[0], range[1]], message(&[2, a as u32, value]));
                found
                    .filter(|s| hash(s, h, &self.hash_rows) == value)
                    .map(|s| (s, how))
            }
            Question::Burst(b) => {
                let mut answer = vec![4];
                answer.extend(columns(original, b).iter().map(|c| syndrome(c) as u32));
                answer.push(value);
                let found = one_bit_a_column(original, copy, b);
                self.ask(&[4, range[0], range[1], b as u32], message(&answer));
                found
                    .filter(|s| hash(s, h, &self.hash_rows) == value)
                    .map(|s| (s, 6))
            }
            Question::Bits => Some((self.ask_bits(x, p), 5)),
            Question::Anchor(s) => {
                let m = m as usize;
                let copy = copy.to_vec();
                let anchor = self.ask_bits(x + s, m);
                let Some(r) = place(&copy, p, s, k as usize, &anchor) else {
                    return false;
                };
                self.settle(x + s, &anchor, 4);
                self.waiting.pop_front();
                self.waiting.push_front(Piece {
                    x: x + s + m,
                    p: p - s - m,
                    y: y + r + m,
                    q: q - r - m,
                });
                self.waiting.push_front(Piece { x, p: s, y, q: r });
                return true;
            }
        };
        let Some((bits, how)) = settled else {
            return false;
        };
        self.settle(x, &bits, how);
        self.waiting.pop_front();
        true
    }

    fn run(&mut self) {
        while let Some(&piece) = self.waiting.front() {
            if piece.p == 0 {
                self.waiting.pop_front();
                continue;
            }
            for question in self.questions(piece) {
                let done = self.work(piece, question);
                let over = self.record.counted > self.settings.ceiling as usize;
                if over && self.waiting.iter().any(|piece| piece.p > 0) {
                    let bits = self.ask_bits(0, self.x.len());
                    self.record.rows.clear();
                    self.settle(0, &bits, 5);
                    return;
                }
                if done {
                    break;
                }
            }
        }
    }
}

fn direct(x: &[bool], y: &[bool], settings: Numbers) -> Record {
    let mut direct = Direct {
        x,
        y,
        settings,
        hash_rows: row_list(settings.key, x.len().max(y.len())),
        waiting: VecDeque::from([Piece {
            x: 0,
            p: x.len(),
            y: 0,
            q: y.len(),
        }]),
        record: Record {
            messages: vec![
                message(&[0, 1, settings.h, settings.key]),
                message(&[0, x.len() as u32]),
            ],
            rows: Vec::new(),
            string: vec![false; x.len()],
            counted: 0,
        },
    };
    direct.run();
    direct.record
}

/// The same run by library and model.
fn called(random: &mut Random, x: &[bool], y: &[bool], settings: Numbers) -> Record {
    let (n, y_bits) = (x.len(), y.len());
    let (x, y) = (packed(x), packed(y));
    let mut holder = fresh_holder(random, reply_bytes(n));
    let (mut rebuilder, mut length) = started(random, settings, y.as_bytes(), y_bits, n);
    let mut messages = Vec::new();
    while length > 0 {
        let question = rebuilder.question[..length].to_vec();
        let replied = holder_call(&mut holder, x.as_bytes(), n, &question).unwrap();
        let answer = holder.reply[..replied].to_vec();
        length = rebuilder_call(&mut rebuilder, y.as_bytes(), y_bits, &answer).unwrap();
        messages.extend([question, answer]);
    }
    Record {
        messages,
        rows: rows(&rebuilder.state, &rebuilder.sheet),
        string: unpacked(&rebuilder.string, n),
        counted: field(&rebuilder.state, COUNTED),
    }
}

#[test]
fn whole_runs() {
    let random = &mut Random::new(4);
    let mut how = [0; 7];
    for _ in 0..1_500 {
        let longest = random.pick(&[10, 100, 600]);
        let n = random.between(0, longest);
        let kind = random.pick(&REFERENCES);
        let x = reference(random, kind, n);
        let change = random.pick(&CHANGES);
        let y = copy_of(random, &x, change, 2_000);
        let settings = settings(random);
        let want = direct(&x, &y, settings);
        let got = called(random, &x, &y, settings);
        assert_eq!(got, want, "{settings:?} {x:?} {y:?}");
        for row in want.rows {
            how[row[2]] += 1;
        }
    }
    assert!(
        how[1..].iter().all(|&rows| rows > 100),
        "rows by how: {how:?}"
    );
}

/// Runs of two to 34 bits lost or gained, at each place of short strings; the copy of a few bits or
/// none, and pieces of fewer bits than the run.
#[test]
fn single_bursts() {
    let random = &mut Random::new(5);
    let (mut exact, mut others) = (0, 0);
    for b in [2, 3, 4, 7, 8, 16, 31, 32, 33, 34] {
        for n in [1, 2, 3, 5, 8, 31, 32, 33, 40, 64, 90] {
            for at in (0..=n).step_by(1 + n / 12) {
                let x = random_bits(random, n);
                let mut longer = x.clone();
                longer.splice(at..at, random_bits(random, b));
                let settings = Numbers {
                    ceiling: 16_384,
                    ..settings(random)
                };
                // X from the longer string, and the longer string from X.
                for (x, y) in [(&x, &longer), (&longer, &x)] {
                    let want = direct(x, y, settings);
                    assert_eq!(called(random, x, y, settings), want, "{x:?} {y:?}");
                    if b <= 32 {
                        assert_eq!(want.rows, [[0, x.len(), 6]], "{x:?} {y:?}");
                        assert_eq!(want.string, *x);
                        exact += 1;
                    } else {
                        assert_ne!(want.messages[2][0], 4);
                        others += 1;
                    }
                }
            }
        }
    }
    assert!(exact > 1_000 && others > 200, "{exact} and {others}");
}
