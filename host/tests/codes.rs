//! The functions on strings, library against model, on valid and damaged input.

#[path = "../src/by_subtraction.rs"]
mod by_subtraction;
mod common;

use common::*;
use lunetteorris::model::Model;
use lunetteorris::{unpack, Ends, Library, Refusal, HOLDER_BYTES, MAX_BITS};

/// A packed string, one in three damaged: bytes and a bit count.
fn lent(random: &mut Random, longest: usize) -> (Vec<u8>, usize) {
    let bits = random.between(0, longest);
    let kind = random.pick(&REFERENCES);
    let mut bytes = packed(&reference(random, kind, bits)).into_bytes();
    let mut count = bits;
    match random.below(18) {
        0 => bytes.push(0),
        1 => _ = bytes.pop(),
        2 => count += random.pick(&[1, 7, 8]),
        3 => count = count.saturating_sub(random.pick(&[1, 7, 8])),
        4 => count = random.pick(&[MAX_BITS + 1, usize::MAX, usize::MAX - 6]),
        // The last byte's lowest bit: spare unless the bit count is a multiple of 8.
        5 => _ = bytes.last_mut().map(|last| *last |= 1),
        _ => {}
    }
    (bytes, count)
}

/// Results seen, by refusal number.
#[derive(Debug, Default)]
struct Seen([usize; 11]);

impl Seen {
    fn add(&mut self, packed: u64) {
        self.0[(packed % 256) as usize] += 1;
    }

    fn hold(&self, numbers: &[usize]) {
        for number in 0..self.0.len() {
            let expected = number == 0 || numbers.contains(&number);
            assert_eq!(self.0[number] > 0, expected, "refusal {number} in {self:?}");
        }
    }
}

#[test]
fn syndromes() {
    let random = &mut Random::new(20);
    let mut seen = Seen::default();
    for _ in 0..20_000 {
        let (s, bits) = lent(random, 400);
        let got = Library::syndrome(&s, bits);
        assert_eq!(got, Model::syndrome(&s, bits), "{bits} bits, {s:02x?}");
        seen.add(got);
    }
    seen.hold(&[2]);
}

#[test]
fn hashes() {
    let random = &mut Random::new(21);
    let mut seen = Seen::default();
    for _ in 0..20_000 {
        let (s, bits) = lent(random, 400);
        let any = random.between(8, 32) as u32;
        let h = random.pick(&[8, 32, any, any, any, any, any, any, 7, 33, 0, u32::MAX]);
        let any = random.number();
        let key = random.pick(&[1, u32::MAX, any, any, any, any, 0]);
        let got = Library::hash(&s, bits, h, key);
        assert_eq!(
            got,
            Model::hash(&s, bits, h, key),
            "{bits} bits, {s:02x?}, h {h}, key {key}"
        );
        seen.add(got);
    }
    seen.hold(&[1, 2]);
}

#[test]
fn repairs() {
    let random = &mut Random::new(22);
    let mut seen = Seen::default();
    let mut none = 0;
    for _ in 0..60_000 {
        let (s, bits) = lent(random, 300);
        let up = bits.saturating_add(1);
        let down = bits.saturating_sub(1);
        let (up_2, down_2) = (bits.saturating_add(2), bits.saturating_sub(2));
        let n = random.pick(&[
            up,
            up,
            up,
            up,
            down,
            down,
            down,
            down,
            bits,
            up_2,
            down_2,
            0,
            MAX_BITS + 1,
            usize::MAX,
        ]);
        let any = random.between(0, n.min(MAX_BITS));
        let past = n.saturating_add(1);
        let a = random.pick(&[any, any, any, any, any, any, 0, n, past, usize::MAX]);
        let needed = n.min(MAX_BITS).div_ceil(8);
        let shorter = needed.saturating_sub(1);
        let longer = needed + random.below(4);
        let length = random.pick(&[needed, needed, longer, longer, longer, shorter, 0]);
        let before = random.bytes(length);
        let (mut out, mut model) = (before.clone(), before.clone());
        let got = Library::repair(&s, bits, n, a, &mut out);
        let want = Model::repair(&s, bits, n, a, &mut model);
        let told = || format!("{bits} bits, {s:02x?}, n {n}, a {a}");
        assert_eq!(got, want, "{}", told());
        assert_eq!(out, model, "{}", told());
        match unpack(got) {
            Ok(1) => {
                assert_eq!(out[needed..], before[needed..], "{}", told());
                let syndrome = Model::syndrome(&out[..needed], n);
                assert_eq!(unpack(syndrome), Ok(a as u64), "{}", told());
            }
            result => {
                assert_eq!(out, before, "{}", told());
                none += (result == Ok(0)) as usize;
            }
        }
        seen.add(got);
    }
    seen.hold(&[2, 8, 9]);
    assert!(none > 1_000);
}

#[test]
fn full_length() {
    let random = &mut Random::new(23);
    for kind in REFERENCES {
        for bits in [MAX_BITS, MAX_BITS - 1, MAX_BITS - 7] {
            let s = packed(&reference(random, kind, bits));
            let s = s.as_bytes();
            assert_eq!(Library::syndrome(s, bits), Model::syndrome(s, bits));
            for (h, key) in [(8, 1), (32, u32::MAX)] {
                assert_eq!(Library::hash(s, bits, h, key), Model::hash(s, bits, h, key));
            }
            for n in [bits - 1, bits + 1] {
                for _ in 0..8 {
                    let any = random.between(0, n);
                    let a = random.pick(&[0, n, any, any, any]);
                    let mut out = random.bytes(MAX_BITS / 8 + 1);
                    let mut model = out.clone();
                    let got = Library::repair(s, bits, n, a, &mut out);
                    assert_eq!(got, Model::repair(s, bits, n, a, &mut model));
                    assert!(out == model);
                    assert_eq!(unpack(got).is_err(), n > MAX_BITS);
                }
            }
        }
    }
    let (short, long) = (vec![0; MAX_BITS / 8], vec![0; MAX_BITS / 8 + 1]);
    assert_eq!(unpack(Library::syndrome(&short, MAX_BITS)), Ok(0));
    assert_eq!(
        unpack(Library::syndrome(&long, MAX_BITS + 1)),
        Err(Refusal::BadString)
    );
}

/// One bit less and one more, as far as a string has so many.
fn neighbours(bits: usize) -> impl Iterator<Item = usize> {
    (bits.saturating_sub(1)..=bits + 1).filter(move |&n| n != bits && n <= MAX_BITS)
}

/// The benchmark's syndrome in the library's way against the model.
fn check_syndrome(s: &[u8], bits: usize) {
    let got = by_subtraction::syndrome(s, 0, bits) as u64;
    assert_eq!(unpack(Model::syndrome(s, bits)), Ok(got), "{s:02x?}");
}

/// Its repair.
fn check_repair(random: &mut Random, s: &[u8], bits: usize, n: usize, a: usize) {
    let mut out = random.bytes(n.div_ceil(8) + 1);
    let mut model = out.clone();
    let got = by_subtraction::repair(s, 0, bits, n, a, &mut out) as u64;
    let want = unpack(Model::repair(s, bits, n, a, &mut model));
    assert_eq!(want, Ok(got), "{bits} bits, n {n}, a {a}");
    assert!(out == model, "{bits} bits, n {n}, a {a}");
}

#[test]
fn by_subtraction_short() {
    let random = &mut Random::new(26);
    for kind in REFERENCES {
        for bits in 0..=300 {
            let s = packed(&reference(random, kind, bits)).into_bytes();
            check_syndrome(&s, bits);
            for n in neighbours(bits) {
                for a in 0..=n {
                    check_repair(random, &s, bits, n, a);
                }
            }
        }
    }
}

#[test]
fn by_subtraction_long() {
    let random = &mut Random::new(27);
    for kind in REFERENCES {
        for bits in [4_095, 4_096, MAX_BITS - 1, MAX_BITS] {
            let s = packed(&reference(random, kind, bits)).into_bytes();
            check_syndrome(&s, bits);
            for n in neighbours(bits) {
                for a in [0, n, random.between(0, n), random.between(0, n)] {
                    check_repair(random, &s, bits, n, a);
                }
            }
        }
    }
}

#[test]
fn anchors() {
    let random = &mut Random::new(24);
    let mut seen = Seen::default();
    let mut placed = 0;
    for _ in 0..60_000 {
        let (y, bits) = lent(random, 600);
        let legal = bits.min(8 * y.len());
        let mut start = random.between(0, legal);
        let mut q = random.between(0, legal - start);
        let m_legal = random.pick(&[8, 8, 8, 9, 15, 16, 63, 64]);
        let mut p = random.between(m_legal, 600 + m_legal);
        let mut s = random.between(0, p - m_legal);
        let mut m = m_legal as u32;
        let mut k = random.between(1, 8) as u32;
        let mut anchor = if q >= m_legal && random.below(4) > 0 {
            let r = random.between(start, start + q - m_legal);
            packed(&unpacked(&y, 8 * y.len())[r..r + m_legal]).into_bytes()
        } else {
            packed(&random_bits(random, m_legal)).into_bytes()
        };
        match random.below(24) {
            0 => m = random.pick(&[0, 7, 65, u32::MAX]),
            1 => k = random.pick(&[0, 9, u32::MAX]),
            2 => q = random.pick(&[legal - start + 1, usize::MAX, usize::MAX - start]),
            3 => start = random.pick(&[legal + 1, legal - q + 1, usize::MAX, usize::MAX - q]),
            4 => p = random.pick(&[MAX_BITS + 1, s + m_legal - 1, usize::MAX, 0]),
            5 => s = random.pick(&[p - m_legal + 1, usize::MAX, usize::MAX - m_legal + 1]),
            6 => anchor.push(0),
            7 => _ = anchor.pop(),
            8 => *anchor.last_mut().unwrap() |= 1,
            9 => m = random.between(8, 64) as u32,
            10 => p = random.between(m_legal, MAX_BITS),
            _ => {}
        }
        let got = Library::anchor(&y, bits, start, q, p, s, m, k, &anchor);
        let want = Model::anchor(&y, bits, start, q, p, s, m, k, &anchor);
        assert_eq!(
            got, want,
            "{bits} bits {y:02x?}, start {start} q {q} p {p} s {s} m {m} k {k}, {anchor:02x?}"
        );
        placed += (got >= 256) as usize;
        seen.add(got);
    }
    seen.hold(&[1, 2, 8]);
    assert!(placed > 5_000);
}

/// Of several reasons the first counts: 1, 2, 8.
#[test]
fn order_of_anchor_refusals() {
    for case in 0..16 {
        let [setting, copy, anchor, range] = [1, 2, 4, 8].map(|bit| case & bit > 0);
        let m = if setting { 7 } else { 9 };
        let y = if copy { [0xff, 0xff] } else { [0xff, 0xf0] };
        let a = if anchor { [0xff, 0xff] } else { [0xff, 0x80] };
        let (start, q) = if range { (5, usize::MAX - 5) } else { (0, 12) };
        let got = Library::anchor(&y, 12, start, q, 12, 0, m, 1, &a);
        assert_eq!(got, Model::anchor(&y, 12, start, q, 12, 0, m, 1, &a));
        let want = if setting {
            Err(Refusal::BadSetting)
        } else if copy || anchor {
            Err(Refusal::BadString)
        } else if range {
            Err(Refusal::OutOfRange)
        } else {
            Ok(1)
        };
        assert_eq!(unpack(got), want, "case {case}");
    }
}

/// Fresh holder states: so many bytes, never more.
#[test]
fn fresh_holders() {
    let random = &mut Random::new(25);
    for length in 0..=2 * HOLDER_BYTES {
        let before = random.bytes(length);
        let (mut state, mut model) = (before.clone(), before.clone());
        let got = Library::holder_fresh(&mut state);
        assert_eq!(got, Model::holder_fresh(&mut model));
        assert_eq!(state, model);
        if length < HOLDER_BYTES {
            assert_eq!(unpack(got), Err(Refusal::BufferTooShort));
            assert_eq!(state, before);
        } else {
            assert_eq!(got, 0);
            assert_eq!(state[..HOLDER_BYTES], [0; HOLDER_BYTES]);
            assert_eq!(state[HOLDER_BYTES..], before[HOLDER_BYTES..]);
        }
    }
}
