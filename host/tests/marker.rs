//! Marker words: the library against brute force over messages and strings, and against the model;
//! damaged calls; the wrapper; the example program.

mod common;

use std::collections::{HashMap, HashSet};

use common::{packed, printed_by_example, random_bits, refused_by_example, Random};
use lunetteorris::model::Model;
use lunetteorris::{
    syndrome, unpack, BitString, Ends, Library, Marker, Refusal, SyndromeStrings, MAX_BITS,
    MAX_MARKER_BITS,
};

/// The least t with 2^t above n: ceil(log2(n + 1)).
fn digits(n: usize) -> usize {
    (0..).find(|&t| 1 << t > n).expect("n is short")
}

/// The strings of so many bits, as zeros and ones.
fn strings(bits: usize) -> Vec<String> {
    let mut all = vec![String::new()];
    for _ in 0..bits {
        all = all
            .iter()
            .flat_map(|front| [format!("{front}0"), format!("{front}1")])
            .collect();
    }
    all
}

fn string(text: &str) -> BitString {
    text.parse().expect("zeros and ones")
}

/// The sum of the places, from 1, of the ones, modulo the length plus 1.
fn syndrome_of(text: &str) -> usize {
    let ones = (1..).zip(text.chars()).filter(|&(_, bit)| bit == '1');
    ones.map(|(place, _)| place).sum::<usize>() % (text.len() + 1)
}

/// The word of a message, to 31 bits: of all numbers to n at places 1, 2, 4, .. the one that gives
/// the syndrome.
fn word_of(n: usize, a: usize, message: &str) -> String {
    let with = |number: usize| -> String {
        let mut rest = message.chars();
        let word = (1..=n)
            .map(|place| match place {
                // The digit of 2^j is at place 2^j.
                1 | 2 | 4 | 8 | 16 if number & place != 0 => '1',
                1 | 2 | 4 | 8 | 16 => '0',
                _ => rest.next().expect("the message has bits for all places"),
            })
            .collect();
        assert_eq!(rest.next(), None, "the message has no bits to spare");
        word
    };
    let mut words = (0..=n).map(with).filter(|word| syndrome_of(word) == a);
    let word = words.next().expect("one number gives the syndrome");
    assert_eq!(words.next(), None, "no other number gives it");
    word
}

fn losses(word: &str) -> Vec<String> {
    (0..word.len())
        .map(|place| format!("{}{}", &word[..place], &word[place + 1..]))
        .collect()
}

fn additions(word: &str) -> Vec<String> {
    (0..=word.len())
        .flat_map(|place| {
            ["0", "1"].map(|bit| format!("{}{bit}{}", &word[..place], &word[place..]))
        })
        .collect()
}

// Calls on both

#[derive(Clone, Copy, Debug, PartialEq, Eq, Hash)]
enum Call {
    Build,
    Read,
}

impl Call {
    fn made<E: Ends>(self, s: &[u8], bits: usize, n: usize, a: usize, out: &mut [u8]) -> u64 {
        match self {
            Call::Build => E::marker_build(s, bits, n, a, out),
            Call::Read => E::marker_read(s, bits, n, a, out),
        }
    }

    /// The bits of the answer.
    fn answer_bits(self, n: usize) -> usize {
        match self {
            Call::Build => n,
            Call::Read => n - digits(n),
        }
    }
}

/// The call on library and model in a buffer of so many random bytes: same result, same bytes. A
/// refusal and "none" write nothing, an answer nothing behind it. Gives the answer, if there is one.
fn called(
    random: &mut Random,
    call: Call,
    (s, bits): (&[u8], usize),
    (n, a): (usize, usize),
    out_bytes: usize,
) -> Result<Option<BitString>, Refusal> {
    let before = random.bytes(out_bytes);
    let (mut after, mut model) = (before.clone(), before.clone());
    let got = call.made::<Library>(s, bits, n, a, &mut after);
    let want = call.made::<Model>(s, bits, n, a, &mut model);
    let told = || format!("{call:?} of {bits} bits {s:02x?}, n {n}, a {a}, {out_bytes} bytes");
    assert_eq!(got, want, "{}", told());
    assert!(
        after == model,
        "library {after:02x?}, model {model:02x?}, {}",
        told()
    );
    match unpack(got) {
        Ok(1) => {
            let bits = call.answer_bits(n);
            let (answer, rest) = after.split_at(bits.div_ceil(8));
            assert_eq!(rest, &before[answer.len()..], "{}", told());
            // This tests the spare bits as well.
            let answer = BitString::from_bytes(answer.to_vec(), bits);
            Ok(Some(answer.unwrap_or_else(|_| panic!("{}", told()))))
        }
        Ok(0) if call == Call::Read => {
            assert!(after == before, "changed, {}", told());
            Ok(None)
        }
        Ok(value) => panic!("value {value}, {}", told()),
        Err(refusal) => {
            assert!(after == before, "changed, {}", told());
            Err(refusal)
        }
    }
}

/// The word of a message: from library and model in a buffer with some bytes to spare, and from the
/// wrapper.
fn built(random: &mut Random, n: usize, a: usize, message: &BitString) -> BitString {
    let lent = (message.as_bytes(), message.bits());
    let out_bytes = n.div_ceil(8) + random.below(3);
    let word = called(random, Call::Build, lent, (n, a), out_bytes)
        .expect("the call is legal")
        .expect("a word is built");
    let marker = Marker::new(n, a).expect("n and a are in range");
    assert_eq!(marker.build(message).as_ref(), Ok(&word), "n {n}, a {a}");
    word
}

/// The message of what was received, likewise.
fn read(random: &mut Random, n: usize, a: usize, received: &BitString) -> Option<BitString> {
    let lent = (received.as_bytes(), received.bits());
    let out_bytes = (n - digits(n)).div_ceil(8) + random.below(3);
    let message = called(random, Call::Read, lent, (n, a), out_bytes).expect("the call is legal");
    let marker = Marker::new(n, a).expect("n and a are in range");
    assert_eq!(
        marker.read(received).as_ref(),
        Ok(&message),
        "n {n}, a {a}, {received}"
    );
    message
}

// Short words, all of them

/// Every n to 12, every a and every message: the word, and its reading whole, with each bit lost and
/// with either bit added at each place.
#[test]
fn every_message() {
    let random = &mut Random::new(70);
    for n in 1..=12 {
        for a in 0..=n {
            for text in strings(n - digits(n)) {
                let message = string(&text);
                let word = built(random, n, a, &message);
                assert_eq!(
                    word.to_string(),
                    word_of(n, a, &text),
                    "n {n}, a {a}, {text}"
                );
                assert_eq!(syndrome(&word), Ok(a as u32), "n {n}, a {a}, {text}");
                let word = word.to_string();
                let mut all = vec![word.clone()];
                all.extend(losses(&word));
                all.extend(additions(&word));
                for received in all {
                    let got = read(random, n, a, &string(&received));
                    assert_eq!(got.as_ref(), Some(&message), "n {n}, a {a}, {received}");
                }
            }
        }
    }
}

/// Every n to 12, every a and every string of n - 1, n and n + 1 bits: the reader says "none" for
/// those that no word, worked out by brute force for all messages, comes to.
#[test]
fn every_received_string() {
    let random = &mut Random::new(71);
    for n in 1..=12 {
        for a in 0..=n {
            let mut messages: HashMap<String, String> = HashMap::new();
            for message in strings(n - digits(n)) {
                let word = word_of(n, a, &message);
                let near: HashSet<String> = [word.clone()]
                    .into_iter()
                    .chain(losses(&word))
                    .chain(additions(&word))
                    .collect();
                for received in near {
                    let other = messages.insert(received, message.clone());
                    assert_eq!(other, None, "n {n}, a {a}: two words come to the same");
                }
            }
            let (mut found, mut none) = (0, 0);
            for received in [n - 1, n, n + 1].into_iter().flat_map(strings) {
                let got = read(random, n, a, &string(&received)).map(|s| s.to_string());
                let want = messages.get(&received);
                assert_eq!(got.as_ref(), want, "n {n}, a {a}, {received}");
                found += want.is_some() as usize;
                none += want.is_none() as usize;
            }
            assert_eq!(found, messages.len());
            assert_eq!(found + none, 7 << (n - 1));
        }
    }
}

/// Words of 1, 2 and 3 bits, written out.
#[test]
fn shortest() {
    let random = &mut Random::new(72);
    let none = BitString::default();
    for (n, a, message, word) in [
        (1, 0, "", "0"),
        (1, 1, "", "1"),
        (2, 0, "", "00"),
        (2, 1, "", "10"),
        (2, 2, "", "01"),
        (3, 0, "0", "000"),
        (3, 0, "1", "101"),
        (3, 1, "0", "100"),
        (3, 1, "1", "011"),
        (3, 2, "0", "010"),
        (3, 2, "1", "111"),
        (3, 3, "0", "110"),
        (3, 3, "1", "001"),
    ] {
        let marker = Marker::new(n, a).expect("n and a are in range");
        assert_eq!(marker.message_bits(), message.len());
        assert_eq!(built(random, n, a, &string(message)), string(word));
        assert_eq!(read(random, n, a, &string(word)), Some(string(message)));
    }
    // Of one bit all is lost; of two added ones either may be the word's.
    assert_eq!(read(random, 1, 0, &none), Some(none.clone()));
    assert_eq!(read(random, 1, 1, &none), Some(none.clone()));
    assert_eq!(read(random, 1, 1, &string("11")), Some(none.clone()));
    assert_eq!(read(random, 1, 0, &string("11")), None);
    // 11 has syndrome 0, but 3 is not a number modulo 3. Its neighbours are none too, but for those
    // of 00.
    for received in ["11", "1", "011", "101", "110", "111"] {
        assert_eq!(read(random, 2, 0, &string(received)), None, "{received}");
    }
    for received in ["00", "0", "000", "001", "010", "100"] {
        let got = read(random, 2, 0, &string(received));
        assert_eq!(got.as_ref(), Some(&none), "{received}");
    }
}

/// The strings of a syndrome that are no words read as none. There are some unless n + 1 is a power
/// of two: then any number of t digits is one modulo n + 1.
#[test]
fn strings_never_built() -> Result<(), Refusal> {
    let random = &mut Random::new(73);
    for n in 1..=12 {
        let messages = strings(n - digits(n));
        let mut never = 0;
        for a in 0..=n {
            let words: HashSet<String> = messages
                .iter()
                .map(|message| word_of(n, a, message))
                .collect();
            let mut made = 0;
            for s in SyndromeStrings::new(n, a)? {
                let is_word = words.contains(&s.to_string());
                assert_eq!(read(random, n, a, &s).is_some(), is_word, "{s}, a {a}");
                made += is_word as usize;
                never += !is_word as usize;
            }
            assert_eq!(made, messages.len(), "n {n}, a {a}");
        }
        assert_eq!(never == 0, [1, 3, 7].contains(&n), "n {n}: {never}");
    }
    Ok(())
}

// Longer words

/// Whether a word is that of a message, by 02's text: the message in order at the places that are no
/// powers of two, at the others a number to n, and the syndrome.
fn check_word(n: usize, a: usize, message: &[bool], word: &[bool]) {
    let powers: Vec<usize> = (0..13).map(|j| 1 << j).collect();
    let bit = |place: usize| word[place - 1];
    let others: Vec<bool> = (1..=n)
        .filter(|place| !powers.contains(place))
        .map(bit)
        .collect();
    assert_eq!(others, message, "n {n}, a {a}");
    let number: usize = (1..=n)
        .filter(|&place| powers.contains(&place) && bit(place))
        .sum();
    assert!(number <= n, "n {n}, a {a}: {number}");
    let sum: usize = (1..=n).filter(|&place| bit(place)).sum();
    assert_eq!(sum % (n + 1), a, "n {n}");
}

/// A word with the number at places 1, 2, 4, .. raised by n + 1, if it has digits for this: a string
/// of the same syndrome that is not built.
fn raised(word: &[bool]) -> Option<Vec<bool>> {
    let n = word.len();
    let powers = || (0..digits(n)).map(|j| 1 << j);
    let number: usize = powers().filter(|&place: &usize| word[place - 1]).sum();
    let number = number + n + 1;
    if number >= 1 << digits(n) {
        return None;
    }
    let mut raised = word.to_vec();
    for place in powers() {
        raised[place - 1] = number & place != 0;
    }
    Some(raised)
}

/// A bit lost or added at random, or none.
fn damaged(random: &mut Random, word: &[bool]) -> Vec<bool> {
    let mut received = word.to_vec();
    match random.below(5) {
        0 => {}
        1 | 2 => _ = received.remove(random.below(word.len())),
        _ => received.insert(random.below(word.len() + 1), random.bit()),
    }
    received
}

fn messages(random: &mut Random, n: usize) -> [Vec<bool>; 4] {
    let bits = n - digits(n);
    let sparse = (0..bits).map(|_| random.below(50) == 0).collect();
    [
        random_bits(random, bits),
        sparse,
        vec![false; bits],
        vec![true; bits],
    ]
}

/// Lengths to 4,096, those around powers of two among them: built, damaged and read. A string of the
/// syndrome that is not built reads as none, as does what it comes to.
#[test]
fn all_lengths() {
    let random = &mut Random::new(74);
    let mut lengths: Vec<usize> = (13..=70).collect();
    for power in [128, 256, 512, 1_024, 2_048, 4_096] {
        lengths.extend([power - 2, power - 1, power, power + 1]);
    }
    lengths.retain(|&n| n <= MAX_MARKER_BITS);
    lengths.extend((0..60).map(|_| random.between(71, MAX_MARKER_BITS)));
    let mut not_built = 0;
    for n in lengths {
        for message in messages(random, n) {
            let any = random.between(0, n);
            for a in [0, 1, any, n] {
                let wanted = packed(&message);
                let word = built(random, n, a, &wanted);
                let word: Vec<bool> = word.iter().collect();
                check_word(n, a, &message, &word);
                for _ in 0..4 {
                    let received = packed(&damaged(random, &word));
                    let got = read(random, n, a, &received);
                    assert_eq!(got.as_ref(), Some(&wanted), "n {n}, a {a}, {received}");
                }
                if let Some(other) = raised(&word) {
                    assert_eq!(syndrome(&packed(&other)), Ok(a as u32));
                    assert_eq!(read(random, n, a, &packed(&other)), None);
                    let received = packed(&damaged(random, &other));
                    assert_eq!(read(random, n, a, &received), None, "n {n}, a {a}");
                    not_built += 1;
                }
            }
            // Whatever is received, the library says what the model says.
            let a = random.between(0, n);
            let bits = random.between(n - 1, n + 1);
            let received = packed(&random_bits(random, bits));
            if let Some(message) = read(random, n, a, &received) {
                let word = built(random, n, a, &message);
                assert!(word.bits() != received.bits() || word == received);
            }
        }
    }
    assert!(not_built > 500, "{not_built}");
}

/// The longest words: for one syndrome every bit lost and either bit added at every place, for the
/// others around powers of two and at random.
#[test]
fn longest() -> Result<(), Refusal> {
    let random = &mut Random::new(75);
    let n = MAX_MARKER_BITS;
    let any = random.between(2, n - 1);
    for a in [0, 1, any, n] {
        let marker = Marker::new(n, a)?;
        assert_eq!(marker.message_bits(), 4_083);
        let bits = random_bits(random, 4_083);
        let message = Some(packed(&bits));
        let word = built(random, n, a, &packed(&bits));
        assert_eq!(syndrome(&word)?, a as u32);
        assert_eq!(read(random, n, a, &word), message);
        let word: Vec<bool> = word.iter().collect();
        check_word(n, a, &bits, &word);
        let mut places: Vec<usize> = (0..=n).collect();
        if a != any {
            places = (1..=12)
                .flat_map(|j| [(1 << j) - 2, (1 << j) - 1, 1 << j])
                .collect();
            places.extend((0..100).map(|_| random.between(0, n)));
        }
        for place in places {
            if place < n {
                let mut received = word.clone();
                received.remove(place);
                let got = read(random, n, a, &packed(&received));
                assert_eq!(got, message, "a {a}, {place} lost");
            }
            for bit in [false, true] {
                let mut received = word.clone();
                received.insert(place, bit);
                let got = read(random, n, a, &packed(&received));
                assert_eq!(got, message, "a {a}, {bit} added at {place}");
            }
        }
    }
    Ok(())
}

// Refusals

/// What turns a call down, in order: the string, n, a and for reading the length; for building the
/// message's length; the buffer.
fn refusal(
    call: Call,
    (s, bits): (&[u8], usize),
    (n, a): (usize, usize),
    out_bytes: usize,
) -> Option<Refusal> {
    if BitString::from_bytes(s.to_vec(), bits).is_err() {
        return Some(Refusal::BadString);
    }
    if n == 0 || n > 4_096 || a > n {
        return Some(Refusal::OutOfRange);
    }
    if call == Call::Read && ![n - 1, n, n + 1].contains(&bits) {
        return Some(Refusal::OutOfRange);
    }
    if call == Call::Build && bits != n - digits(n) {
        return Some(Refusal::MessageLength);
    }
    let short = 8 * out_bytes < call.answer_bits(n);
    short.then_some(Refusal::BufferTooShort)
}

/// Lengths at which something changes, and any.
fn any_n(random: &mut Random) -> usize {
    let short = random.between(1, 40);
    let long = random.between(41, MAX_MARKER_BITS);
    random.pick(&[
        1, 2, 3, 4, 7, 8, 9, 12, 15, 16, 17, 20, 21, 255, 256, 4_095, 4_096, short, short, short,
        short, long, long,
    ])
}

/// Calls with nothing to several things wrong: the refusal is the first in order, and that of the
/// model; no byte is written where none is due.
#[test]
fn damaged_calls() {
    let random = &mut Random::new(76);
    let mut seen: HashMap<(Call, Option<Refusal>), usize> = HashMap::new();
    let mut messages = 0;
    for _ in 0..60_000 {
        let call = random.pick(&[Call::Build, Call::Read]);
        let legal_n = any_n(random);
        let legal_a = random.between(0, legal_n);
        let needed = call.answer_bits(legal_n).div_ceil(8);
        // What is received is a word, or near one, in one half of the calls.
        let message = random_bits(random, legal_n - digits(legal_n));
        let mut legal = message.clone();
        if call == Call::Read {
            let word = built(random, legal_n, legal_a, &packed(&message));
            legal = damaged(random, &word.iter().collect::<Vec<bool>>());
            if random.bit() {
                legal = random_bits(random, legal.len());
            }
        }

        let mut wrong = || random.below(5) == 0;
        let [wrong_n, wrong_a, wrong_bits, wrong_bytes, wrong_out] =
            [wrong(), wrong(), wrong(), wrong(), wrong()];
        let (mut n, mut a) = (legal_n, legal_a);
        if wrong_n {
            let other = any_n(random);
            n = random.pick(&[
                0,
                0,
                n - 1,
                n + 1,
                other,
                other,
                4_097,
                4_098,
                8_192,
                65_536,
                (1 << 32) + n,
                usize::MAX,
            ]);
        }
        if wrong_a {
            let more = n.saturating_add(1);
            let any = random.number() as usize;
            a = random.pick(&[0, n, more, more, more, any, (1 << 32) + a, usize::MAX]);
        }
        if wrong_bits {
            let bits = legal.len();
            let (fewer, more) = (bits.saturating_sub(1), bits + 1);
            let (short, any) = (random.below(60), random.below(MAX_BITS + 1));
            let length = random.pick(&[
                0,
                fewer,
                fewer,
                more,
                more,
                bits + 2,
                bits + 8,
                short,
                any,
                MAX_BITS,
            ]);
            legal = random_bits(random, length);
        }
        let mut bits = legal.len();
        let mut s = packed(&legal).into_bytes();
        if wrong_bytes {
            match random.below(4) {
                0 => s.push(random.byte()),
                1 if bits > 0 => _ = s.pop(),
                2 if bits % 8 != 0 => {
                    *s.last_mut().expect("a byte") |= 1 << random.below(8 - bits % 8)
                }
                _ => bits = random.pick(&[bits + 8, MAX_BITS + 1, MAX_BITS + 8, usize::MAX]),
            }
        }
        let mut out_bytes = needed + random.below(4);
        if wrong_out {
            let short = needed.saturating_sub(1);
            let any = random.below(needed + 1);
            out_bytes = random.pick(&[0, short, short, any]);
        }

        let lent = (&s[..], bits);
        let want = refusal(call, lent, (n, a), out_bytes);
        let got = called(random, call, lent, (n, a), out_bytes);
        assert_eq!(
            got.as_ref().err().copied(),
            want,
            "{call:?} of {bits} bits in {} bytes, n {n}, a {a}, {out_bytes} bytes",
            s.len()
        );
        *seen.entry((call, want)).or_default() += 1;
        messages += (call == Call::Read && matches!(got, Ok(Some(_)))) as usize;
    }
    for call in [Call::Build, Call::Read] {
        let mut refusals = vec![
            Some(Refusal::BadString),
            Some(Refusal::OutOfRange),
            Some(Refusal::BufferTooShort),
            None,
        ];
        if call == Call::Build {
            refusals.push(Some(Refusal::MessageLength));
        }
        for refusal in refusals {
            let count = seen.remove(&(call, refusal)).unwrap_or(0);
            assert!(count > 1_000, "{call:?}, {refusal:?}: {count}");
        }
    }
    assert!(seen.is_empty(), "{seen:?}");
    assert!(messages > 1_000, "{messages}");
}

/// Each refusal with all later ones in the same call, and each spare bit set.
#[test]
fn order() {
    let random = &mut Random::new(77);
    let mut check =
        |call: Call, lent: (&[u8], usize), of: (usize, usize), out_bytes: usize, want| {
            assert_eq!(refusal(call, lent, of, out_bytes), Some(want));
            let got = called(random, call, lent, of, out_bytes);
            assert_eq!(got, Err(want), "{call:?} {lent:?} {of:?} {out_bytes}");
        };
    for (n, a) in [
        (0, 0),
        (0, 1),
        (4_097, 0),
        (usize::MAX, usize::MAX),
        (12, 13),
        (12, usize::MAX),
    ] {
        for call in [Call::Build, Call::Read] {
            // Another length than n takes, and no buffer.
            check(call, (&[0x81], 7), (n, a), 0, Refusal::BadString);
            check(call, (&[0x80], 7), (n, a), 0, Refusal::OutOfRange);
            check(call, (&[], 0), (n, a), 0, Refusal::OutOfRange);
        }
    }
    check(
        Call::Build,
        (&[0x80], 7),
        (12, 12),
        0,
        Refusal::MessageLength,
    );
    check(
        Call::Build,
        (&[0x80, 0], 9),
        (12, 12),
        0,
        Refusal::MessageLength,
    );
    check(Call::Build, (&[], 0), (3, 0), 0, Refusal::MessageLength);
    check(
        Call::Build,
        (&[0x80], 8),
        (12, 12),
        0,
        Refusal::BufferTooShort,
    );
    check(
        Call::Build,
        (&[0x80], 8),
        (12, 12),
        1,
        Refusal::BufferTooShort,
    );
    check(Call::Build, (&[], 0), (1, 1), 0, Refusal::BufferTooShort);
    for bits in [0, 7, 10, 14, 16] {
        let received = vec![0; usize::div_ceil(bits, 8)];
        check(
            Call::Read,
            (&received, bits),
            (12, 12),
            0,
            Refusal::OutOfRange,
        );
    }
    // 9 comes before the reader looks: of zeros, all of syndrome 0, 12 bits of syndrome 1 have none.
    for a in [0, 1] {
        check(
            Call::Read,
            (&[0, 0], 12),
            (12, a),
            0,
            Refusal::BufferTooShort,
        );
        check(
            Call::Read,
            (&[0, 0], 13),
            (13, a),
            1,
            Refusal::BufferTooShort,
        );
    }
    for bits in [1, 2, 3, 4, 5, 6, 7, 11, 12, 13] {
        for spare in 0..(8 - bits % 8) {
            let mut s = vec![0; usize::div_ceil(bits, 8)];
            *s.last_mut().expect("a byte") |= 1 << spare;
            for call in [Call::Build, Call::Read] {
                check(call, (&s, bits), (12, 0), 9, Refusal::BadString);
            }
        }
    }
    // The longest string, and zeros that are longer.
    let zeros = vec![0; MAX_BITS / 8 + 1];
    for (bits, build, read) in [
        (MAX_BITS, Refusal::MessageLength, Refusal::OutOfRange),
        (MAX_BITS + 1, Refusal::BadString, Refusal::BadString),
        (MAX_BITS + 8, Refusal::BadString, Refusal::BadString),
    ] {
        let zeros = &zeros[..bits.div_ceil(8)];
        check(Call::Build, (zeros, bits), (12, 0), 0, build);
        check(Call::Read, (zeros, bits), (12, 0), 0, read);
    }
    // None on a buffer that is just long enough, and on no buffer where no byte is needed.
    let none = called(random, Call::Read, (&[0, 0], 12), (12, 1), 1);
    assert_eq!(none, Ok(None));
    let none = called(random, Call::Read, (&[0xc0], 2), (2, 0), 0);
    assert_eq!(none, Ok(None));
}

/// The wrapper's limits are the library's.
#[test]
fn limits() {
    let random = &mut Random::new(78);
    for n in [0, 1, 2, 3, 12, 4_095, 4_096, 4_097, 65_536, usize::MAX] {
        for a in [0, 1, 2, 11, 12, 13, 4_095, 4_096, 4_097, usize::MAX] {
            let marker = Marker::new(n, a);
            let build = called(random, Call::Build, (&[], 0), (n, a), 0);
            let refused = build == Err(Refusal::OutOfRange);
            assert_eq!(marker.is_err(), refused, "n {n}, a {a}");
            match marker {
                Err(refusal) => assert_eq!(refusal, Refusal::OutOfRange),
                Ok(marker) => {
                    assert_eq!((marker.bits(), marker.syndrome()), (n, a));
                    assert_eq!(marker.message_bits(), n - digits(n));
                }
            }
        }
    }
    for n in 1..=MAX_MARKER_BITS {
        let marker = Marker::new(n, n).expect("n and a are in range");
        assert_eq!(marker.message_bits(), n - digits(n), "n {n}");
        // The library takes this length and no other.
        let bits = marker.message_bits();
        for (bits, want) in [
            (bits, Refusal::BufferTooShort),
            (bits + 1, Refusal::MessageLength),
            (bits.wrapping_sub(1), Refusal::MessageLength),
        ] {
            if bits <= MAX_BITS {
                let message = vec![0; bits.div_ceil(8)];
                let got = called(random, Call::Build, (&message, bits), (n, n), 0);
                assert_eq!(got, Err(want), "n {n}, {bits} bits");
            }
        }
    }
}

#[test]
fn wrapper() -> Result<(), Refusal> {
    let marker = Marker::new(12, 5)?;
    let message = string("10110010");
    let word = marker.build(&message)?;
    assert_eq!(word, string("001101100010"));
    assert_eq!(marker.read(&word)?, Some(message.clone()));
    for bits in [0, 7, 9, 12] {
        let other = packed(&vec![true; bits]);
        assert_eq!(marker.build(&other), Err(Refusal::MessageLength));
    }
    for bits in [0, 10, 14, MAX_BITS] {
        let other = packed(&vec![true; bits]);
        assert_eq!(marker.read(&other), Err(Refusal::OutOfRange));
    }
    // The same word is one of one syndrome only.
    for a in (0..=12).filter(|&a| a != 5) {
        let other = Marker::new(12, a)?;
        assert_ne!(other, marker);
        assert_eq!(other.read(&word)?, None, "a {a}");
        assert_ne!(other.build(&message)?, word, "a {a}");
    }
    Ok(())
}

#[test]
fn example_program() {
    let printed = |arguments: &[&str]| printed_by_example("marker", arguments);
    assert_eq!(
        printed(&["12", "5", "10110010"]),
        "message 10110010\nword 001101100010\nwhole: 1 of 1 read back\n\
         one bit lost: 12 of 12 read back\none bit added: 26 of 26 read back\n"
    );
    assert_eq!(
        printed(&["1", "1"]),
        "message \nword 1\nwhole: 1 of 1 read back\n\
         one bit lost: 1 of 1 read back\none bit added: 4 of 4 read back\n"
    );
    assert_eq!(printed(&[]), printed(&["12", "0", "10101010"]));
    assert_eq!(printed(&["12"]), printed(&[]));
    let longest = printed(&["4096", "4096"]);
    assert!(longest.ends_with(
        "whole: 1 of 1 read back\none bit lost: 4096 of 4096 read back\n\
         one bit added: 8194 of 8194 read back\n"
    ));

    let refused = |arguments: &[&str], status: i32, reason: &str| {
        refused_by_example("marker", arguments, status, reason)
    };
    for arguments in [["0", "0"], ["4097", "0"], ["12", "13"]] {
        refused(&arguments, 1, "error: refusal 8: ");
    }
    refused(&["12", "5", "1011001"], 1, "error: refusal 15: ");
    refused(&["twelve"], 2, "error: N is `twelve`, which is no number");
    refused(&["12", "-5"], 2, "error: A is `-5`, which is no number");
    refused(&["12", "5", "1012"], 2, "error: MESSAGE is no string of");
    refused(
        &["12", "5", "10110010", "0"],
        2,
        "error: three arguments at most are wanted, not 4",
    );
}
