//! All strings of one syndrome: the library against brute force over strings, and against the
//! model; the wrapper; the example program.

mod common;

use common::{printed_by_example, refused_by_example, Random};
use lunetteorris::model::Model;
use lunetteorris::{
    pack, strings_of_syndrome, syndrome, unpack, BitString, Ends, Library, Refusal,
    SyndromeStrings, MAX_LIST_BITS,
};

/// The n-bit strings, as zeros and ones, in the order of their numbers.
fn strings(n: usize) -> Vec<String> {
    let mut all = vec![String::new()];
    for _ in 0..n {
        all = all
            .iter()
            .flat_map(|front| [format!("{front}0"), format!("{front}1")])
            .collect();
    }
    all
}

/// The sum of the places, from 1, of the ones, modulo the length plus 1.
fn syndrome_of(text: &str) -> usize {
    let ones = (1..).zip(text.chars()).filter(|&(_, bit)| bit == '1');
    ones.map(|(place, _)| place).sum::<usize>() % (text.len() + 1)
}

/// The number of zeros and ones, the first bit highest.
fn number_of(text: &str) -> u32 {
    text.chars()
        .fold(0, |number, bit| 2 * number + (bit == '1') as u32)
}

/// The n-bit strings of each syndrome, in order.
fn by_syndrome(n: usize) -> Vec<Vec<String>> {
    let mut lists = vec![Vec::new(); n + 1];
    for text in strings(n) {
        lists[syndrome_of(&text)].push(text);
    }
    lists
}

/// A buffer of so many entries, each above every number of 20 bits.
fn buffer(random: &mut Random, entries: usize) -> Vec<u32> {
    (0..entries).map(|_| random.number() | 1 << 31).collect()
}

/// The library's call in a buffer of so many entries, the model's beside it: the result and the
/// buffer before and after. A refusal writes nothing.
fn listed(random: &mut Random, n: usize, a: usize, entries: usize) -> (u64, Vec<u32>, Vec<u32>) {
    let before = buffer(random, entries);
    let (mut after, mut model) = (before.clone(), before.clone());
    let got = Library::list(n, a, &mut after);
    let want = Model::list(n, a, &mut model);
    assert_eq!(got, want, "n {n}, a {a}, {entries} entries");
    assert!(after == model, "n {n}, a {a}, {entries} entries");
    if unpack(got).is_err() {
        assert!(after == before, "n {n}, a {a}, {entries} entries");
    }
    (got, before, after)
}

/// Every n to 12 and every a against brute force: buffers that are too short, just long enough and
/// longer.
#[test]
fn brute_force() {
    let random = &mut Random::new(60);
    for n in 0..=12 {
        let mut sum = 0;
        for (a, texts) in by_syndrome(n).into_iter().enumerate() {
            let want: Vec<u32> = texts.iter().map(|text| number_of(text)).collect();
            let count = want.len();
            for entries in [count, count + 1, count + 9, 1 << n, (1 << n) + 1] {
                let (got, before, after) = listed(random, n, a, entries);
                assert_eq!(got, pack(Ok(count as u64)), "n {n}, a {a}");
                assert_eq!(after[..count], want, "n {n}, a {a}");
                assert_eq!(after[count..], before[count..], "n {n}, a {a}");
            }
            for entries in [0, count / 2, count - 1] {
                let (got, _, _) = listed(random, n, a, entries);
                assert_eq!(got, pack(Err(Refusal::ListTooShort)), "n {n}, a {a}");
            }
            assert_eq!(strings_of_syndrome(n, a).as_ref(), Ok(&want));
            let made = SyndromeStrings::new(n, a).expect("n and a are in range");
            assert_eq!(made.len(), count);
            assert!(made.map(|s| s.to_string()).eq(texts), "n {n}, a {a}");
            sum += count;
        }
        assert_eq!(sum, 1 << n);
    }
}

/// The lengths above 12, some syndromes of each, against the model.
#[test]
fn longer_strings() {
    let random = &mut Random::new(61);
    for n in 13..MAX_LIST_BITS {
        for a in [0, random.between(1, n - 1), n] {
            let (got, before, after) = listed(random, n, a, 1 << n);
            let count = unpack(got).expect("2^n entries are enough") as usize;
            assert!(after[..count].is_sorted_by(|x, y| x < y), "n {n}, a {a}");
            assert!(after[count..] == before[count..], "n {n}, a {a}");
            let (got, _, _) = listed(random, n, a, count - 1);
            assert_eq!(unpack(got), Err(Refusal::ListTooShort), "n {n}, a {a}");
        }
    }
}

/// The longest strings: each member has the syndrome by the library's own function.
#[test]
fn longest_strings() -> Result<(), Refusal> {
    let n = MAX_LIST_BITS;
    for a in [0, 1, 7, 10, 19, 20] {
        let list = strings_of_syndrome(n, a)?;
        assert!(list.is_sorted_by(|x, y| x < y), "a {a}");
        assert!(list.iter().all(|&number| number < 1 << n), "a {a}");
        let strings = SyndromeStrings::new(n, a)?;
        assert_eq!(strings.numbers(), list, "a {a}");
        for (number, s) in list.into_iter().zip(strings) {
            assert_eq!(s.to_string(), format!("{number:020b}"));
            assert_eq!(syndrome(&s)?, a as u32, "{s}");
        }
    }
    Ok(())
}

/// The counts of the longest strings add up to all of them; a buffer that is one entry short.
#[test]
fn longest_counts() {
    let n = MAX_LIST_BITS;
    let mut out = vec![0; 1 << n];
    let counts: Vec<u64> = (0..=n)
        .map(|a| unpack(Library::list(n, a, &mut out)).expect("2^n entries are enough"))
        .collect();
    assert_eq!(counts.iter().sum::<u64>(), 1 << n);
    // (2^21 + 2·2^7 + 6·2^3 + 12·2) / 42
    assert_eq!(counts[0], 49_940);

    let random = &mut Random::new(62);
    let count = counts[10] as usize;
    let (got, before, after) = listed(random, n, 10, count + 5);
    assert_eq!(unpack(got), Ok(counts[10]));
    assert_eq!(after[count..], before[count..]);
    let (got, _, _) = listed(random, n, 10, count - 1);
    assert_eq!(unpack(got), Err(Refusal::ListTooShort));
}

/// 8 for another n or a, whatever the buffer is.
#[test]
fn out_of_range() {
    let random = &mut Random::new(63);
    let mut pairs = vec![
        (0, 1),
        (1, 2),
        (12, 13),
        (20, 21),
        (20, usize::MAX),
        (20, (1 << 32) + 3),
        (0, usize::MAX),
    ];
    for n in [21, 22, 31, 32, 33, 63, 64, 65, (1 << 32) + 4, usize::MAX] {
        for a in [0, 1, 20, n, n.saturating_add(1)] {
            pairs.push((n, a));
        }
    }
    for (n, a) in pairs {
        for entries in [0, 1, 100] {
            let (got, _, _) = listed(random, n, a, entries);
            assert_eq!(unpack(got), Err(Refusal::OutOfRange), "n {n}, a {a}");
        }
        assert_eq!(strings_of_syndrome(n, a), Err(Refusal::OutOfRange));
        let refused = SyndromeStrings::new(n, a).err();
        assert_eq!(refused, Some(Refusal::OutOfRange));
    }
}

/// The string of no bits is number 0, and its syndrome is 0.
#[test]
fn no_bits() -> Result<(), Refusal> {
    let mut out = [7, 8];
    assert_eq!(unpack(Library::list(0, 0, &mut out)), Ok(1));
    assert_eq!(out, [0, 8]);
    let short = unpack(Library::list(0, 0, &mut []));
    assert_eq!(short, Err(Refusal::ListTooShort));
    assert_eq!(strings_of_syndrome(0, 0)?, [0]);
    let strings: Vec<BitString> = SyndromeStrings::new(0, 0)?.collect();
    assert_eq!(strings, [BitString::default()]);
    Ok(())
}

#[test]
fn iterator() -> Result<(), Refusal> {
    let mut strings = SyndromeStrings::new(4, 0)?;
    let text = |s: Option<BitString>| s.map(|s| s.to_string());
    assert_eq!((strings.len(), strings.size_hint()), (4, (4, Some(4))));
    assert_eq!(text(strings.next()).as_deref(), Some("0000"));
    assert_eq!(text(strings.next_back()).as_deref(), Some("1111"));
    assert_eq!((strings.len(), strings.numbers()), (2, &[6, 9][..]));
    let last: Vec<BitString> = strings.clone().rev().collect();
    assert_eq!(last, ["1001".parse()?, "0110".parse()?]);
    assert_eq!(text(strings.next()).as_deref(), Some("0110"));
    assert_eq!(text(strings.next()).as_deref(), Some("1001"));
    assert_eq!((strings.next(), strings.next_back()), (None, None));
    assert_eq!((strings.len(), strings.numbers()), (0, &[][..]));
    Ok(())
}

#[test]
fn example_program() {
    let printed = |arguments: &[&str]| printed_by_example("list", arguments);
    assert_eq!(printed(&["4", "3"]), "2 0010\n11 1011\n12 1100\ncount 3\n");
    assert_eq!(printed(&["0", "0"]), "0 \ncount 1\n");
    assert_eq!(printed(&["20", "0"]).lines().count(), 49_941);

    let refused = |arguments: &[&str], status: i32, reason: &str| {
        refused_by_example("list", arguments, status, reason)
    };
    for arguments in [["21", "0"], ["20", "21"], ["0", "1"]] {
        refused(&arguments, 1, "error: refusal 8: ");
    }
    refused(&[], 2, "error: two arguments are wanted, not 0");
    refused(
        &["4", "3", "2"],
        2,
        "error: two arguments are wanted, not 3",
    );
    refused(&["four", "3"], 2, "error: N is `four`, which is no number");
    refused(&["4", "-3"], 2, "error: A is `-3`, which is no number");
}
