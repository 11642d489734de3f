//! 01's samples, and samples of 02's CR 1, on the library and on the model.

mod common;

use std::fs;
use std::path::Path;

use common::*;
use lunetteorris::model::Model;
use lunetteorris::{
    sheet_rows, unpack, BitString, Ends, Library, Refusal, HOLDER_BYTES, MAX_BITS, QUESTION_BYTES,
    REBUILDER_BYTES, REPLY_BYTES, ROW_BYTES,
};

fn string(text: &str) -> BitString {
    text.parse().unwrap()
}

fn repaired<E: Ends>(text: &str, n: usize, a: usize) -> Option<String> {
    let s = string(text);
    let mut out = vec![0; n.div_ceil(8)];
    match unpack(E::repair(s.as_bytes(), s.bits(), n, a, &mut out)).unwrap() {
        0 => None,
        _ => Some(BitString::from_bytes(out, n).unwrap().to_string()),
    }
}

fn hash<E: Ends>(text: &str, h: u32, key: u32) -> u64 {
    let s = string(text);
    unpack(E::hash(s.as_bytes(), s.bits(), h, key)).unwrap()
}

/// M1 to M9: repairs.
fn repairs<E: Ends>() {
    for (a, want) in ["1001", "0101", "1101", "1011", "1010"]
        .into_iter()
        .enumerate()
    {
        assert_eq!(
            repaired::<E>("101", 4, a).as_deref(),
            Some(want),
            "M{}",
            a + 1
        );
    }
    assert_eq!(repaired::<E>("", 1, 1).as_deref(), Some("1"), "M6");
    assert_eq!(repaired::<E>("1", 0, 0).as_deref(), Some(""), "M7");
    assert_eq!(repaired::<E>("1011", 3, 0).as_deref(), Some("101"), "M8");
    assert_eq!(repaired::<E>("1011", 3, 3), None, "M9");
}

/// M10, published outputs of the generator, a collision.
fn hashes<E: Ends>() {
    for (text, row) in [("1", 0x21), ("01", 0x01), ("001", 0xc5), ("0001", 0x4f)] {
        assert_eq!(hash::<E>(text, 8, 1), row, "M10");
    }
    assert_eq!(hash::<E>("1011", 8, 1), 0xab, "M10");
    assert_eq!(hash::<E>("", 8, 1), 0);
    // Marsaglia's generator with its usual seed; key 1.
    for (text, row) in [
        ("1", 723_471_715),
        ("01", 2_497_366_906),
        ("001", 2_064_144_800),
    ] {
        assert_eq!(hash::<E>(text, 32, 2_463_534_242), row);
    }
    for (text, row) in [("1", 270_369), ("01", 67_634_689), ("001", 2_647_435_461)] {
        assert_eq!(hash::<E>(text, 32, 1), row);
    }
    let zero = (1..512)
        .filter(|v| hash::<E>(&format!("{v:09b}"), 8, 1) == 0)
        .count();
    assert!(zero > 0, "some nonzero nine-bit string hashes to 0");
}

/// M11 and M12: numbers, seen through a rebuilder that takes an opening's answer.
fn numbers<E: Ends>() {
    let open = |message: &[u8]| {
        let mut state = [0; REBUILDER_BYTES];
        let mut question = [0; QUESTION_BYTES];
        unpack(E::rebuilder_start(
            8,
            8,
            1,
            1,
            100,
            &[],
            0,
            &mut state,
            &mut question,
        ))
        .unwrap();
        let mut string = [0xff; MAX_BITS / 8];
        let mut sheet = [0; ROW_BYTES * sheet_rows(MAX_BITS, 8)];
        let result = E::rebuilder_call(
            &mut state,
            &[],
            0,
            &mut string,
            &mut sheet,
            message,
            &mut question,
        );
        unpack(result).map(|_| field(&state, N))
    };
    assert_eq!(open(&[0x00, 0x7f]), Ok(127), "M11");
    assert_eq!(open(&[0x00, 0x80, 0x01]), Ok(128), "M11");
    assert_eq!(open(&[0x00, 0x80, 0x00]), Err(Refusal::BadNumber), "M12");
    assert_eq!(open(&[0x00, 0x80]), Err(Refusal::Truncated), "M12");
    assert_eq!(open(&[0x80, 0x00]), Err(Refusal::BadNumber), "M12");
    assert_eq!(open(&[0x80]), Err(Refusal::Truncated), "M12");
    assert_eq!(open(&[0x00, 0x80, 0x80, 0x04]), Ok(65_536));
    assert_eq!(open(&[0x00, 0x81, 0x80, 0x04]), Err(Refusal::OutOfRange));
    assert_eq!(
        open(&[0x00, 0xff, 0xff, 0xff, 0xff, 0x0f]),
        Err(Refusal::OutOfRange)
    );
    assert_eq!(
        open(&[0x00, 0xff, 0xff, 0xff, 0xff, 0x10]),
        Err(Refusal::BadNumber)
    );
    assert_eq!(
        open(&[0x00, 0x80, 0x80, 0x80, 0x80, 0x00]),
        Err(Refusal::BadNumber)
    );
    assert_eq!(open(&[]), Err(Refusal::Truncated));
}

/// m = h = 8: p 63 goes as bits, p 64 gets anchors at 28, 36, 20 and then goes as bits. A copy that
/// is 2 to 32 bits longer is asked by its columns before that.
fn questions<E: Ends>() {
    let ask = |y_bits: usize, n: usize, answers: &[&[u8]]| -> Vec<Vec<u8>> {
        let y = packed(&vec![true; y_bits]);
        let y = y.as_bytes();
        let mut state = [0; REBUILDER_BYTES];
        let mut question = [0; QUESTION_BYTES];
        unpack(E::rebuilder_start(
            8,
            8,
            1,
            1,
            100,
            y,
            y_bits,
            &mut state,
            &mut question,
        ))
        .unwrap();
        let (mut string, mut sheet) = ([0; 8], [0; ROW_BYTES * sheet_rows(64, 8)]);
        let opening = [0, n as u8];
        let mut asked = Vec::new();
        for message in std::iter::once(&opening[..]).chain(answers.iter().copied()) {
            let result = E::rebuilder_call(
                &mut state,
                y,
                y_bits,
                &mut string,
                &mut sheet,
                message,
                &mut question,
            );
            let length = unpack(result).unwrap() as usize;
            asked.push(question[..length].to_vec());
        }
        asked
    };
    assert_eq!(ask(104, 63, &[]), [[3, 0, 63]]);
    let unplaced: &[u8] = &[3, 0];
    assert_eq!(
        ask(104, 64, &[unplaced, unplaced, unplaced]),
        [[3, 28, 8], [3, 36, 8], [3, 20, 8], [3, 0, 64]]
    );
    // 62 and 66 bits are two apart from 64, 32 and 96 are 32 apart, 31 and 97 are 33 apart.
    for (y_bits, b) in [(62, 2), (66, 2), (32, 32), (96, 32)] {
        assert_eq!(ask(y_bits, 64, &[]), [[4, 0, 64, b]]);
    }
    for y_bits in [31, 97] {
        assert_eq!(ask(y_bits, 64, &[]), [[3, 28, 8]]);
    }
    // Columns of nine ones: eight ones have syndrome 0, and no take-out has another.
    let none: &[u8] = &[4, 0, 0, 1, 0, 0, 0, 0, 0, 0];
    assert_eq!(
        ask(72, 64, &[none, unplaced, unplaced, unplaced]),
        [
            vec![4, 0, 64, 8],
            vec![3, 28, 8],
            vec![3, 36, 8],
            vec![3, 20, 8],
            vec![3, 0, 64]
        ]
    );
    let none: &[u8] = &[4, 0, 0, 0, 0, 0, 0, 0, 0, 1, 0];
    assert_eq!(ask(72, 63, &[none]), [vec![4, 0, 63, 9], vec![3, 0, 63]]);
}

/// p 64, q 66, s 28, k 1: r 21 to 37; of 28 and 30 the smaller, as near as the other.
fn places<E: Ends>() {
    let place = |places: &[usize]| {
        let mut y = vec![false; 66];
        for &r in places {
            y[r] = true;
        }
        let (y, anchor) = (packed(&y), string("10000000"));
        let found = E::anchor(y.as_bytes(), 66, 0, 66, 64, 28, 8, 1, anchor.as_bytes());
        unpack(found).unwrap().checked_sub(1)
    };
    for r in 0..=58 {
        let want = (21..=37).contains(&r).then_some(r as u64);
        assert_eq!(place(&[r]), want, "r {r}");
    }
    // The anchor has one set bit: two places need eight bits between them.
    assert_eq!(place(&[25, 33]), Some(25));
    assert_eq!(place(&[24, 33]), Some(33));
    let y = "1".repeat(66);
    let all = E::anchor(string(&y).as_bytes(), 66, 0, 66, 64, 28, 8, 1, &[0xff]);
    assert_eq!(unpack(all), Ok(29 + 1), "the middle itself");
    // 01's own case: matches at 28 and 30 only.
    let mut y = vec![false; 66];
    for i in (28..38).step_by(2) {
        y[i] = true;
    }
    let y = packed(&y);
    let found = E::anchor(y.as_bytes(), 66, 0, 66, 64, 28, 8, 1, &[0b1010_1010]);
    assert_eq!(unpack(found), Ok(28 + 1));
    // An odd q - p is not halved: the middle of 2r is 57, so 28 and 29 are equally near.
    let y = "1".repeat(65);
    let odd = E::anchor(string(&y).as_bytes(), 65, 0, 65, 64, 28, 8, 1, &[0xff]);
    assert_eq!(unpack(odd), Ok(28 + 1));
}

/// The lines that the demonstration program prints.
fn demonstration<E: Ends>(settings: Numbers, x: &str, y: &str) -> Vec<String> {
    let hex = |bytes: &[u8]| bytes.iter().map(|b| format!("{b:02x}")).collect::<String>();
    let (x, y) = (string(x), string(y));
    let Numbers {
        m,
        h,
        k,
        key,
        ceiling,
    } = settings;
    let mut lines = Vec::new();
    let mut holder = [0; HOLDER_BYTES];
    let mut rebuilder = [0; REBUILDER_BYTES];
    let (mut question, mut reply) = ([0; QUESTION_BYTES], [0; REPLY_BYTES]);
    let mut bits = [0xee; MAX_BITS / 8];
    let mut sheet = [0xee; ROW_BYTES * sheet_rows(MAX_BITS, 8)];
    unpack(E::holder_fresh(&mut holder)).unwrap();
    let mut length = unpack(E::rebuilder_start(
        m,
        h,
        k,
        key,
        ceiling,
        y.as_bytes(),
        y.bits(),
        &mut rebuilder,
        &mut question,
    ))
    .unwrap() as usize;
    while length > 0 {
        lines.push(format!("Q {}", hex(&question[..length])));
        let asked = question;
        let replied = unpack(E::holder_answer(
            &mut holder,
            x.as_bytes(),
            x.bits(),
            &asked[..length],
            &mut reply,
        ))
        .unwrap() as usize;
        lines.push(format!("A {}", hex(&reply[..replied])));
        length = unpack(E::rebuilder_call(
            &mut rebuilder,
            y.as_bytes(),
            y.bits(),
            &mut bits,
            &mut sheet,
            &reply[..replied],
            &mut question,
        ))
        .unwrap() as usize;
    }
    for [start, length, how] in rows(&rebuilder, &sheet) {
        lines.push(format!("P {start} {length} {how}"));
    }
    let n = field(&rebuilder, N);
    let text = BitString::from_bytes(bits[..n.div_ceil(8)].to_vec(), n).unwrap();
    let (answered, counted) = (field(&rebuilder, ANSWERED), field(&rebuilder, COUNTED));
    lines.push(format!("X {text} {} {counted}", answered - 1));
    lines
}

fn runs<E: Ends>() {
    let settings = Numbers {
        m: 8,
        h: 8,
        k: 1,
        key: 1,
        ceiling: 100,
    };
    assert_eq!(
        demonstration::<E>(settings, "1011", "101"),
        [
            "Q 00010801",
            "A 0004",
            "Q 020004",
            "A 0203ab01",
            "P 0 4 2",
            "X 1011 1 4"
        ]
    );
    // X 100, Y 0000: none, then the bits.
    let lines = demonstration::<E>(settings, "100", "0000");
    assert_eq!(lines[2], "Q 020003");
    assert_eq!(lines[4..6], ["Q 030003", "A 0380"]);
    assert_eq!(lines[6], "P 0 3 5");
    // Both empty; X empty; Y empty.
    assert_eq!(
        demonstration::<E>(settings, "", ""),
        ["Q 00010801", "A 0000", "X  0 0"]
    );
    assert_eq!(
        demonstration::<E>(settings, "", "11"),
        ["Q 00010801", "A 0000", "X  0 0"]
    );
    assert_eq!(
        demonstration::<E>(settings, "1", ""),
        [
            "Q 00010801",
            "A 0001",
            "Q 020001",
            "A 020121",
            "P 0 1 2",
            "X 1 1 3"
        ]
    );
    // Source document 000's example of a burst: columns 11001, 01001 and 0100 of X lose one bit each.
    assert_eq!(
        demonstration::<E>(settings, "10011100100011", "10100100011"),
        [
            "Q 00010801",
            "A 000e",
            "Q 04000e03",
            "A 040201006e",
            "P 0 14 6",
            "X 10011100100011 1 5"
        ]
    );
    // No copy of four bits; fewer bits than columns.
    assert_eq!(
        demonstration::<E>(settings, "1011", ""),
        [
            "Q 00010801",
            "A 0004",
            "Q 04000404",
            "A 0401000101ab01",
            "P 0 4 6",
            "X 1011 1 7"
        ]
    );
    assert_eq!(
        demonstration::<E>(settings, "1", "001011"),
        [
            "Q 00010801",
            "A 0001",
            "Q 04000105",
            "A 04010000000021",
            "P 0 1 6",
            "X 1 1 7"
        ]
    );
    // A column without a take-out: none, then the bits.
    assert_eq!(
        demonstration::<E>(settings, "1000", "000000"),
        [
            "Q 00010801",
            "A 0004",
            "Q 04000402",
            "A 04010021",
            "Q 030004",
            "A 0380",
            "P 0 4 5",
            "X 1000 2 6"
        ]
    );
}

/// The stored runs of the demonstration program that nothing turns down: what tools/runs.py works out
/// from 01 and 02 by brute force.
fn stored<E: Ends>() {
    let folder = Path::new(env!("CARGO_MANIFEST_DIR")).join("../data/runs");
    let mut compared = 0;
    for entry in fs::read_dir(folder).expect("data/runs is there") {
        let input = entry.expect("an entry").path();
        if input.extension().is_none_or(|end| end != "in") {
            continue;
        }
        let want = fs::read_to_string(input.with_extension("out")).expect("the stored output");
        if want.starts_with('R') {
            continue;
        }
        let text = fs::read_to_string(&input).expect("the stored input");
        let lines: Vec<&str> = text.split('\n').collect();
        let numbers: Vec<u32> = lines[0].split(' ').map(|n| n.parse().unwrap()).collect();
        let settings = Numbers {
            m: numbers[0],
            h: numbers[1],
            k: numbers[2],
            key: numbers[3],
            ceiling: numbers[4],
        };
        let got = demonstration::<E>(settings, lines[1], lines[2]);
        let want: Vec<&str> = want.lines().collect();
        assert_eq!(got, want, "{}", input.display());
        compared += 1;
    }
    assert!(compared >= 65, "{compared} stored runs");
}

fn all<E: Ends>() {
    repairs::<E>();
    hashes::<E>();
    numbers::<E>();
    questions::<E>();
    places::<E>();
    runs::<E>();
    stored::<E>();
}

#[test]
fn library() {
    all::<Library>();
}

#[test]
fn model() {
    all::<Model>();
}
