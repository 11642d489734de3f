//! Numbers that stand in more than one place. The header's macros and the Rattle source are held to
//! the wrapper's constants, and these to what the library does.

mod common;

use std::collections::BTreeMap;
use std::fs;
use std::path::Path;

use common::c::{include_folder, printed_by};
use common::{decoded, field, message, piece};
use lunetteorris::layout::*;
use lunetteorris::{
    pack, sheet_rows, unpack, Ends, How, Library, Refusal, Settings, HOLDER_BYTES, MAX_BITS,
    MAX_LIST_BITS, MAX_MARKER_BITS, QUESTION_BYTES, REBUILDER_BYTES, REPLY_BYTES, ROW_BYTES,
};

/// The wrapper's constants under the header's names.
macro_rules! constants {
    ($($name:ident)*) => { [$((concat!("LO_", stringify!($name)).to_string(), $name as u64)),*] };
}

/// BadSetting as BAD_SETTING.
fn in_capitals(name: impl std::fmt::Debug) -> String {
    let name = format!("{name:?}");
    let mut capitals = String::new();
    for (i, c) in name.chars().enumerate() {
        if i > 0 && c.is_uppercase() {
            capitals.push('_');
        }
        capitals.push(c.to_ascii_uppercase());
    }
    capitals
}

/// The house settings under 01's names.
fn house() -> [(&'static str, u32); 5] {
    let Settings {
        anchor,
        hash,
        window,
        key,
        ceiling,
    } = Settings::HOUSE;
    [
        ("M", anchor),
        ("H", hash),
        ("K", window),
        ("KEY", key),
        ("CEILING", ceiling),
    ]
}

/// Each macro of the header that has no parameter, with the wrapper's value.
fn of_the_wrapper() -> BTreeMap<String, u64> {
    let sizes = constants![
        MAX_BITS MAX_LIST_BITS MAX_MARKER_BITS
        HOLDER_BYTES REBUILDER_BYTES ROW_BYTES QUESTION_BYTES REPLY_BYTES
    ];
    let offsets = constants![
        HOLDER_OPENED HOLDER_BITS HOLDER_H HOLDER_KEY HOLDER_ANSWERS
        REBUILDER_M REBUILDER_H REBUILDER_K REBUILDER_KEY REBUILDER_CEILING REBUILDER_Y_BITS
        REBUILDER_PHASE REBUILDER_N REBUILDER_ANSWERED REBUILDER_COUNTED REBUILDER_ROWS
        REBUILDER_STAGE REBUILDER_WAITING REBUILDER_PIECES
        ROW_START ROW_LENGTH ROW_HOW
    ];
    let refusals = Refusal::ALL.map(|refusal| {
        let name = format!("LO_{}", in_capitals(refusal));
        (name, refusal.number() as u64)
    });
    let hows = How::ALL.map(|how| {
        let name = format!("LO_HOW_{}", in_capitals(how));
        (name, how.number() as u64)
    });
    let house = house().map(|(name, value)| (format!("LO_HOUSE_{name}"), value as u64));
    let mut all = BTreeMap::new();
    all.extend(sizes);
    all.extend(offsets);
    all.extend(refusals);
    all.extend(hows);
    all.extend(house);
    all
}

/// The values of C expressions over the header, as a C program prints them.
fn in_c(name: &str, expressions: &[String]) -> Vec<u64> {
    let mut text = String::from("#include <stdio.h>\n#include \"lunetteorris.h\"\n");
    text += "int main(void) {\n";
    for expression in expressions {
        text += &format!("    printf(\"%llu\\n\", (unsigned long long)({expression}));\n");
    }
    text += "    return 0;\n}\n";
    let source = Path::new(env!("CARGO_TARGET_TMPDIR")).join(format!("{name}.c"));
    fs::write(&source, text).expect("the source is written");
    let printed = printed_by(&source, None);
    printed.lines().map(|line| line.parse().unwrap()).collect()
}

// The header

/// Every macro without a parameter is the wrapper's constant of that name, and none is left out.
#[test]
fn macros() {
    let header = fs::read_to_string(include_folder().join("lunetteorris.h")).expect("the header");
    let names: Vec<String> = header
        .lines()
        .filter_map(|line| line.strip_prefix("#define ")?.split_whitespace().next())
        .filter(|name| name.starts_with("LO_") && !name.contains('('))
        .map(str::to_string)
        .collect();
    let values = in_c("macros", &names);
    let of_the_header: BTreeMap<String, u64> = names.into_iter().zip(values).collect();
    assert_eq!(of_the_header, of_the_wrapper());
}

#[test]
fn macros_with_parameters() {
    let mut expressions = Vec::new();
    let mut want = Vec::new();
    for (n, m) in [(0, 8), (1, 8), (8, 8), (9, 64), (65, 16), (MAX_BITS, 8)] {
        // A sum as parameter, to see that the macro has its brackets.
        expressions.push(format!("LO_STRING_BYTES({n} + 0)"));
        want.push(n.div_ceil(8) as u64);
        expressions.push(format!("LO_SHEET_ROWS({n} + 0, {m} + 0)"));
        want.push(sheet_rows(n, m) as u64);
        expressions.push(format!("LO_SHEET_BYTES({n} + 0, {m} + 0)"));
        want.push((ROW_BYTES * sheet_rows(n, m)) as u64);
    }
    let refused = Refusal::ALL.map(Err);
    for result in [Ok(0), Ok(1), Ok(u32::MAX as u64)]
        .into_iter()
        .chain(refused)
    {
        let packed = pack(result);
        expressions.push(format!("LO_VALUE({packed}ull + 0)"));
        want.push(result.unwrap_or(0));
        expressions.push(format!("LO_REFUSAL({packed}ull + 0)"));
        want.push(result.map_or_else(|refusal| refusal.number() as u64, |_| 0));
    }
    assert_eq!(in_c("macros_with_parameters", &expressions), want);
}

// The Rattle source

/// A file of the Rattle source.
fn source(path: &str) -> String {
    let path = Path::new(env!("CARGO_MANIFEST_DIR"))
        .join("../crates")
        .join(path);
    fs::read_to_string(&path).unwrap_or_else(|_| panic!("{} is missing", path.display()))
}

/// The number behind a text that stands once in the source.
fn number_behind(source: &str, text: &str) -> u64 {
    let parts: Vec<&str> = source.split(text).collect();
    assert_eq!(parts.len(), 2, "`{text}` stands once in the Rattle source");
    let end = parts[1].find([';', ',']).expect("a number has an end");
    let number = parts[1][..end].trim();
    number
        .parse()
        .unwrap_or_else(|_| panic!("`{number}` behind `{text}` is a number"))
}

/// The house settings: no function of the library tells them. The prover holds these constants to
/// 01's, by the contract of `house`.
#[test]
fn house_settings() {
    let settings = source("strings/src/settings.rt");
    for (name, value) in house() {
        let of_rattle = number_behind(&settings, &format!("const HOUSE_{name}: u32 ="));
        assert_eq!(of_rattle, value as u64, "HOUSE_{name}");
    }
}

/// Names and numbers of the refusals and of how, the longest string, the longest in a list and the
/// longest marker word.
#[test]
fn rattle_source() {
    let strings = source("strings/src/lib.rt");
    let most = number_behind(&strings, "const MAX_BITS: usize =");
    assert_eq!(most, MAX_BITS as u64);
    for refusal in Refusal::ALL {
        let number = number_behind(&strings, &format!("Refusal::{refusal:?} =>"));
        assert_eq!(number, refusal.number() as u64, "{refusal:?}");
    }
    let lists = source("codes/src/lists.rt");
    let most = number_behind(&lists, "const MAX_LIST_BITS: usize =");
    assert_eq!(most, MAX_LIST_BITS as u64);
    let markers = source("codes/src/markers.rt");
    let most = number_behind(&markers, "const MAX_MARKER_BITS: usize =");
    assert_eq!(most, MAX_MARKER_BITS as u64);
    let ends = source("ends/src/lib.rt");
    for how in How::ALL {
        let number = number_behind(&ends, &format!("How::By{how:?} =>"));
        assert_eq!(number, how.number() as u64, "{how:?}");
    }
}

// The library

/// A rebuilder's state after its start.
fn started(m: u32, y: &[u8], bits: usize) -> Vec<u8> {
    let mut state = vec![0; REBUILDER_BYTES];
    let mut question = [0; QUESTION_BYTES];
    let start = Library::rebuilder_start(m, 10, 5, 77, 500, y, bits, &mut state, &mut question);
    assert_eq!(unpack(start), Ok(4));
    state
}

/// A buffer of so many bytes, or entries of a list, is taken, and one less is refused.
fn least(needed: usize, refusal: Refusal, call: impl Fn(usize) -> u64) {
    let taken = unpack(call(needed));
    assert!(taken.is_ok(), "{taken:?} with a length of {needed}");
    let Some(fewer) = needed.checked_sub(1) else {
        return;
    };
    assert_eq!(unpack(call(fewer)), Err(refusal), "a length of {fewer}");
}

#[test]
fn sizes() {
    let too_short = Refusal::BufferTooShort;
    least(HOLDER_BYTES, too_short, |bytes| {
        Library::holder_fresh(&mut vec![0; bytes])
    });
    let start = |state: usize, question: usize| {
        let (mut state, mut question) = (vec![0; state], vec![0; question]);
        Library::rebuilder_start(8, 8, 1, 1, 0, &[], 0, &mut state, &mut question)
    };
    least(REBUILDER_BYTES, too_short, |bytes| {
        start(bytes, QUESTION_BYTES)
    });
    least(QUESTION_BYTES, too_short, |bytes| {
        start(REBUILDER_BYTES, bytes)
    });

    // The longest string, and the longest reply on it.
    let x = vec![0; MAX_BITS / 8];
    assert_eq!(unpack(Library::syndrome(&x, MAX_BITS)), Ok(0));
    let longer = vec![0; MAX_BITS / 8 + 1];
    assert_eq!(
        unpack(Library::syndrome(&longer, MAX_BITS + 1)),
        Err(Refusal::BadString)
    );
    let mut holder = vec![0; HOLDER_BYTES];
    let open = message(&[0, 1, 8, 1]);
    let opened = Library::holder_answer(&mut holder, &x, MAX_BITS, &open, &mut [0; 4]);
    assert_eq!(unpack(opened), Ok(4));
    let all = message(&[3, 0, MAX_BITS as u32]);
    least(REPLY_BYTES, too_short, |bytes| {
        let mut reply = vec![0; bytes];
        Library::holder_answer(&mut holder.clone(), &x, MAX_BITS, &all, &mut reply)
    });
    // The reply to a burst question needs its own length: kind, 32 syndromes and a hash of one byte.
    let burst = message(&[4, 0, MAX_BITS as u32, 32]);
    least(34, too_short, |bytes| {
        let mut reply = vec![0; bytes];
        Library::holder_answer(&mut holder.clone(), &x, MAX_BITS, &burst, &mut reply)
    });
    // A holder's state in its call.
    least(HOLDER_BYTES, Refusal::OutOfTurn, |bytes| {
        let mut reply = [0; REPLY_BYTES];
        Library::holder_answer(
            &mut holder[..bytes].to_vec(),
            &x,
            MAX_BITS,
            &all,
            &mut reply,
        )
    });

    // The longest strings of a list, and its entries: of 3 bits, 000 and 101 have syndrome 0.
    let listed = |n: usize, entries: usize| Library::list(n, 0, &mut vec![0; entries]);
    assert!(unpack(listed(MAX_LIST_BITS, 1 << MAX_LIST_BITS)).is_ok());
    assert_eq!(
        unpack(listed(MAX_LIST_BITS + 1, 1 << MAX_LIST_BITS)),
        Err(Refusal::OutOfRange)
    );
    least(2, Refusal::ListTooShort, |entries| listed(3, entries));

    // The longest marker word, and the buffers for words and for messages.
    let build = |n: usize, message: &[u8], bytes: usize| {
        Library::marker_build(message, 8 * message.len(), n, 0, &mut vec![0; bytes])
    };
    let read = |n: usize, bytes: usize| {
        let received = vec![0; n.div_ceil(8)];
        Library::marker_read(&received, n, n, 0, &mut vec![0; bytes])
    };
    assert_eq!(unpack(read(MAX_MARKER_BITS, MAX_MARKER_BITS)), Ok(1));
    assert_eq!(
        unpack(read(MAX_MARKER_BITS + 1, MAX_MARKER_BITS)),
        Err(Refusal::OutOfRange)
    );
    least(2, too_short, |bytes| build(12, &[0], bytes));
    least(3, too_short, |bytes| build(21, &[0; 2], bytes));
    for (n, message) in [
        (1, 0),
        (2, 0),
        (3, 1),
        (12, 1),
        (13, 2),
        (MAX_MARKER_BITS, 511),
    ] {
        least(message, too_short, |bytes| read(n, bytes));
    }

    // String, sheet, question and state of a rebuilder's call.
    for (n, m) in [(0, 8), (1, 8), (7, 8), (8, 8), (129, 64), (MAX_BITS, 9)] {
        let state = started(m, &[], 0);
        let call = |state_bytes: usize, string: usize, sheet: usize, question: usize| {
            let mut state = state[..state_bytes].to_vec();
            let (mut string, mut sheet) = (vec![0; string], vec![0; sheet]);
            let mut question = vec![0; question];
            let opened = message(&[0, n as u32]);
            Library::rebuilder_call(
                &mut state,
                &[],
                0,
                &mut string,
                &mut sheet,
                &opened,
                &mut question,
            )
        };
        let string = n.div_ceil(8);
        let sheet = ROW_BYTES * sheet_rows(n, m as usize);
        let (state, question) = (REBUILDER_BYTES, QUESTION_BYTES);
        least(string, too_short, |bytes| {
            call(state, bytes, sheet, question)
        });
        least(sheet, too_short, |bytes| {
            call(state, string, bytes, question)
        });
        least(question, too_short, |bytes| {
            call(state, string, sheet, bytes)
        });
        least(state, Refusal::OutOfTurn, |bytes| {
            call(bytes, string, sheet, question)
        });
    }
}

/// One call for each refusal.
#[test]
fn refusals() {
    let y = [0xa0];
    let start = |h: u32, y: &[u8], state: &mut [u8]| {
        Library::rebuilder_start(8, h, 1, 1, 0, y, 3, state, &mut [0; QUESTION_BYTES])
    };
    let mut state = [0; REBUILDER_BYTES];
    let settings = start(7, &y, &mut state);
    let string = start(8, &[0xa8], &mut state);
    let too_short = start(8, &y, &mut state[1..]);
    assert_eq!(unpack(start(8, &y, &mut state)), Ok(4));
    let mut answer = |message: &[u8]| {
        Library::rebuilder_call(
            &mut state,
            &y,
            3,
            &mut [0; 1],
            &mut [0; ROW_BYTES],
            message,
            &mut [0; QUESTION_BYTES],
        )
    };
    let truncated = answer(&[0]);
    let number = answer(&[0, 0x80, 0]);
    let kind = answer(&[1, 0]);
    let trailing = answer(&[0, 0, 0]);
    let range = answer(&message(&[0, MAX_BITS as u32 + 1]));
    assert_eq!(answer(&[0, 0]), 0, "X of no bits: finished");
    let turn = answer(&[0, 0]);
    let mut holder = [0; HOLDER_BYTES];
    let mut ask = |message: &[u8]| Library::holder_answer(&mut holder, &y, 3, message, &mut [0; 2]);
    assert_eq!(unpack(ask(&[0, 1, 8, 1])), Ok(2));
    let burst = ask(&[4, 0, 3, 1]);
    let list = Library::list(0, 0, &mut []);
    let message = Library::marker_build(&[], 0, 3, 0, &mut [0]);
    let got = [
        settings, string, turn, truncated, number, kind, trailing, range, too_short, burst, list,
        message,
    ];
    assert_eq!(got, Refusal::ALL.map(|refusal| refusal.number() as u64));
}

/// The limits that the wrapper tests are the library's.
#[test]
fn limits() {
    let values = [
        0,
        1,
        2,
        7,
        8,
        9,
        31,
        32,
        33,
        63,
        64,
        65,
        16_383,
        16_384,
        16_385,
        u32::MAX - 1,
        u32::MAX,
    ];
    let house = Settings::HOUSE;
    for value in values {
        for settings in [
            Settings {
                anchor: value,
                ..house
            },
            Settings {
                hash: value,
                ..house
            },
            Settings {
                window: value,
                ..house
            },
            Settings {
                key: value,
                ..house
            },
            Settings {
                ceiling: value,
                ..house
            },
        ] {
            let Settings {
                anchor,
                hash,
                window,
                key,
                ceiling,
            } = settings;
            let start = Library::rebuilder_start(
                anchor,
                hash,
                window,
                key,
                ceiling,
                &[],
                0,
                &mut [0; REBUILDER_BYTES],
                &mut [0; QUESTION_BYTES],
            );
            let refused = unpack(start) == Err(Refusal::BadSetting);
            assert_eq!(!refused, settings.within_limits(), "{settings:?}");
        }
    }
}

/// The library has each field at its offset: Y is 144 ones; of X, 101 bits, the first anchor asked
/// for can't be placed, the second can. What it leaves on its left is asked by its columns, then by
/// its bits.
#[test]
fn offsets() {
    let y = [0xff; 18];
    let mut state = started(9, &y, 144);
    let (mut string, mut sheet) = ([0; 13], [0; ROW_BYTES * sheet_rows(101, 9)]);
    let mut question = [0; QUESTION_BYTES];
    let mut call = |state: &mut [u8], answer: &[u8]| {
        let called = Library::rebuilder_call(
            state,
            &y,
            144,
            &mut string,
            &mut sheet,
            answer,
            &mut question,
        );
        decoded(&question[..unpack(called).expect("the answer is taken") as usize])
    };
    let settings = [9, 10, 5, 77, 500, 144];
    let head = |state: &[u8]| {
        let offsets = [
            REBUILDER_M,
            REBUILDER_H,
            REBUILDER_K,
            REBUILDER_KEY,
            REBUILDER_CEILING,
            REBUILDER_Y_BITS,
        ];
        offsets.map(|at| field(state, at))
    };
    // Phase, n, answered, counted, rows, stage, waiting.
    let run = |state: &[u8]| {
        let offsets = [
            REBUILDER_PHASE,
            REBUILDER_N,
            REBUILDER_ANSWERED,
            REBUILDER_COUNTED,
            REBUILDER_ROWS,
            REBUILDER_STAGE,
            REBUILDER_WAITING,
        ];
        offsets.map(|at| field(state, at))
    };
    assert_eq!((head(&state), run(&state)), (settings, [0; 7]));
    assert_eq!(call(&mut state, &message(&[0, 101])), [3, 46, 9]);
    assert_eq!(run(&state), [1, 101, 1, 0, 0, 3, 1]);
    assert_eq!(piece(&state, 0), [0, 101, 0, 144]);
    assert_eq!(call(&mut state, &[3, 0, 0]), [3, 55, 9]);
    assert_eq!(run(&state), [1, 101, 2, 3, 0, 4, 1]);
    assert_eq!(call(&mut state, &[3, 0xff, 0x80]), [4, 0, 55, 21]);
    assert_eq!(run(&state), [1, 101, 3, 6, 1, 7, 2]);
    assert_eq!(piece(&state, 1), [0, 55, 0, 76]);
    assert_eq!(piece(&state, 0), [64, 37, 85, 59]);
    // Four ones have no take-out of syndrome 0: three ones have 2.
    assert_eq!(call(&mut state, &[&[4][..], &[0; 22]].concat()), [3, 0, 55]);
    assert_eq!(run(&state), [1, 101, 4, 29, 1, 6, 2]);
    assert_eq!(head(&state), settings);
    assert_eq!(REBUILDER_PIECES + 32 * 16, REBUILDER_BYTES);
    let row = [ROW_START, ROW_LENGTH, ROW_HOW].map(|at| field(&sheet, at));
    assert_eq!(row, [55, 9, How::Anchor.number() as usize]);

    let mut holder = [0; HOLDER_BYTES];
    let open = message(&[0, 1, 10, 77]);
    let opened = Library::holder_answer(&mut holder, &[0; 13], 101, &open, &mut [0; 2]);
    assert_eq!(unpack(opened), Ok(2));
    let offsets = [
        HOLDER_OPENED,
        HOLDER_BITS,
        HOLDER_H,
        HOLDER_KEY,
        HOLDER_ANSWERS,
    ];
    assert_eq!(offsets.map(|at| field(&holder, at)), [1, 101, 10, 77, 1]);
    let asked = Library::holder_answer(&mut holder, &[0; 13], 101, &[1, 0, 1], &mut [0; 2]);
    assert_eq!(unpack(asked), Ok(2));
    assert_eq!(offsets.map(|at| field(&holder, at)), [1, 101, 10, 77, 2]);
}
