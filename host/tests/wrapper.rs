//! The safe wrapper.

mod common;

use std::thread;

use common::*;
use lunetteorris::{
    find_anchor, hash, pack, repair, syndrome, unpack, BitString, Holder, How, Rebuilder, Refusal,
    ResumeError, Row, Saved, Settings, MAX_BITS, ROW_BYTES,
};

fn synchronised(settings: Settings, x: &BitString, y: &BitString) -> Rebuilder {
    let mut holder = Holder::new(x.clone());
    let mut rebuilder = Rebuilder::start(settings, y.clone()).unwrap();
    while let Some(question) = rebuilder.question() {
        let answer = holder.answer(question).unwrap();
        rebuilder.take(&answer).unwrap();
    }
    assert!(rebuilder.finished());
    assert_eq!(holder.answers(), rebuilder.answered());
    rebuilder
}

#[test]
fn refusals() {
    let numbers = Refusal::ALL.map(Refusal::number);
    assert_eq!(numbers, [1, 2, 3, 4, 5, 6, 7, 8, 9, 10, 14, 15]);
    for refusal in Refusal::ALL {
        let number = refusal.number();
        assert_eq!(Refusal::from_number(number), Some(refusal));
        assert_eq!(unpack(pack(Err(refusal))), Err(refusal));
        assert!(refusal
            .to_string()
            .starts_with(&format!("refusal {number}: ")));
        let _: &dyn std::error::Error = &refusal;
    }
    for number in (0..=u8::MAX).filter(|number| !numbers.contains(number)) {
        assert_eq!(Refusal::from_number(number), None);
    }
    assert_eq!(unpack(pack(Ok(65_536))), Ok(65_536));
}

#[test]
fn strings() {
    for text in ["", "0", "1", "10110", "11111111", "000000001"] {
        let s: BitString = text.parse().unwrap();
        assert_eq!(s.to_string(), text);
        assert_eq!(s.bits(), text.len());
        assert_eq!(s.is_empty(), text.is_empty());
        assert_eq!(
            BitString::from_bytes(s.as_bytes().to_vec(), s.bits()),
            Ok(s.clone())
        );
        assert_eq!(s.get(text.len()), None);
        assert!((0..text.len()).all(|i| s.get(i) == Some(text.as_bytes()[i] == b'1')));
    }
    let bad = Err(Refusal::BadString);
    assert_eq!("012".parse::<BitString>(), bad);
    assert_eq!("1 0".parse::<BitString>(), bad);
    assert_eq!(BitString::from_bytes(vec![0x81], 7), bad);
    assert_eq!(BitString::from_bytes(vec![0], 9), bad);
    assert_eq!(BitString::from_bytes(vec![0, 0], 8), bad);
    assert_eq!(
        BitString::from_bytes(vec![0; MAX_BITS / 8 + 1], MAX_BITS + 1),
        bad
    );
    assert_eq!(
        "0".repeat(MAX_BITS).parse::<BitString>().unwrap().bits(),
        MAX_BITS
    );
    assert_eq!("0".repeat(MAX_BITS + 1).parse::<BitString>(), bad);
    assert_eq!(BitString::from_bits(vec![true; MAX_BITS + 1]), bad);
}

#[test]
fn codes() -> Result<(), Refusal> {
    let s: BitString = "1011".parse()?;
    assert_eq!(syndrome(&s)?, 3);
    assert_eq!(hash(&s, 8, 1)?, 0xab);
    assert_eq!(hash(&s, 7, 1), Err(Refusal::BadSetting));
    assert_eq!(hash(&s, 8, 0), Err(Refusal::BadSetting));
    assert_eq!(repair(&s, 3, 0)?, Some("101".parse()?));
    assert_eq!(repair(&s, 3, 3)?, None);
    assert_eq!(repair(&s, 3, 4), Err(Refusal::OutOfRange));
    assert_eq!(repair(&s, 4, 0), Err(Refusal::OutOfRange));
    assert_eq!(repair(&s, usize::MAX, 0), Err(Refusal::OutOfRange));
    let anchor: BitString = "10110111".parse()?;
    let y: BitString = "0010110111".parse()?;
    assert_eq!(find_anchor(&y, 0..10, 10, 1, 1, &anchor)?, Some(2));
    assert_eq!(find_anchor(&y, 1..10, 10, 1, 1, &anchor)?, Some(1));
    assert_eq!(find_anchor(&y, 0..9, 10, 1, 1, &anchor)?, None);
    assert_eq!(
        find_anchor(&y, 0..11, 10, 1, 1, &anchor),
        Err(Refusal::OutOfRange)
    );
    assert_eq!(
        find_anchor(&y, 0..10, 10, 3, 1, &anchor),
        Err(Refusal::OutOfRange)
    );
    assert_eq!(
        find_anchor(&y, 0..10, 10, 1, 9, &anchor),
        Err(Refusal::BadSetting)
    );
    assert_eq!(
        find_anchor(&y, 0..10, 10, 1, 1, &s),
        Err(Refusal::BadSetting)
    );
    Ok(())
}

/// A reversed range is refused in its turn, behind the settings.
#[test]
#[allow(clippy::reversed_empty_ranges)]
fn reversed_ranges() -> Result<(), Refusal> {
    let y: BitString = "0010110111".parse()?;
    let anchor: BitString = "10110111".parse()?;
    let short: BitString = "1011".parse()?;
    for within in [1..0, 10..9, 11..10, MAX_BITS + 1..0, usize::MAX..0] {
        let found = |k, anchor| find_anchor(&y, within.clone(), 10, 1, k, anchor);
        assert_eq!(found(1, &anchor), Err(Refusal::OutOfRange), "{within:?}");
        assert_eq!(found(0, &anchor), Err(Refusal::BadSetting), "{within:?}");
        assert_eq!(found(9, &anchor), Err(Refusal::BadSetting), "{within:?}");
        assert_eq!(found(1, &short), Err(Refusal::BadSetting), "{within:?}");
    }
    assert_eq!(find_anchor(&y, 10..10, 10, 1, 1, &anchor)?, None);
    Ok(())
}

#[test]
fn demonstration_run() {
    let settings = Settings {
        anchor: 8,
        hash: 8,
        window: 1,
        key: 1,
        ceiling: 100,
    };
    let rebuilder = synchronised(settings, &"1011".parse().unwrap(), &"101".parse().unwrap());
    assert_eq!(rebuilder.string().to_string(), "1011");
    assert_eq!(
        rebuilder.sheet().collect::<Vec<_>>(),
        [Row {
            start: 0,
            length: 4,
            how: How::PutIn
        }]
    );
    assert_eq!((rebuilder.answered(), rebuilder.counted()), (2, 4));
}

/// A run of seven bits lost, then of seven bits gained: one question after the opening, one row.
#[test]
fn bursts() {
    let random = &mut Random::new(54);
    let long = random_bits(random, 5_000);
    let short = [&long[..3_000], &long[3_007..]].concat();
    let (long, short) = (packed(&long), packed(&short));
    for (x, y) in [(&long, &short), (&short, &long)] {
        let rebuilder = synchronised(Settings::house(), x, y);
        assert_eq!(rebuilder.string(), *x);
        assert_eq!(
            rebuilder.sheet().collect::<Vec<_>>(),
            [Row {
                start: 0,
                length: x.bits() as u32,
                how: How::Burst
            }]
        );
        assert_eq!(rebuilder.answered(), 2);
        assert!(rebuilder.counted() <= 1 + 7 * 2 + 3);
    }
    let mut holder = Holder::new(long);
    holder.answer(&message(&[0, 1, 16, 1])).unwrap();
    for b in [0, 1, 33, u32::MAX] {
        let refused = holder.answer(&message(&[4, 0, 100, b]));
        assert_eq!(refused, Err(Refusal::BadBurst), "B {b}");
    }
    let refused = holder.answer(&message(&[4, 0, 5_001, 2]));
    assert_eq!(refused, Err(Refusal::OutOfRange));
}

#[test]
fn settings() {
    let house = Settings::house();
    assert!(house.within_limits());
    assert_eq!(
        house,
        Settings {
            anchor: 16,
            hash: 16,
            window: 2,
            key: 1,
            ceiling: 4_096
        }
    );
    for wrong in [
        Settings { anchor: 7, ..house },
        Settings {
            anchor: 65,
            ..house
        },
        Settings { hash: 7, ..house },
        Settings { hash: 33, ..house },
        Settings { window: 0, ..house },
        Settings { window: 9, ..house },
        Settings { key: 0, ..house },
        Settings {
            ceiling: 16_385,
            ..house
        },
    ] {
        assert!(!wrong.within_limits());
        let start = Rebuilder::start(wrong, BitString::default());
        assert_eq!(start.err(), Some(Refusal::BadSetting));
    }
}

#[test]
fn runs() {
    let random = &mut Random::new(50);
    for change in CHANGES {
        let x = random_bits(random, 5_000);
        let y = copy_of(random, &x, change, MAX_BITS);
        let (x, y) = (packed(&x), packed(&y));
        let settings = Settings {
            hash: 32,
            ..Settings::house()
        };
        let rebuilder = synchronised(settings, &x, &y);
        assert_eq!(rebuilder.string(), x, "{change:?}");
        let mut rows: Vec<Row> = rebuilder.sheet().collect();
        assert_eq!(rows.len(), rebuilder.sheet().len());
        rows.sort_by_key(|row| row.start);
        let end = rows.iter().fold(0, |end, row| {
            assert_eq!(row.start, end);
            end + row.length
        });
        assert_eq!(end, 5_000);
    }
}

#[test]
fn a_refused_answer_changes_nothing() {
    let x: BitString = "1100101011110000".parse().unwrap();
    let mut holder = Holder::new(x.clone());
    let mut rebuilder = Rebuilder::start(Settings::house(), x.clone()).unwrap();
    assert_eq!(holder.answer(&[1, 0, 1]), Err(Refusal::OutOfTurn));
    let before = rebuilder.clone();
    assert_eq!(rebuilder.take(&[]), Err(Refusal::Truncated));
    assert_eq!(rebuilder.take(&[1, 0]), Err(Refusal::BadKind));
    assert!(rebuilder == before);
    let answer = holder.answer(rebuilder.question().unwrap()).unwrap();
    rebuilder.take(&answer).unwrap();
    assert!(
        rebuilder.string().iter().all(|bit| !bit),
        "nothing is settled yet"
    );
    assert_eq!(rebuilder.string().bits(), 16);
    // A state kept and taken up again.
    let mut holder = Holder::with_state(x.clone(), *holder.state());
    let answer = holder.answer(rebuilder.question().unwrap()).unwrap();
    rebuilder.take(&answer).unwrap();
    assert_eq!(rebuilder.string(), x);
    assert_eq!(rebuilder.take(&answer), Err(Refusal::OutOfTurn));
}

/// Runs at the same time, each on its own states, are as a run alone.
#[test]
fn runs_at_the_same_time() {
    let random = &mut Random::new(52);
    let x = random_bits(random, 20_000);
    let y = copy_of(random, &x, Change::ManyEdits, MAX_BITS);
    let (x, y) = (packed(&x), packed(&y));
    let alone = synchronised(Settings::house(), &x, &y);
    thread::scope(|scope| {
        for _ in 0..8 {
            scope.spawn(|| assert!(synchronised(Settings::house(), &x, &y) == alone));
        }
    });
}

/// A run that is saved and taken up again before every answer is the same run.
#[test]
fn saved_runs() {
    let random = &mut Random::new(51);
    let x = random_bits(random, 3_000);
    let y = copy_of(random, &x, CHANGES[CHANGES.len() - 1], MAX_BITS);
    let (x, y) = (packed(&x), packed(&y));
    let whole = synchronised(Settings::house(), &x, &y);
    let mut holder = Holder::new(x);
    let mut rebuilder = Rebuilder::start(Settings::house(), y.clone()).unwrap();
    while let Some(question) = rebuilder.question() {
        let answer = holder.answer(question).unwrap();
        let saved = rebuilder.save();
        rebuilder = Rebuilder::resume(y.clone(), saved.clone()).unwrap();
        assert!(rebuilder.save() == saved);
        rebuilder.take(&answer).unwrap();
    }
    assert!(rebuilder == whole);
    assert!(Rebuilder::resume(y, rebuilder.save()).unwrap().finished());
}

/// What resume says of a saved run after a change.
fn resumed(y: &BitString, saved: &Saved, change: impl Fn(&mut Saved)) -> Option<ResumeError> {
    let mut saved = saved.clone();
    change(&mut saved);
    Rebuilder::resume(y.clone(), saved).err()
}

#[test]
fn finished_runs_that_were_not_saved_so() {
    let (x, y): (BitString, BitString) = ("1011".parse().unwrap(), "101".parse().unwrap());
    let saved = synchronised(Settings::house(), &x, &y).save();
    let resumed = |change: fn(&mut Saved)| resumed(&y, &saved, change);
    assert_eq!(resumed(|_| ()), None);
    assert_eq!(
        resumed(|saved| saved.question = vec![2, 0, 4]),
        Some(ResumeError::Question {
            bytes: 3,
            finished: true
        })
    );
    assert_eq!(
        resumed(|saved| saved.string.clear()),
        Some(ResumeError::StringTooShort {
            bytes: 0,
            needed: 1
        })
    );
    assert_eq!(
        resumed(|saved| saved.string[0] |= 1),
        Some(ResumeError::BadString)
    );
    assert_eq!(
        resumed(|saved| saved.sheet.truncate(ROW_BYTES - 1)),
        Some(ResumeError::SheetTooShort {
            bytes: ROW_BYTES - 1,
            needed: ROW_BYTES
        })
    );
    let other = Rebuilder::resume("1010".parse().unwrap(), saved.clone());
    assert_eq!(other.err(), Some(ResumeError::Refused(Refusal::BadString)));
    // No finished state has another stage; 8 is none at all.
    for stage in [1, 6, 7, 8] {
        let mut saved = saved.clone();
        set_field(&mut saved.state, STAGE, stage);
        let same = Rebuilder::resume(y.clone(), saved.clone());
        assert_eq!(same.err(), Some(ResumeError::Refused(Refusal::OutOfTurn)));
        assert!(Rebuilder::resume("1010".parse().unwrap(), saved).is_err());
    }
    let bad_row = Some(ResumeError::BadRow { index: 0 });
    for how in [0, 7] {
        let mut saved = saved.clone();
        set_field(&mut saved.sheet, ROW_HOW, how);
        assert_eq!(Rebuilder::resume(y.clone(), saved).err(), bad_row);
    }
    for (start, length) in [(0, 0), (0, 5), (1, 4), (4, 1), (u32::MAX, 1), (1, u32::MAX)] {
        let mut saved = saved.clone();
        set_field(&mut saved.sheet, ROW_START, start);
        set_field(&mut saved.sheet, ROW_LENGTH, length);
        assert_eq!(Rebuilder::resume(y.clone(), saved).err(), bad_row);
    }
    // Whatever the bytes of a finished state are, resume gives an error or a rebuilder that can be
    // read.
    let random = &mut Random::new(53);
    for at in (0..saved.state.len()).step_by(4) {
        let any = random.number();
        for value in [0, 1, 2, any, u32::MAX] {
            let mut saved = saved.clone();
            set_field(&mut saved.state, at, value);
            if let Ok(rebuilder) = Rebuilder::resume(y.clone(), saved) {
                assert!(rebuilder.finished());
                let rows = rebuilder.sheet().count();
                println!("{} {rows} {rebuilder:?}", rebuilder.string());
            }
        }
    }
}

#[test]
fn runs_that_were_not_saved_so() {
    let (x, y): (BitString, BitString) = ("1011".parse().unwrap(), "101".parse().unwrap());
    let mut holder = Holder::new(x);
    let mut rebuilder = Rebuilder::start(Settings::house(), y.clone()).unwrap();
    // Before the opening's answer string and sheet are for any X, after it for this one.
    let rows = 2 * (MAX_BITS / 16) + 1;
    for (string, sheet) in [(MAX_BITS / 8, ROW_BYTES * rows), (1, ROW_BYTES)] {
        let saved = rebuilder.save();
        let resumed = |change: fn(&mut Saved)| resumed(&y, &saved, change);
        assert_eq!(resumed(|_| ()), None);
        let question = |bytes| ResumeError::Question {
            bytes,
            finished: false,
        };
        assert_eq!(resumed(|saved| saved.question.clear()), Some(question(0)));
        assert_eq!(
            resumed(|saved| saved.question = vec![0; 9]),
            Some(question(9))
        );
        assert_eq!(
            resumed(|saved| _ = saved.string.pop()),
            Some(ResumeError::StringTooShort {
                bytes: string - 1,
                needed: string
            })
        );
        assert_eq!(
            resumed(|saved| _ = saved.sheet.pop()),
            Some(ResumeError::SheetTooShort {
                bytes: sheet - 1,
                needed: sheet
            })
        );
        // The library finds an unsound state and another copy.
        assert_eq!(
            resumed(|saved| set_field(&mut saved.state, PHASE, 9)),
            Some(ResumeError::Refused(Refusal::OutOfTurn))
        );
        assert_eq!(
            resumed(|saved| set_field(&mut saved.state, STAGE, 8)),
            Some(ResumeError::Refused(Refusal::OutOfTurn))
        );
        assert_eq!(
            resumed(|saved| set_field(&mut saved.state, M, 0)),
            Some(ResumeError::Refused(Refusal::OutOfTurn))
        );
        let other = Rebuilder::resume("1010".parse().unwrap(), saved.clone());
        assert_eq!(other.err(), Some(ResumeError::Refused(Refusal::BadString)));
        let answer = holder.answer(rebuilder.question().unwrap()).unwrap();
        rebuilder.take(&answer).unwrap();
    }
    assert!(rebuilder.finished());
}

#[test]
fn messages_of_resume_errors() {
    let messages = [
        (
            ResumeError::Refused(Refusal::OutOfTurn),
            "the saved state is turned down with this copy: \
             refusal 3: the call is out of turn or the state is unsound",
        ),
        (
            ResumeError::Question {
                bytes: 9,
                finished: false,
            },
            "the saved question has 9 bytes, a question that waits has 1 to 8",
        ),
        (
            ResumeError::Question {
                bytes: 3,
                finished: true,
            },
            "the saved question has 3 bytes, but the run is finished",
        ),
        (
            ResumeError::StringTooShort {
                bytes: 1,
                needed: 2,
            },
            "the saved string has 1 bytes, the run needs 2",
        ),
        (
            ResumeError::BadString,
            "the saved string breaks the string rule",
        ),
        (
            ResumeError::SheetTooShort {
                bytes: 11,
                needed: 12,
            },
            "the saved sheet has 11 bytes, the run needs 12",
        ),
        (
            ResumeError::BadRow { index: 4 },
            "row 4 of the saved sheet is none that a run writes",
        ),
    ];
    for (error, message) in messages {
        let error: &dyn std::error::Error = &error;
        assert_eq!(error.to_string(), message);
    }
}
