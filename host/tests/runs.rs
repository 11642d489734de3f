//! Whole honest runs on library and model. After every call result, state, string, sheet, reply
//! and question are compared byte for byte; each run is held to what 01 and 02 say of it.

mod common;

use common::*;
use lunetteorris::model::Model;
use lunetteorris::{sheet_rows, unpack, Ends, Refusal, MAX_BITS};

fn syndrome(bits: &[bool]) -> u64 {
    let s = packed(bits);
    unpack(Model::syndrome(s.as_bytes(), s.bits())).unwrap()
}

fn hash(bits: &[bool], settings: Numbers) -> u64 {
    let s = packed(bits);
    unpack(Model::hash(
        s.as_bytes(),
        s.bits(),
        settings.h,
        settings.key,
    ))
    .unwrap()
}

/// Whether deleting one bit of `long` gives `short`.
fn deletes_to(long: &[bool], short: &[bool]) -> bool {
    let same = long.iter().zip(short).take_while(|(a, b)| a == b).count();
    long.len() == short.len() + 1 && long[same + 1..] == short[same..]
}

/// Whether deleting one run of bits of `long` gives `short`.
fn loses_run_to(long: &[bool], short: &[bool]) -> bool {
    let Some(b) = long.len().checked_sub(short.len()) else {
        return false;
    };
    let same = long.iter().zip(short).take_while(|(a, b)| a == b).count();
    long[same + b..] == short[same..]
}

/// Totals over many runs, to see that the inputs reach every case.
#[derive(Debug, Default)]
struct Tally {
    runs: usize,
    calls: usize,
    rows: [usize; 7],
    whole: usize,
    most_waiting: usize,
    /// Questions asked of pieces, by stage.
    stages: [usize; 8],
    wrong_strings: usize,
    unsettled_hashes: usize,
    unsettled_syndromes: usize,
    unsettled_bursts: usize,
    exact_bursts: usize,
}

struct Run<'a> {
    x: &'a [bool],
    y: &'a [bool],
    settings: Numbers,
    holder: HolderSide,
    rebuilder: RebuilderSide,
}

impl Run<'_> {
    fn string(&self) -> Vec<bool> {
        unpacked(&self.rebuilder.string, self.x.len())
    }

    fn rows(&self) -> Vec<[usize; 3]> {
        rows(&self.rebuilder.state, &self.rebuilder.sheet)
    }

    fn state(&self, at: usize) -> usize {
        field(&self.rebuilder.state, at)
    }

    /// Before the call: a piece whose copy is equal, or lost or gained one bit or one run of B bits,
    /// is settled by the answer on its hash or syndromes, with X's own bits.
    fn exact(&self) -> Option<[usize; 3]> {
        let [x, p, y, q] = leftmost(&self.rebuilder.state)?;
        if self.state(PHASE) != 1 || !tries(self.state(STAGE)) {
            return None;
        }
        let (original, copy) = (&self.x[x..x + p], &self.y[y..y + q]);
        if self.state(STAGE) == 7 {
            let one_run = loses_run_to(original, copy) || loses_run_to(copy, original);
            one_run.then_some([x, p, 6])
        } else if original == copy {
            Some([x, p, 1])
        } else if deletes_to(original, copy) {
            Some([x, p, 2])
        } else if deletes_to(copy, original) {
            Some([x, p, 3])
        } else {
            None
        }
    }

    /// After each taken answer: bounds, and rows that stand for what the string holds.
    fn check_bounds(&self, answers: usize, answer_bytes: usize) {
        let (n, m) = (self.x.len(), self.settings.m as usize);
        let whole = 1 + n.div_ceil(8);
        assert_eq!(self.state(ANSWERED), answers);
        assert_eq!(self.state(COUNTED), answer_bytes);
        assert_eq!(field(&self.holder.state, HOLDER_ANSWERS), answers);
        assert!(answers <= 9 * (n / m) + 6);
        assert!(answer_bytes <= self.settings.ceiling as usize + whole + whole.max(102));
        assert!(self.state(ROWS) <= sheet_rows(n, m));
        assert!(self.state(WAITING) <= 32);
        // Past the ceiling nothing but the whole string is asked for.
        if answer_bytes > self.settings.ceiling as usize && self.state(WAITING) > 0 {
            assert_eq!(self.state(PHASE), 2);
        }
    }

    /// At the end: rows cover X once; what a row settled has X's bits, or X's length and hash (and
    /// syndrome; a burst's B is not in its row).
    fn check_end(&self, tally: &mut Tally) {
        let string = self.string();
        let mut rows = self.rows();
        rows.sort();
        let mut end = 0;
        for &[start, length, how] in &rows {
            assert_eq!(start, end, "rows cover X without a gap");
            assert!(length > 0);
            end += length;
            tally.rows[how] += 1;
            let (got, want) = (&string[start..end], &self.x[start..end]);
            if how == 4 || how == 5 {
                assert_eq!(got, want);
            } else if got != want {
                assert_eq!(hash(got, self.settings), hash(want, self.settings));
                assert!(how == 1 || how == 6 || syndrome(got) == syndrome(want));
            }
        }
        assert_eq!(end, self.x.len(), "rows cover X");
        tally.wrong_strings += (string != self.x) as usize;
    }
}

/// Whether a stage's answer is tried on the copy.
fn tries(stage: usize) -> bool {
    stage <= 2 || stage == 7
}

fn run(random: &mut Random, x: &[bool], y: &[bool], settings: Numbers, tally: &mut Tally) {
    let (n, y_bits) = (x.len(), y.len());
    let (x_packed, y_packed) = (packed(x), packed(y));
    let reply_bytes = reply_bytes(n) + random.below(3);
    let holder = fresh_holder(random, reply_bytes);
    let (rebuilder, mut length) = started(random, settings, y_packed.as_bytes(), y_bits, n);
    let mut run = Run {
        x,
        y,
        settings,
        holder,
        rebuilder,
    };
    let (mut answers, mut answer_bytes) = (0, 0);
    while length > 0 {
        let question = run.rebuilder.question[..length].to_vec();
        let replied = holder_call(&mut run.holder, x_packed.as_bytes(), n, &question);
        let replied = replied.expect("a holder answers the waiting question");
        let answer = run.holder.reply[..replied].to_vec();
        let exact = run.exact();
        let before = run.rebuilder.state.clone();
        let next = rebuilder_call(&mut run.rebuilder, y_packed.as_bytes(), y_bits, &answer);
        length = next.expect("an honest answer is taken");
        answers += 1;
        answer_bytes += if answers > 1 { answer.len() } else { 0 };
        run.check_bounds(answers, answer_bytes);
        if let Some([start, bits, how]) = exact {
            assert_eq!(run.rows().last(), Some(&[start, bits, how]));
            assert_eq!(run.string()[start..start + bits], x[start..start + bits]);
            tally.exact_bursts += (how == 6) as usize;
        } else if field(&before, PHASE) == 1 && tries(field(&before, STAGE)) {
            let unsettled = run.state(ROWS) == field(&before, ROWS);
            tally.unsettled_hashes += (unsettled && question[0] == 1) as usize;
            tally.unsettled_syndromes += (unsettled && question[0] == 2) as usize;
            tally.unsettled_bursts += (unsettled && question[0] == 4) as usize;
            // Step 4 follows, never a burst question for this piece again.
            if unsettled && run.state(PHASE) == 1 {
                assert!((3..=6).contains(&run.state(STAGE)));
            }
        }
        tally.calls += 2;
        tally.whole += (field(&before, PHASE) == 2) as usize;
        tally.most_waiting = tally.most_waiting.max(run.state(WAITING));
        assert_eq!(
            decoded(&run.rebuilder.question[..length]),
            asked(&run.rebuilder.state)
        );
        if run.state(PHASE) == 1 && length > 0 {
            tally.stages[run.state(STAGE)] += 1;
        }
    }
    run.check_end(tally);
    assert_eq!(run.state(STAGE), 0, "no piece waits");
    let again = rebuilder_call(&mut run.rebuilder, y_packed.as_bytes(), y_bits, &[0, 0]);
    assert_eq!(again, Err(Refusal::OutOfTurn), "finished");
    tally.runs += 1;
}

#[test]
fn up_to_3000_bits() {
    let random = &mut Random::new(10);
    let mut tally = Tally::default();
    for _ in 0..10 {
        for kind in REFERENCES {
            for change in CHANGES {
                for _ in 0..5 {
                    let longest = random.pick(&[3, 70, 500, 3_000, 3_000]);
                    let n = random.between(0, longest);
                    let x = reference(random, kind, n);
                    let y = copy_of(random, &x, change, MAX_BITS);
                    let settings = settings(random);
                    run(random, &x, &y, settings, &mut tally);
                }
            }
        }
    }
    println!("{tally:?}");
    assert!(tally.runs >= 2_000);
    assert!(tally.rows[1..].iter().all(|&rows| rows > 100));
    assert!(tally.whole > 100);
    assert!(tally.stages.iter().all(|&asked| asked > 100));
    assert!(tally.unsettled_hashes > 100 && tally.unsettled_syndromes > 100);
    assert!(tally.unsettled_bursts > 100 && tally.exact_bursts > 100);
    assert!(
        tally.wrong_strings > 0,
        "hashes of 8 bits collide now and then"
    );
}

#[test]
fn each_settings_limit() {
    let random = &mut Random::new(11);
    let mut tally = Tally::default();
    for m in [8, 64] {
        for h in [8, 32] {
            for k in [1, 8] {
                for key in [1, u32::MAX] {
                    for ceiling in [0, 1, 8, 9, 100, 16_384] {
                        for change in [Change::None, Change::ManyEdits, Change::Mixed] {
                            let n = random.between(1_000, 3_000);
                            let x = random_bits(random, n);
                            let y = copy_of(random, &x, change, MAX_BITS);
                            let settings = Numbers {
                                m,
                                h,
                                k,
                                key,
                                ceiling,
                            };
                            run(random, &x, &y, settings, &mut tally);
                        }
                    }
                }
            }
        }
    }
    println!("{tally:?}");
}

#[test]
fn full_length() {
    let random = &mut Random::new(12);
    let mut tally = Tally::default();
    for kind in REFERENCES {
        for change in CHANGES {
            let x = reference(random, kind, MAX_BITS);
            let y = copy_of(random, &x, change, MAX_BITS);
            let settings = random.pick(&[
                HOUSE,
                Numbers {
                    m: 8,
                    h: 8,
                    k: 1,
                    key: 7,
                    ceiling: 16_384,
                },
                Numbers {
                    m: 64,
                    h: 32,
                    k: 8,
                    key: u32::MAX,
                    ceiling: 16_384,
                },
                Numbers {
                    m: 8,
                    h: 32,
                    k: 8,
                    key: 2_463_534_242,
                    ceiling: 2_000,
                },
            ]);
            run(random, &x, &y, settings, &mut tally);
        }
    }
    for ceiling in [0, 100, 4_096, 16_384] {
        let x = random_bits(random, MAX_BITS);
        let mut y = x.clone();
        for _ in 0..2_000 {
            y.remove(random.below(y.len()));
        }
        let settings = Numbers {
            m: 8,
            h: 8,
            k: 8,
            key: 1,
            ceiling,
        };
        run(random, &x, &y, settings, &mut tally);
    }
    println!("{tally:?}");
    assert!(tally.most_waiting >= 10);
}

/// One run of B bits lost or gained comes out exact with one question, whatever X is; answers of up
/// to 70 bytes.
#[test]
fn single_bursts() {
    let random = &mut Random::new(14);
    let mut tally = Tally::default();
    for kind in REFERENCES {
        for b in 2..=34 {
            for n in [b, b + 1, 2 * b + 5, 1_000, MAX_BITS] {
                let x = reference(random, kind, n);
                let mut y = x.clone();
                let at = random.below(n - b + 1);
                // The longest string can't gain.
                if n < MAX_BITS && random.bit() {
                    y.splice(at..at, random_bits(random, b));
                } else {
                    y.drain(at..at + b);
                }
                let settings = Numbers {
                    ceiling: 16_384,
                    ..settings(random)
                };
                let before = tally.rows[6];
                run(random, &x, &y, settings, &mut tally);
                if b <= 32 {
                    assert_eq!(tally.rows[6], before + 1, "{kind:?}, {b} of {n} bits");
                }
            }
        }
    }
    println!("{tally:?}");
    assert!(tally.exact_bursts >= 5 * 31 * 5);
}

/// Lengths around each power of two and each byte border.
#[test]
fn short_lengths() {
    let random = &mut Random::new(13);
    let mut tally = Tally::default();
    for n in 0..=140 {
        for change in CHANGES {
            let x = random_bits(random, n);
            let y = copy_of(random, &x, change, MAX_BITS);
            let settings = Numbers {
                ceiling: 16_384,
                ..settings(random)
            };
            run(random, &x, &y, settings, &mut tally);
        }
    }
    println!("{tally:?}");
}
