//! Settings, holder and rebuilder with their states and buffers.

use std::fmt;

use crate::layout::{
    field, HOLDER_ANSWERS, REBUILDER_ANSWERED, REBUILDER_COUNTED, REBUILDER_M, REBUILDER_N,
    REBUILDER_PHASE, REBUILDER_ROWS, REBUILDER_STAGE, REBUILDER_WAITING, ROW_HOW, ROW_LENGTH,
    ROW_START,
};
use crate::{
    sheet_rows, unpack, BitString, Ends, Library, Refusal, ResumeError, Saved, HOLDER_BYTES,
    MAX_BITS, QUESTION_BYTES, REBUILDER_BYTES, REPLY_BYTES, ROW_BYTES,
};

/// A rebuilder's settings. [`Rebuilder::start`] refuses values outside their limits.
#[derive(Clone, Copy, Debug, PartialEq, Eq, Hash)]
pub struct Settings {
    /// Bits of an anchor (m), 8 to 64.
    pub anchor: u32,
    /// Bits of a hash (h), 8 to 32.
    pub hash: u32,
    /// Window factor of the anchor search (k), 1 to 8.
    pub window: u32,
    /// Key of the hash, 1 to 2^32 - 1.
    pub key: u32,
    /// Answer bytes, the opening's not counted, above which the whole string is asked for;
    /// 0 to 16,384.
    pub ceiling: u32,
}

impl Settings {
    /// The house settings.
    pub const HOUSE: Settings = Settings {
        anchor: 16,
        hash: 16,
        window: 2,
        key: 1,
        ceiling: 4_096,
    };

    /// The house settings.
    pub const fn house() -> Settings {
        Settings::HOUSE
    }

    /// Whether every setting is within its limits.
    pub fn within_limits(&self) -> bool {
        (8..=64).contains(&self.anchor)
            && (8..=32).contains(&self.hash)
            && (1..=8).contains(&self.window)
            && self.key >= 1
            && self.ceiling <= 16_384
    }
}

impl Default for Settings {
    fn default() -> Settings {
        Settings::HOUSE
    }
}

/// The end that has the reference X.
#[derive(Clone, PartialEq, Eq)]
pub struct Holder {
    x: BitString,
    state: [u8; HOLDER_BYTES],
}

impl Holder {
    /// A holder of `x` that has answered nothing.
    pub fn new(x: BitString) -> Holder {
        let mut state = [0; HOLDER_BYTES];
        unpack(Library::holder_fresh(&mut state)).expect("the state has the layout's length");
        Holder { x, state }
    }

    /// A holder of `x` with a state kept earlier. An unsound state is found by the next call.
    pub fn with_state(x: BitString, state: [u8; HOLDER_BYTES]) -> Holder {
        Holder { x, state }
    }

    /// The answer to a question.
    pub fn answer(&mut self, question: &[u8]) -> Result<Vec<u8>, Refusal> {
        let mut reply = [0; REPLY_BYTES];
        let length = self.answer_into(question, &mut reply)?;
        Ok(reply[..length].to_vec())
    }

    /// The same into a lent buffer: the answer's length. Bytes behind it stay.
    pub fn answer_into(&mut self, question: &[u8], reply: &mut [u8]) -> Result<usize, Refusal> {
        let packed = Library::holder_answer(
            &mut self.state,
            self.x.as_bytes(),
            self.x.bits(),
            question,
            reply,
        );
        unpack(packed).map(|length| length as usize)
    }

    /// The answers given, the opening's among them.
    pub fn answers(&self) -> u32 {
        field(&self.state, HOLDER_ANSWERS)
    }

    /// The reference.
    pub fn reference(&self) -> &BitString {
        &self.x
    }

    /// The state's bytes, to be kept.
    pub fn state(&self) -> &[u8; HOLDER_BYTES] {
        &self.state
    }
}

impl fmt::Debug for Holder {
    fn fmt(&self, f: &mut fmt::Formatter<'_>) -> fmt::Result {
        f.debug_struct("Holder")
            .field("bits", &self.x.bits())
            .field("answers", &self.answers())
            .finish_non_exhaustive()
    }
}

/// The end that has the copy Y and rebuilds X.
#[derive(Clone, PartialEq, Eq)]
pub struct Rebuilder {
    y: BitString,
    state: [u8; REBUILDER_BYTES],
    string: Vec<u8>,
    sheet: Vec<u8>,
    /// The waiting question, zeros behind it.
    question: [u8; QUESTION_BYTES],
    /// Its length, 0 when finished.
    question_length: usize,
}

impl Rebuilder {
    /// A rebuilder of `y` whose first question waits. Refusal 1 for settings outside their limits.
    pub fn start(settings: Settings, y: BitString) -> Result<Rebuilder, Refusal> {
        let mut state = [0; REBUILDER_BYTES];
        let mut question = [0; QUESTION_BYTES];
        let length = unpack(Library::rebuilder_start(
            settings.anchor,
            settings.hash,
            settings.window,
            settings.key,
            settings.ceiling,
            y.as_bytes(),
            y.bits(),
            &mut state,
            &mut question,
        ))?;
        // X's bit count is not known yet: room for the longest.
        let rows = sheet_rows(MAX_BITS, settings.anchor as usize);
        Ok(Rebuilder {
            y,
            state,
            string: vec![0; MAX_BITS / 8],
            sheet: vec![0; ROW_BYTES * rows],
            question,
            question_length: length as usize,
        })
    }

    /// What has to be kept to go on with the run later.
    ///
    /// ```
    /// use lunetteorris::{BitString, Holder, Rebuilder, Settings};
    ///
    /// let y: BitString = "1011".parse()?;
    /// let mut holder = Holder::new("10110".parse()?);
    /// let mut rebuilder = Rebuilder::start(Settings::house(), y.clone())?;
    /// rebuilder.take(&holder.answer(rebuilder.question().unwrap())?)?;
    ///
    /// let saved = rebuilder.save(); // kept over a restart of the host
    /// let mut rebuilder = Rebuilder::resume(y, saved)?;
    /// rebuilder.take(&holder.answer(rebuilder.question().unwrap())?)?;
    /// assert_eq!(rebuilder.string().to_string(), "10110");
    /// # Ok::<(), Box<dyn std::error::Error>>(())
    /// ```
    pub fn save(&self) -> Saved {
        Saved {
            state: self.state,
            string: self.string.clone(),
            sheet: self.sheet.clone(),
            question: self.question[..self.question_length].to_vec(),
        }
    }

    /// Goes on with a saved run of `y`. The library is asked whether it goes on from this state with
    /// this copy; string, sheet and question are held to what the state needs. An error says that
    /// `saved` is damaged or belongs to another run. Damage to the bytes of the question, to settled
    /// bits, or to the counts of a finished state is not seen: a host that fears it keeps a checksum.
    pub fn resume(y: BitString, saved: Saved) -> Result<Rebuilder, ResumeError> {
        let Saved {
            mut state,
            string,
            sheet,
            question: waiting,
        } = saved;
        // A finished state has stage 0; a number that no stage has gets 3 whatever Y's bit count is.
        let finished = field(&state, REBUILDER_PHASE) == 1
            && field(&state, REBUILDER_STAGE) == 0
            && field(&state, REBUILDER_WAITING) == 0;
        let mut question = [0; QUESTION_BYTES];
        // An empty message ends inside its kind. A refusal before that one is the state's or Y's; a
        // finished state is out of turn.
        match unpack(Library::rebuilder_call(
            &mut state,
            y.as_bytes(),
            y.bits(),
            &mut [],
            &mut [],
            &[],
            &mut question,
        )) {
            Err(Refusal::Truncated) => {}
            Err(Refusal::OutOfTurn) if finished => {}
            Err(refusal) => return Err(ResumeError::Refused(refusal)),
            Ok(_) => unreachable!("an empty message is refused"),
        }
        let bytes = waiting.len();
        if finished != waiting.is_empty() || bytes > QUESTION_BYTES {
            return Err(ResumeError::Question { bytes, finished });
        }
        question[..bytes].copy_from_slice(&waiting);
        check_string(&state, &string)?;
        check_sheet(&state, &sheet, finished)?;
        Ok(Rebuilder {
            y,
            state,
            string,
            sheet,
            question,
            question_length: bytes,
        })
    }

    /// The question that waits for its answer; `None` when finished.
    pub fn question(&self) -> Option<&[u8]> {
        (self.question_length > 0).then(|| &self.question[..self.question_length])
    }

    /// Takes the answer to the waiting question. A refused answer changes nothing: the same
    /// question still waits.
    pub fn take(&mut self, answer: &[u8]) -> Result<(), Refusal> {
        let opening = self.answered() == 0;
        let mut question = [0; QUESTION_BYTES];
        let length = unpack(Library::rebuilder_call(
            &mut self.state,
            self.y.as_bytes(),
            self.y.bits(),
            &mut self.string,
            &mut self.sheet,
            answer,
            &mut question,
        ))?;
        self.question = question;
        self.question_length = length as usize;
        if opening {
            let n = self.bits();
            let m = field(&self.state, REBUILDER_M) as usize;
            self.string.truncate(n.div_ceil(8));
            self.string.shrink_to_fit();
            self.sheet.truncate(ROW_BYTES * sheet_rows(n, m));
            self.sheet.shrink_to_fit();
        }
        Ok(())
    }

    /// Whether the string is complete.
    pub fn finished(&self) -> bool {
        self.question_length == 0
    }

    /// X's bit count, 0 before the opening's answer.
    fn bits(&self) -> usize {
        field(&self.state, REBUILDER_N) as usize
    }

    /// The string as far as it is rebuilt: unsettled bits are zero. Before the opening's answer
    /// it is empty.
    pub fn string(&self) -> BitString {
        let bits = self.bits();
        BitString::from_bytes(self.string[..bits.div_ceil(8)].to_vec(), bits)
            .expect("the library keeps the string rule")
    }

    /// The sheet's rows, in order of settling.
    pub fn sheet(&self) -> Sheet<'_> {
        let rows = field(&self.state, REBUILDER_ROWS) as usize;
        Sheet {
            bytes: &self.sheet[..ROW_BYTES * rows],
        }
    }

    /// The questions answered, the opening among them.
    pub fn answered(&self) -> u32 {
        field(&self.state, REBUILDER_ANSWERED)
    }

    /// The answers' bytes, the opening's not counted.
    pub fn counted(&self) -> u32 {
        field(&self.state, REBUILDER_COUNTED)
    }

    /// The copy.
    pub fn copy(&self) -> &BitString {
        &self.y
    }

    /// The state's bytes.
    pub fn state(&self) -> &[u8; REBUILDER_BYTES] {
        &self.state
    }
}

/// The bit count of X that string and sheet are made for: before the opening's answer the largest.
fn bits_to_hold(state: &[u8]) -> usize {
    match field(state, REBUILDER_PHASE) {
        0 => MAX_BITS,
        _ => field(state, REBUILDER_N) as usize,
    }
}

/// Holds a saved string to the state.
fn check_string(state: &[u8], string: &[u8]) -> Result<(), ResumeError> {
    let (bytes, needed) = (string.len(), bits_to_hold(state).div_ceil(8));
    if bytes < needed {
        return Err(ResumeError::StringTooShort { bytes, needed });
    }
    let n = field(state, REBUILDER_N) as usize;
    match BitString::from_bytes(string[..n.div_ceil(8)].to_vec(), n) {
        Ok(_) => Ok(()),
        Err(_) => Err(ResumeError::BadString),
    }
}

/// Holds a saved sheet to the state. A finished run needs its used rows only; its state gets 3
/// whether it is sound or not, so that m may be anything.
fn check_sheet(state: &[u8], sheet: &[u8], finished: bool) -> Result<(), ResumeError> {
    let n = field(state, REBUILDER_N);
    let used = field(state, REBUILDER_ROWS) as usize;
    let rows = if finished {
        used
    } else {
        sheet_rows(bits_to_hold(state), field(state, REBUILDER_M) as usize)
    };
    let (bytes, needed) = (sheet.len(), rows.saturating_mul(ROW_BYTES));
    if bytes < needed {
        return Err(ResumeError::SheetTooShort { bytes, needed });
    }
    for (index, row) in sheet.chunks_exact(ROW_BYTES).take(used).enumerate() {
        let (start, length) = (field(row, ROW_START), field(row, ROW_LENGTH));
        let in_x = length > 0 && start.checked_add(length).is_some_and(|end| end <= n);
        if !in_x || How::from_number(field(row, ROW_HOW)).is_none() {
            return Err(ResumeError::BadRow { index });
        }
    }
    Ok(())
}

impl fmt::Debug for Rebuilder {
    fn fmt(&self, f: &mut fmt::Formatter<'_>) -> fmt::Result {
        f.debug_struct("Rebuilder")
            .field("bits", &self.bits())
            .field("answered", &self.answered())
            .field("counted", &self.counted())
            .field("question", &self.question())
            .finish_non_exhaustive()
    }
}

/// How a range of X was settled.
#[derive(Clone, Copy, Debug, PartialEq, Eq, Hash)]
#[repr(u32)]
pub enum How {
    /// 1: the copy's hash agreed.
    Hash = 1,
    /// 2: a bit was put in.
    PutIn = 2,
    /// 3: a bit was taken out.
    TakeOut = 3,
    /// 4: a placed anchor.
    Anchor = 4,
    /// 5: the bits were asked for.
    Bits = 5,
    /// 6: a bit was put in or taken out in each column.
    Burst = 6,
}

impl How {
    /// All of them, in the order of their numbers.
    pub const ALL: [How; 6] = [
        How::Hash,
        How::PutIn,
        How::TakeOut,
        How::Anchor,
        How::Bits,
        How::Burst,
    ];

    /// Its number, 1 to 6.
    pub const fn number(self) -> u32 {
        self as u32
    }

    fn from_number(number: u32) -> Option<How> {
        How::ALL.into_iter().find(|how| how.number() == number)
    }
}

/// A row of the sheet: a range of X and how it was settled.
#[derive(Clone, Copy, Debug, PartialEq, Eq, Hash)]
pub struct Row {
    /// First bit, from 0.
    pub start: u32,
    /// Number of bits.
    pub length: u32,
    /// How it was settled.
    pub how: How,
}

/// An iterator over the sheet's rows, in order of settling.
#[derive(Clone, Debug)]
pub struct Sheet<'a> {
    bytes: &'a [u8],
}

impl Iterator for Sheet<'_> {
    type Item = Row;

    fn next(&mut self) -> Option<Row> {
        if self.bytes.is_empty() {
            return None;
        }
        let (row, rest) = self.bytes.split_at(ROW_BYTES);
        self.bytes = rest;
        Some(Row {
            start: field(row, ROW_START),
            length: field(row, ROW_LENGTH),
            how: How::from_number(field(row, ROW_HOW)).expect("a used row has a how of 1 to 6"),
        })
    }

    fn size_hint(&self) -> (usize, Option<usize>) {
        let rows = self.bytes.len() / ROW_BYTES;
        (rows, Some(rows))
    }
}

impl ExactSizeIterator for Sheet<'_> {}
