//! The synchroniser written a second time, in Rust: from the text of document 01 and of 02's CR 1,
//! CR 12 and CR 13, with the state's layout and soundness as docs/ gives them, and from nothing of
//! the library's source. The tests compare the two byte for byte; the benchmark takes it as the
//! baseline.
//!
//! Sections in 01's order: strings, codes and hash, messages, holder, rebuilder; then markers. Each
//! call checks everything that can turn it down before it writes.

use crate::{
    pack, sheet_rows, Ends, Refusal, HOLDER_BYTES, MAX_BITS, MAX_LIST_BITS, MAX_MARKER_BITS,
    QUESTION_BYTES, REBUILDER_BYTES, ROW_BYTES,
};

/// The most answers that a holder gives.
pub const MAX_ANSWERS: usize = 1_000_000;
/// The most pieces that wait.
pub const MAX_WAITING: usize = 32;
/// The fewest columns of a burst question.
pub const MIN_COLUMNS: usize = 2;
/// The most columns of a burst question.
pub const MAX_COLUMNS: usize = 32;
/// Bytes that are enough for an answer other than bits: a kind, 32 syndromes, a hash.
pub const NUMBERS_BYTES: usize = 102;

// Strings

/// The string rule.
pub fn legal(bytes: &[u8], bits: usize) -> bool {
    bits <= MAX_BITS
        && bytes.len() == bits.div_ceil(8)
        && (bits % 8 == 0 || bytes[bits / 8] << (bits % 8) == 0)
}

/// A range of bits in packed bytes.
#[derive(Clone, Copy)]
struct Bits<'a> {
    bytes: &'a [u8],
    start: usize,
    len: usize,
}

impl<'a> Bits<'a> {
    fn whole(bytes: &'a [u8], len: usize) -> Bits<'a> {
        Bits {
            bytes,
            start: 0,
            len,
        }
    }

    fn range(self, start: usize, len: usize) -> Bits<'a> {
        Bits {
            bytes: self.bytes,
            start: self.start + start,
            len,
        }
    }

    #[inline]
    fn get(self, i: usize) -> bool {
        let at = self.start + i;
        self.bytes[at / 8] >> (7 - at % 8) & 1 == 1
    }

    /// Every B-th bit from the one at place j on.
    fn column(self, j: usize, b: usize) -> Column<'a> {
        Column { bits: self, j, b }
    }

    /// The eight bits from place i on.
    #[inline]
    fn byte(self, i: usize) -> u8 {
        let at = self.start + i;
        match at % 8 {
            0 => self.bytes[at / 8],
            shift => self.bytes[at / 8] << shift | self.bytes[at / 8 + 1] >> (8 - shift),
        }
    }
}

/// Column j, from 0, of B columns of a range.
#[derive(Clone, Copy)]
struct Column<'a> {
    bits: Bits<'a>,
    j: usize,
    b: usize,
}

/// Bits of column j, from 0, of B columns of n bits.
fn column_length(n: usize, b: usize, j: usize) -> usize {
    (n + b - 1 - j) / b
}

/// Bits that are read one by one.
trait Source: Copy {
    fn len(self) -> usize;
    fn bit(self, i: usize) -> bool;
}

impl Source for Bits<'_> {
    #[inline]
    fn len(self) -> usize {
        self.len
    }

    #[inline]
    fn bit(self, i: usize) -> bool {
        self.get(i)
    }
}

impl Source for Column<'_> {
    #[inline]
    fn len(self) -> usize {
        column_length(self.bits.len, self.b, self.j)
    }

    #[inline]
    fn bit(self, i: usize) -> bool {
        self.bits.get(self.j + i * self.b)
    }
}

#[inline]
fn write_bit(to: &mut [u8], at: usize, bit: bool) {
    let place = 7 - at % 8;
    to[at / 8] = to[at / 8] & !(1 << place) | (bit as u8) << place;
}

/// Writes the bits from place `at` on; every other bit stays. Whole bytes go as such.
fn write_bits(to: &mut [u8], at: usize, from: Bits) {
    let head = from.len.min((8 - at % 8) % 8);
    let tail = head + (from.len - head) / 8 * 8;
    for i in 0..head {
        write_bit(to, at + i, from.get(i));
    }
    for i in (head..tail).step_by(8) {
        to[(at + i) / 8] = from.byte(i);
    }
    for i in tail..from.len {
        write_bit(to, at + i, from.get(i));
    }
}

// Codes and hash

/// The sum of i * b_i, i from 1.
fn weighted_sum(b: impl Source) -> usize {
    (0..b.len()).map(|i| if b.bit(i) { i + 1 } else { 0 }).sum()
}

fn ones(b: impl Source) -> usize {
    (0..b.len()).filter(|&i| b.bit(i)).count()
}

/// The least place with exactly `count` bits of the value `bit` before it.
fn place_after(b: impl Source, bit: bool, count: usize) -> usize {
    let mut left = count;
    let mut i = 0;
    while left > 0 {
        left -= (b.bit(i) == bit) as usize;
        i += 1;
    }
    i
}

fn syndrome(b: impl Source) -> usize {
    weighted_sum(b) % (b.len() + 1)
}

/// The n-bit strings of syndrome `a` as numbers, rising: each number below 2^n is tried. Bit i,
/// from 1, is the digit of 2^(n - i).
fn list(n: usize, a: usize) -> Vec<u32> {
    let has_syndrome = |number: &u32| {
        let sum: usize = (1..=n).filter(|i| number >> (n - i) & 1 == 1).sum();
        sum % (n + 1) == a
    };
    (0..1 << n).filter(has_syndrome).collect()
}

/// One bit put in before a place, or the bit at a place taken out.
#[derive(Clone, Copy)]
enum Edit {
    PutIn(usize, bool),
    TakeOut(usize),
}

/// The edit to one bit more with syndrome `a`.
///
/// A 0 put in moves each 1 to its right up by one; a 1 put in adds its own place as well. With w
/// ones in all, a 0 with r ones to its right raises the sum by r, 0 to w, and a 1 with l zeros to
/// its left by w + 1 + l: each raise from 0 to n, once.
fn put_in(b: impl Source, a: usize) -> Edit {
    let modulus = b.len() + 2;
    let w = ones(b);
    let raise = (a + modulus - weighted_sum(b) % modulus) % modulus;
    if raise <= w {
        Edit::PutIn(place_after(b, true, w - raise), false)
    } else {
        Edit::PutIn(place_after(b, false, raise - w - 1), true)
    }
}

/// The edit to one bit less with syndrome `a`, if there is one.
///
/// A 0 with r ones to its right lowers the sum by r, a 1 with l zeros to its left by w + l.
/// Modulo n + 1 only 0 and n + 1 are the same; either is the last bit's. A fall of w is the first
/// bit's.
fn take_out(b: impl Source, a: usize) -> Option<Edit> {
    let modulus = b.len();
    let w = ones(b);
    let fall = (weighted_sum(b) + modulus - a) % modulus;
    if fall == 0 {
        return Some(Edit::TakeOut(b.len() - 1));
    }
    if fall == w {
        return Some(Edit::TakeOut(0));
    }
    let bit = fall > w;
    let place = if bit {
        place_after(b, false, fall - w)
    } else {
        place_after(b, true, w - fall)
    };
    (b.bit(place) == bit).then_some(Edit::TakeOut(place))
}

/// The edit to `n` bits, one more or one less, with syndrome `a`.
fn repair(b: impl Source, n: usize, a: usize) -> Option<Edit> {
    if b.len() < n {
        Some(put_in(b, a))
    } else {
        take_out(b, a)
    }
}

/// Writes the edited bits from place `at` on.
fn write_edited(to: &mut [u8], at: usize, b: Bits, edit: Edit) {
    match edit {
        Edit::PutIn(place, bit) => {
            write_bits(to, at, b.range(0, place));
            write_bit(to, at + place, bit);
            write_bits(to, at + place + 1, b.range(place, b.len - place));
        }
        Edit::TakeOut(place) => {
            write_bits(to, at, b.range(0, place));
            write_bits(to, at + place, b.range(place + 1, b.len - place - 1));
        }
    }
}

/// Bit i of the edited bits.
fn edited_bit(b: impl Source, edit: Edit, i: usize) -> bool {
    match edit {
        Edit::PutIn(place, bit) if i == place => bit,
        Edit::PutIn(place, _) => b.bit(i - (i > place) as usize),
        Edit::TakeOut(place) => b.bit(i + (i >= place) as usize),
    }
}

/// Writes to the first n bits what comes from `b` by one bit put in or taken out in each column, to
/// these syndromes; false, with some of them written, if a column has no such take-out.
fn repair_columns(to: &mut [u8], n: usize, b: Bits, syndromes: &[usize]) -> bool {
    let columns = syndromes.len();
    for (j, &a) in syndromes.iter().enumerate() {
        let column = b.column(j, columns);
        let length = column_length(n, columns, j);
        let Some(edit) = repair(column, length, a) else {
            return false;
        };
        for i in 0..length {
            write_bit(to, j + i * columns, edited_bit(column, edit, i));
        }
    }
    true
}

/// A hash while its bits come in.
struct Hash {
    row: u32,
    sum: u32,
}

impl Hash {
    fn new(key: u32) -> Hash {
        Hash { row: key, sum: 0 }
    }

    #[inline]
    fn bit(&mut self, bit: bool) {
        let mut v = self.row;
        v ^= v << 13;
        v ^= v >> 17;
        v ^= v << 5;
        self.row = v;
        // No branch: the bits of a string are hard to foretell.
        self.sum ^= v & (bit as u32).wrapping_neg();
    }

    fn bits(&mut self, b: Bits) {
        for i in 0..b.len {
            self.bit(b.get(i));
        }
    }

    fn value(self, h: u32) -> u32 {
        self.sum & (u32::MAX >> (32 - h))
    }
}

fn hash(b: Bits, h: u32, key: u32) -> u32 {
    let mut hash = Hash::new(key);
    hash.bits(b);
    hash.value(h)
}

fn hash_edited(b: Bits, edit: Edit, h: u32, key: u32) -> u32 {
    let mut hash = Hash::new(key);
    match edit {
        Edit::PutIn(place, bit) => {
            hash.bits(b.range(0, place));
            hash.bit(bit);
            hash.bits(b.range(place, b.len - place));
        }
        Edit::TakeOut(place) => {
            hash.bits(b.range(0, place));
            hash.bits(b.range(place + 1, b.len - place - 1));
        }
    }
    hash.value(h)
}

/// Where an anchor at offset `s` of a piece of `p` bits is placed in the piece's copy: outwards
/// from the window's middle, the smaller place first.
fn find_anchor(copy: Bits, p: usize, s: usize, k: usize, anchor: Bits) -> Option<usize> {
    let (q, m) = (copy.len, anchor.len);
    let last = q.checked_sub(m)? as i64;
    let middle = 2 * s as i64 + q as i64 - p as i64;
    let farthest = 2 * k as i64 * q.isqrt() as i64;
    let mut distance = middle & 1;
    while distance <= farthest {
        let (low, high) = ((middle - distance) / 2, (middle + distance) / 2);
        if (0..=last).contains(&low) && stands_at(copy, low as usize, anchor) {
            return Some(low as usize);
        }
        if (0..=last).contains(&high) && stands_at(copy, high as usize, anchor) {
            return Some(high as usize);
        }
        distance += 2;
    }
    None
}

/// Whether the anchor's bits stand in the copy at place r; ends at the first differing bit.
fn stands_at(copy: Bits, r: usize, anchor: Bits) -> bool {
    (0..anchor.len).all(|i| copy.get(r + i) == anchor.get(i))
}

// Messages

const OPEN: u32 = 0;
const HASH: u32 = 1;
const SYNDROME: u32 = 2;
const BITS: u32 = 3;
const BURST: u32 = 4;

/// A message read from left to right.
struct Reader<'a> {
    message: &'a [u8],
    at: usize,
}

impl<'a> Reader<'a> {
    fn new(message: &'a [u8]) -> Reader<'a> {
        Reader { message, at: 0 }
    }

    fn number(&mut self) -> Result<u32, Refusal> {
        let mut value = 0;
        for place in 0..5 {
            let byte = *self.message.get(self.at).ok_or(Refusal::Truncated)?;
            if place > 0 && byte == 0 || place == 4 && byte > 0x0f {
                return Err(Refusal::BadNumber);
            }
            self.at += 1;
            value |= (byte as u32 & 0x7f) << (7 * place);
            if byte < 0x80 {
                break;
            }
        }
        Ok(value)
    }

    /// The packed bytes of `len` bits.
    fn bits(&mut self, len: usize) -> Result<&'a [u8], Refusal> {
        let end = self.at + len.div_ceil(8);
        let bytes = self.message.get(self.at..end).ok_or(Refusal::Truncated)?;
        self.at = end;
        Ok(bytes)
    }

    fn end(self) -> Result<(), Refusal> {
        if self.at == self.message.len() {
            Ok(())
        } else {
            Err(Refusal::TrailingBytes)
        }
    }
}

/// Numbers written as a message.
struct Writer {
    bytes: [u8; NUMBERS_BYTES],
    len: usize,
}

impl Writer {
    fn new(numbers: &[u32]) -> Writer {
        let mut writer = Writer {
            bytes: [0; NUMBERS_BYTES],
            len: 0,
        };
        for &number in numbers {
            writer.number(number);
        }
        writer
    }

    fn number(&mut self, mut value: u32) {
        while value >= 0x80 {
            self.byte(value as u8 | 0x80);
            value >>= 7;
        }
        self.byte(value as u8);
    }

    fn byte(&mut self, byte: u8) {
        self.bytes[self.len] = byte;
        self.len += 1;
    }

    /// Copies the message to the buffer's start and gives its length.
    fn write_to(&self, buffer: &mut [u8]) -> Result<usize, Refusal> {
        let message = &self.bytes[..self.len];
        buffer
            .get_mut(..self.len)
            .ok_or(Refusal::BufferTooShort)?
            .copy_from_slice(message);
        Ok(self.len)
    }
}

// States as bytes: 32-bit numbers, little-endian, one after the other

/// The numbers in the first 4 * N bytes, if there are so many.
fn read_words<const N: usize>(bytes: &[u8]) -> Option<[u32; N]> {
    let bytes = bytes.get(..4 * N)?;
    let mut words = [0; N];
    for (word, bytes) in words.iter_mut().zip(bytes.chunks_exact(4)) {
        *word = u32::from_le_bytes(bytes.try_into().unwrap());
    }
    Some(words)
}

/// Writes the numbers to the first bytes; later bytes stay.
fn write_words(words: &[u32], bytes: &mut [u8]) {
    for (word, bytes) in words.iter().zip(bytes.chunks_exact_mut(4)) {
        bytes.copy_from_slice(&word.to_le_bytes());
    }
}

/// The one among these that has this number, from 0 on in their order.
fn numbered<T: Copy>(all: &[T], number: u32) -> Option<T> {
    all.get(number as usize).copied()
}

// The holder

/// A holder's state.
#[derive(Clone, Copy, Debug, PartialEq, Eq)]
struct HolderState {
    opened: bool,
    bits: usize,
    h: u32,
    key: u32,
    answers: usize,
}

impl HolderState {
    const FRESH: HolderState = HolderState {
        opened: false,
        bits: 0,
        h: 0,
        key: 0,
        answers: 0,
    };

    /// None for too few bytes, and for bytes that no state has.
    fn read(bytes: &[u8]) -> Option<HolderState> {
        let [opened, bits, h, key, answers] = read_words(bytes)?;
        Some(HolderState {
            opened: numbered(&[false, true], opened)?,
            bits: bits as usize,
            h,
            key,
            answers: answers as usize,
        })
    }

    fn write(&self, bytes: &mut [u8]) {
        let words = [
            self.opened as u32,
            self.bits as u32,
            self.h,
            self.key,
            self.answers as u32,
        ];
        write_words(&words, bytes);
    }

    fn sound(&self) -> bool {
        *self == HolderState::FRESH
            || self.opened
                && self.bits <= MAX_BITS
                && (8..=32).contains(&self.h)
                && self.key >= 1
                && (1..=MAX_ANSWERS).contains(&self.answers)
    }
}

/// Whether the first [`HOLDER_BYTES`] bytes are a sound state of a holder.
pub fn holder_sound(state: &[u8]) -> bool {
    HolderState::read(state).is_some_and(|state| state.sound())
}

fn holder_answer(
    state_bytes: &mut [u8],
    x: &[u8],
    bits: usize,
    message: &[u8],
    reply: &mut [u8],
) -> Result<usize, Refusal> {
    if !legal(x, bits) {
        return Err(Refusal::BadString);
    }
    let mut state = HolderState::read(state_bytes).ok_or(Refusal::OutOfTurn)?;
    if state.opened && state.bits != bits {
        return Err(Refusal::BadString);
    }
    if !state.sound() || state.answers == MAX_ANSWERS {
        return Err(Refusal::OutOfTurn);
    }
    let mut reader = Reader::new(message);
    let kind = reader.number()?;
    if kind > BURST {
        return Err(Refusal::BadKind);
    }
    if (kind == OPEN) == state.opened {
        return Err(Refusal::OutOfTurn);
    }
    let length = if kind == OPEN {
        let (version, h, key) = (reader.number()?, reader.number()?, reader.number()?);
        reader.end()?;
        if version != 1 || !(8..=32).contains(&h) || key == 0 {
            return Err(Refusal::OutOfRange);
        }
        state = HolderState {
            opened: true,
            bits,
            h,
            key,
            answers: 0,
        };
        Writer::new(&[OPEN, bits as u32]).write_to(reply)?
    } else {
        let (start, len) = (reader.number()? as usize, reader.number()? as usize);
        let columns = match kind {
            BURST => Some(reader.number()? as usize),
            _ => None,
        };
        reader.end()?;
        if columns.is_some_and(|b| !(MIN_COLUMNS..=MAX_COLUMNS).contains(&b)) {
            return Err(Refusal::BadBurst);
        }
        if len == 0 || start + len > bits {
            return Err(Refusal::OutOfRange);
        }
        let range = Bits::whole(x, bits).range(start, len);
        match columns {
            Some(b) => reply_on_columns(range, b, &state).write_to(reply)?,
            None => reply_on(range, kind, &state, reply)?,
        }
    };
    state.answers += 1;
    state.write(state_bytes);
    Ok(length)
}

/// The answer to a question on the B columns of a range of X.
fn reply_on_columns(range: Bits, b: usize, state: &HolderState) -> Writer {
    let mut writer = Writer::new(&[BURST]);
    for j in 0..b {
        writer.number(syndrome(range.column(j, b)) as u32);
    }
    writer.number(hash(range, state.h, state.key));
    writer
}

/// Writes the answer to another question on a range of X.
fn reply_on(
    range: Bits,
    kind: u32,
    state: &HolderState,
    reply: &mut [u8],
) -> Result<usize, Refusal> {
    match kind {
        HASH => Writer::new(&[HASH, hash(range, state.h, state.key)]).write_to(reply),
        SYNDROME => {
            let (a, hash) = (syndrome(range) as u32, hash(range, state.h, state.key));
            Writer::new(&[SYNDROME, a, hash]).write_to(reply)
        }
        _ => {
            let length = 1 + range.len.div_ceil(8);
            let reply = reply.get_mut(..length).ok_or(Refusal::BufferTooShort)?;
            reply[0] = BITS as u8;
            reply[length - 1] = 0;
            write_bits(&mut reply[1..], 0, range);
            Ok(length)
        }
    }
}

// The rebuilder

/// A range of X (p bits from x on) paired with one of Y (q bits from y on).
#[derive(Clone, Copy, Debug, Default, PartialEq, Eq)]
struct Piece {
    x: usize,
    p: usize,
    y: usize,
    q: usize,
}

impl Piece {
    /// B, if the lengths differ by so much that a burst question is asked.
    fn columns(&self) -> Option<usize> {
        let b = self.p.abs_diff(self.q);
        (MIN_COLUMNS..=MAX_COLUMNS).contains(&b).then_some(b)
    }
}

#[derive(Clone, Copy, Debug)]
struct Limits {
    m: usize,
    h: u32,
    k: usize,
    key: u32,
    ceiling: usize,
}

impl Limits {
    fn kept(&self) -> bool {
        (8..=64).contains(&self.m)
            && (8..=32).contains(&self.h)
            && (1..=8).contains(&self.k)
            && self.key >= 1
            && self.ceiling <= 16_384
    }
}

/// What is awaited: the opening's answer; one for the leftmost piece, or nothing if none waits; the
/// whole string. In the order of their numbers.
#[derive(Clone, Copy, Debug, PartialEq, Eq)]
enum Phase {
    Opening,
    Pieces,
    Whole,
}

impl Phase {
    const ALL: [Phase; 3] = [Phase::Opening, Phase::Pieces, Phase::Whole];
}

/// What is asked of the leftmost piece: its hash; its syndrome, to put a bit in or to take one out;
/// an anchor; all its bits; its columns' syndromes. In the order of their numbers.
#[derive(Clone, Copy, Debug, PartialEq, Eq)]
enum Stage {
    Hash,
    PutIn,
    TakeOut,
    Anchor1,
    Anchor2,
    Anchor3,
    AllBits,
    Columns,
}

impl Stage {
    const ALL: [Stage; 8] = [
        Stage::Hash,
        Stage::PutIn,
        Stage::TakeOut,
        Stage::Anchor1,
        Stage::Anchor2,
        Stage::Anchor3,
        Stage::AllBits,
        Stage::Columns,
    ];

    /// How many questions the piece has had at most.
    fn questions_had(self) -> usize {
        match self {
            Stage::Hash | Stage::PutIn | Stage::TakeOut | Stage::Columns => 0,
            Stage::Anchor1 => 1,
            Stage::Anchor2 => 2,
            Stage::Anchor3 => 3,
            Stage::AllBits => 4,
        }
    }
}

const BY_HASH: u32 = 1;
const BY_PUT_IN: u32 = 2;
const BY_TAKE_OUT: u32 = 3;
const BY_ANCHOR: u32 = 4;
const BY_BITS: u32 = 5;
const BY_BURST: u32 = 6;

/// A question after the opening.
#[derive(Clone, Copy, Debug)]
struct Question {
    kind: u32,
    start: usize,
    length: usize,
    /// B; only for a burst.
    columns: Option<usize>,
}

impl Question {
    fn write_to(&self, buffer: &mut [u8]) -> Result<usize, Refusal> {
        let mut writer = Writer::new(&[self.kind, self.start as u32, self.length as u32]);
        if let Some(b) = self.columns {
            writer.number(b as u32);
        }
        writer.write_to(buffer)
    }
}

/// A rebuilder's state. The leftmost waiting piece is the last one in use.
#[derive(Clone, Copy, Debug)]
struct RebuilderState {
    settings: Limits,
    y_bits: usize,
    phase: Phase,
    n: usize,
    answered: usize,
    counted: usize,
    rows: usize,
    stage: Stage,
    waiting: usize,
    pieces: [Piece; MAX_WAITING],
}

/// An answer that was read and found in range.
enum Answer<'a> {
    Opening(usize),
    Hash(u32),
    Syndrome(usize, u32),
    Bits(&'a [u8]),
    /// The first B are the columns' syndromes.
    Burst([usize; MAX_COLUMNS], u32),
}

impl RebuilderState {
    /// None for too few bytes, and for bytes that no state has.
    fn read(bytes: &[u8]) -> Option<RebuilderState> {
        let words: [u32; REBUILDER_BYTES / 4] = read_words(bytes)?;
        let number = |i: usize| words[i] as usize;
        let mut pieces = [Piece::default(); MAX_WAITING];
        for (i, piece) in pieces.iter_mut().enumerate() {
            let at = 13 + 4 * i;
            *piece = Piece {
                x: number(at),
                p: number(at + 1),
                y: number(at + 2),
                q: number(at + 3),
            };
        }
        Some(RebuilderState {
            settings: Limits {
                m: number(0),
                h: words[1],
                k: number(2),
                key: words[3],
                ceiling: number(4),
            },
            y_bits: number(5),
            phase: numbered(&Phase::ALL, words[6])?,
            n: number(7),
            answered: number(8),
            counted: number(9),
            rows: number(10),
            stage: numbered(&Stage::ALL, words[11])?,
            waiting: number(12),
            pieces,
        })
    }

    fn write(&self, bytes: &mut [u8]) {
        let settings = &self.settings;
        let mut words = [0; REBUILDER_BYTES / 4];
        let head = [
            settings.m as u32,
            settings.h,
            settings.k as u32,
            settings.key,
            settings.ceiling as u32,
            self.y_bits as u32,
            self.phase as u32,
            self.n as u32,
            self.answered as u32,
            self.counted as u32,
            self.rows as u32,
            self.stage as u32,
            self.waiting as u32,
        ];
        words[..13].copy_from_slice(&head);
        for (piece, words) in self.pieces.iter().zip(words[13..].chunks_exact_mut(4)) {
            let fields = [
                piece.x as u32,
                piece.p as u32,
                piece.y as u32,
                piece.q as u32,
            ];
            words.copy_from_slice(&fields);
        }
        write_words(&words, bytes);
    }

    fn leftmost(&self) -> Option<Piece> {
        self.waiting.checked_sub(1).map(|last| self.pieces[last])
    }

    fn finished(&self) -> bool {
        self.phase == Phase::Pieces && self.waiting == 0
    }

    // Soundness, as docs/STATE.md defines it

    fn sound(&self) -> bool {
        let settings = &self.settings;
        if !settings.kept() || self.y_bits > MAX_BITS || self.n > MAX_BITS {
            return false;
        }
        if self.waiting > MAX_WAITING
            || self.pieces[self.waiting..]
                .iter()
                .any(|&piece| piece != Piece::default())
        {
            return false;
        }
        let most_questions = 9 * (self.n / settings.m) + 6;
        let whole = 1 + self.n.div_ceil(8);
        let most_bytes = whole.max(NUMBERS_BYTES);
        match self.phase {
            Phase::Opening => {
                self.n == 0
                    && self.answered == 0
                    && self.counted == 0
                    && self.rows == 0
                    && self.stage == Stage::Hash
                    && self.waiting == 0
            }
            Phase::Pieces => {
                let waiting = &self.pieces[..self.waiting];
                let to_ask: usize = waiting.iter().map(|w| 9 * (w.p / settings.m) + 5).sum();
                let most_counted = match self.waiting {
                    0 => settings.ceiling + whole + most_bytes,
                    _ => settings.ceiling,
                };
                self.stack_sound()
                    && self.answered >= 1
                    && self.answered + to_ask <= most_questions + self.stage.questions_had()
                    && self.counted <= most_counted
            }
            Phase::Whole => {
                self.stack_sound()
                    && self.answered >= 1
                    && self.answered < most_questions
                    && self.waiting > 0
                    && self.counted > settings.ceiling
                    && self.counted <= settings.ceiling + most_bytes
            }
        }
    }

    fn stack_sound(&self) -> bool {
        let m = self.settings.m;
        let stage_suits = match (self.leftmost(), self.stage) {
            (None, stage) => stage == Stage::Hash,
            (Some(piece), Stage::Hash) => piece.q == piece.p,
            (Some(piece), Stage::PutIn) => piece.q + 1 == piece.p,
            (Some(piece), Stage::TakeOut) => piece.q == piece.p + 1,
            (Some(piece), Stage::Anchor1 | Stage::Anchor2 | Stage::Anchor3) => {
                self.takes_anchors(piece)
            }
            (Some(_), Stage::AllBits) => true,
            (Some(piece), Stage::Columns) => piece.columns().is_some(),
        };
        if !stage_suits {
            return false;
        }
        let mut longest = [MAX_BITS; MAX_WAITING];
        for i in 1..MAX_WAITING {
            longest[i] = 5 * longest[i - 1] / 8;
        }
        let (mut x_end, mut y_end, mut rows) = (0, 0, self.rows);
        for i in (0..self.waiting).rev() {
            let piece = self.pieces[i];
            if piece.x < x_end || piece.y < y_end || piece.p == 0 || piece.p > longest[i] {
                return false;
            }
            x_end = piece.x + piece.p;
            y_end = piece.y + piece.q;
            if x_end > self.n || y_end > self.y_bits {
                return false;
            }
            rows += sheet_rows(piece.p, m);
        }
        rows <= sheet_rows(self.n, m)
    }

    // What is asked

    /// Whether a piece that hash or syndromes did not settle is long enough for anchors.
    fn takes_anchors(&self, piece: Piece) -> bool {
        let settings = &self.settings;
        piece.p >= 4 * (settings.m + settings.h as usize) && piece.q >= settings.m
    }

    /// The stage behind hash and syndromes.
    fn stage_unsettled(&self, piece: Piece) -> Stage {
        if self.takes_anchors(piece) {
            Stage::Anchor1
        } else {
            Stage::AllBits
        }
    }

    /// The stage at which work on the leftmost piece begins.
    fn first_stage(&self) -> Stage {
        match self.leftmost() {
            None => Stage::Hash,
            Some(piece) if piece.q == piece.p => Stage::Hash,
            Some(piece) if piece.q + 1 == piece.p => Stage::PutIn,
            Some(piece) if piece.q == piece.p + 1 => Stage::TakeOut,
            Some(piece) if piece.columns().is_some() => Stage::Columns,
            Some(piece) => self.stage_unsettled(piece),
        }
    }

    /// The stage after an answer that did not settle or split the leftmost piece.
    fn next_stage(&self, piece: Piece) -> Stage {
        match self.stage {
            Stage::Hash | Stage::PutIn | Stage::TakeOut | Stage::Columns => {
                self.stage_unsettled(piece)
            }
            Stage::Anchor1 => Stage::Anchor2,
            Stage::Anchor2 => Stage::Anchor3,
            Stage::Anchor3 | Stage::AllBits => Stage::AllBits,
        }
    }

    /// The offset of the anchor asked for. Only at the stages of anchors.
    fn anchor_offset(&self, piece: Piece) -> usize {
        let m = self.settings.m;
        let c = (piece.p - m) / 2;
        match self.stage {
            Stage::Anchor2 => c + m,
            Stage::Anchor3 => c - m,
            _ => c,
        }
    }

    /// The question that waits. Not for a finished state, nor before the opening's answer.
    fn question(&self) -> Question {
        let question = |kind, start, length| Question {
            kind,
            start,
            length,
            columns: None,
        };
        if self.phase == Phase::Whole {
            return question(BITS, 0, self.n);
        }
        let piece = self.leftmost().expect("a piece waits");
        match self.stage {
            Stage::Hash => question(HASH, piece.x, piece.p),
            Stage::PutIn | Stage::TakeOut => question(SYNDROME, piece.x, piece.p),
            Stage::AllBits => question(BITS, piece.x, piece.p),
            Stage::Columns => Question {
                columns: piece.columns(),
                ..question(BURST, piece.x, piece.p)
            },
            _ => question(BITS, piece.x + self.anchor_offset(piece), self.settings.m),
        }
    }

    // What is taken

    /// Reads the answer to the question that waits.
    fn read_answer<'a>(&self, message: &'a [u8]) -> Result<Answer<'a>, Refusal> {
        let (awaited, length, columns) = match self.phase {
            Phase::Opening => (OPEN, 0, None),
            _ => {
                let question = self.question();
                (question.kind, question.length, question.columns)
            }
        };
        let mut reader = Reader::new(message);
        if reader.number()? != awaited {
            return Err(Refusal::BadKind);
        }
        let (answer, in_range) = match awaited {
            OPEN => {
                let n = reader.number()? as usize;
                (Answer::Opening(n), n <= MAX_BITS)
            }
            HASH => {
                let hash = reader.number()?;
                (Answer::Hash(hash), self.hash_in_range(hash))
            }
            SYNDROME => {
                let (a, hash) = (reader.number()? as usize, reader.number()?);
                (
                    Answer::Syndrome(a, hash),
                    a <= length && self.hash_in_range(hash),
                )
            }
            BURST => {
                let b = columns.expect("a burst question has a number of columns");
                let mut syndromes = [0; MAX_COLUMNS];
                let mut kept = true;
                for (j, a) in syndromes[..b].iter_mut().enumerate() {
                    *a = reader.number()? as usize;
                    kept &= *a <= column_length(length, b, j);
                }
                let hash = reader.number()?;
                (
                    Answer::Burst(syndromes, hash),
                    kept && self.hash_in_range(hash),
                )
            }
            _ => {
                let bytes = reader.bits(length)?;
                (Answer::Bits(bytes), legal(bytes, length))
            }
        };
        reader.end()?;
        if in_range {
            Ok(answer)
        } else {
            Err(Refusal::OutOfRange)
        }
    }

    fn hash_in_range(&self, hash: u32) -> bool {
        (hash as u64) < 1 << self.settings.h
    }

    /// Takes the opening's answer.
    fn open(&mut self, n: usize, string: &mut [u8]) {
        self.phase = Phase::Pieces;
        self.n = n;
        string[..n.div_ceil(8)].fill(0);
        self.push(Piece {
            x: 0,
            p: n,
            y: 0,
            q: self.y_bits,
        });
        self.stage = self.first_stage();
    }

    /// Takes the answer to the whole-string question.
    fn take_whole(&mut self, bytes: &[u8], string: &mut [u8], sheet: &mut [u8]) {
        // The n bits only: 01 names no spare bit here.
        write_bits(string, 0, Bits::whole(bytes, self.n));
        sheet[..ROW_BYTES * self.rows].fill(0);
        self.rows = 0;
        self.add_row(sheet, 0, self.n, BY_BITS);
        self.phase = Phase::Pieces;
        self.stage = Stage::Hash;
        self.waiting = 0;
        self.pieces = [Piece::default(); MAX_WAITING];
    }

    /// Takes an answer on the leftmost piece.
    fn take_on_piece(&mut self, answer: Answer, y: &[u8], string: &mut [u8], sheet: &mut [u8]) {
        let Limits { m, h, k, key, .. } = self.settings;
        let piece = self.leftmost().expect("a piece waits");
        let copy = Bits::whole(y, self.y_bits).range(piece.y, piece.q);
        let settled = match answer {
            Answer::Hash(value) if hash(copy, h, key) == value => {
                write_bits(string, piece.x, copy);
                Some(BY_HASH)
            }
            Answer::Syndrome(a, value) => {
                let how = if self.stage == Stage::PutIn {
                    BY_PUT_IN
                } else {
                    BY_TAKE_OUT
                };
                // The string is written only when the trial's hash agrees.
                repair(copy, piece.p, a)
                    .filter(|&edit| hash_edited(copy, edit, h, key) == value)
                    .map(|edit| {
                        write_edited(string, piece.x, copy, edit);
                        how
                    })
            }
            Answer::Burst(syndromes, value) => {
                let b = piece.columns().expect("the lengths differ by B");
                let mut trial = [0; MAX_BITS / 8];
                let repaired = repair_columns(&mut trial, piece.p, copy, &syndromes[..b]);
                let trial = Bits::whole(&trial, piece.p);
                (repaired && hash(trial, h, key) == value).then(|| {
                    write_bits(string, piece.x, trial);
                    BY_BURST
                })
            }
            Answer::Bits(bytes) if self.stage == Stage::AllBits => {
                write_bits(string, piece.x, Bits::whole(bytes, piece.p));
                Some(BY_BITS)
            }
            Answer::Bits(bytes) => {
                let anchor = Bits::whole(bytes, m);
                let offset = self.anchor_offset(piece);
                if let Some(place) = find_anchor(copy, piece.p, offset, k, anchor) {
                    write_bits(string, piece.x + offset, anchor);
                    self.add_row(sheet, piece.x + offset, m, BY_ANCHOR);
                    self.split(piece, offset, place);
                    self.stage = self.first_stage();
                    return;
                }
                None
            }
            _ => None,
        };
        if let Some(how) = settled {
            self.add_row(sheet, piece.x, piece.p, how);
            self.pop();
            self.stage = self.first_stage();
        } else {
            self.stage = self.next_stage(piece);
        }
    }

    /// Puts in the leftmost piece's stead what an anchor of it leaves on both sides.
    fn split(&mut self, piece: Piece, offset: usize, place: usize) {
        let m = self.settings.m;
        let Piece { x, p, y, q } = piece;
        self.pop();
        self.push(Piece {
            x: x + offset + m,
            p: p - offset - m,
            y: y + place + m,
            q: q - place - m,
        });
        self.push(Piece {
            x,
            p: offset,
            y,
            q: place,
        });
    }

    /// Lets a piece wait as the leftmost; one without bits is dropped.
    fn push(&mut self, piece: Piece) {
        if piece.p > 0 {
            self.pieces[self.waiting] = piece;
            self.waiting += 1;
        }
    }

    fn pop(&mut self) {
        self.waiting -= 1;
        self.pieces[self.waiting] = Piece::default();
    }

    fn add_row(&mut self, sheet: &mut [u8], start: usize, length: usize, how: u32) {
        let row = &mut sheet[ROW_BYTES * self.rows..][..ROW_BYTES];
        write_words(&[start as u32, length as u32, how], row);
        self.rows += 1;
    }
}

/// Whether the first [`REBUILDER_BYTES`] bytes are a sound state of a rebuilder.
pub fn rebuilder_sound(state: &[u8]) -> bool {
    RebuilderState::read(state).is_some_and(|state| state.sound())
}

fn rebuilder_start(
    settings: Limits,
    y: &[u8],
    bits: usize,
    state_bytes: &mut [u8],
    question: &mut [u8],
) -> Result<usize, Refusal> {
    if !settings.kept() {
        return Err(Refusal::BadSetting);
    }
    if !legal(y, bits) {
        return Err(Refusal::BadString);
    }
    if question.len() < QUESTION_BYTES || state_bytes.len() < REBUILDER_BYTES {
        return Err(Refusal::BufferTooShort);
    }
    let state = RebuilderState {
        settings,
        y_bits: bits,
        phase: Phase::Opening,
        n: 0,
        answered: 0,
        counted: 0,
        rows: 0,
        stage: Stage::Hash,
        waiting: 0,
        pieces: [Piece::default(); MAX_WAITING],
    };
    state.write(state_bytes);
    Writer::new(&[OPEN, 1, settings.h, settings.key]).write_to(question)
}

fn rebuilder_call(
    state_bytes: &mut [u8],
    y: &[u8],
    bits: usize,
    string: &mut [u8],
    sheet: &mut [u8],
    message: &[u8],
    question: &mut [u8],
) -> Result<usize, Refusal> {
    if !legal(y, bits) {
        return Err(Refusal::BadString);
    }
    let mut state = RebuilderState::read(state_bytes).ok_or(Refusal::OutOfTurn)?;
    if state.y_bits != bits {
        return Err(Refusal::BadString);
    }
    if !state.sound() || state.finished() {
        return Err(Refusal::OutOfTurn);
    }
    let answer = state.read_answer(message)?;
    let n = match answer {
        Answer::Opening(n) => n,
        _ => state.n,
    };
    if question.len() < QUESTION_BYTES
        || string.len() < n.div_ceil(8)
        || sheet.len() / ROW_BYTES < sheet_rows(n, state.settings.m)
    {
        return Err(Refusal::BufferTooShort);
    }
    state.answered += 1;
    match (state.phase, answer) {
        (_, Answer::Opening(n)) => state.open(n, string),
        (Phase::Whole, Answer::Bits(bytes)) => {
            state.counted += message.len();
            state.take_whole(bytes, string, sheet);
        }
        (_, answer) => {
            state.counted += message.len();
            state.take_on_piece(answer, y, string, sheet);
            if state.counted > state.settings.ceiling && state.waiting > 0 {
                state.phase = Phase::Whole;
            }
        }
    }
    state.write(state_bytes);
    if state.finished() {
        return Ok(0);
    }
    state.question().write_to(question)
}

// Markers

/// t = ceil(log2(n + 1)).
fn marker_digits(n: usize) -> usize {
    (n + 1).next_power_of_two().ilog2() as usize
}

fn marker_limits_kept(n: usize, a: usize) -> bool {
    (1..=MAX_MARKER_BITS).contains(&n) && a <= n
}

/// Where the message stands: of each run of its bits the place in the word, the place in the
/// message, both from 0, and the length. Behind place 2^j, from 1, come 2^j - 1 bits of the message
/// or as many as are left; before them stand 2^j bits of the word, j + 1 of them at powers of two.
fn marker_runs(n: usize) -> impl Iterator<Item = (usize, usize, usize)> {
    (0..marker_digits(n)).map(move |j| {
        let power = 1 << j;
        (power, power - (j + 1), (power - 1).min(n - power))
    })
}

fn marker_build(
    message: &[u8],
    bits: usize,
    n: usize,
    a: usize,
    out: &mut [u8],
) -> Result<u64, Refusal> {
    if !legal(message, bits) {
        return Err(Refusal::BadString);
    }
    if !marker_limits_kept(n, a) {
        return Err(Refusal::OutOfRange);
    }
    let digits = marker_digits(n);
    if bits != n - digits {
        return Err(Refusal::MessageLength);
    }
    let word = out
        .get_mut(..n.div_ceil(8))
        .ok_or(Refusal::BufferTooShort)?;
    word.fill(0);
    for (place, from, length) in marker_runs(n) {
        write_bits(word, place, Bits::whole(message, bits).range(from, length));
    }
    // The powers' places are zero until here.
    let sum = weighted_sum(Bits::whole(word, n)) % (n + 1);
    let number = (a + n + 1 - sum) % (n + 1);
    for j in 0..digits {
        write_bit(word, (1 << j) - 1, number >> j & 1 == 1);
    }
    Ok(1)
}

/// The string of syndrome a is made from what was received; it is a built word if the number at
/// places 1, 2, 4, .. is one that is left modulo n + 1.
fn marker_read(
    received: &[u8],
    bits: usize,
    n: usize,
    a: usize,
    out: &mut [u8],
) -> Result<u64, Refusal> {
    if !legal(received, bits) {
        return Err(Refusal::BadString);
    }
    if !marker_limits_kept(n, a) || bits.abs_diff(n) > 1 {
        return Err(Refusal::OutOfRange);
    }
    let digits = marker_digits(n);
    let message = out
        .get_mut(..(n - digits).div_ceil(8))
        .ok_or(Refusal::BufferTooShort)?;
    let received = Bits::whole(received, bits);
    let mut word = [0; MAX_MARKER_BITS / 8];
    if bits == n {
        if syndrome(received) != a {
            return Ok(0);
        }
        write_bits(&mut word, 0, received);
    } else {
        let Some(edit) = repair(received, n, a) else {
            return Ok(0);
        };
        write_edited(&mut word, 0, received, edit);
    }
    let word = Bits::whole(&word, n);
    let digit = |j: usize| (word.get((1 << j) - 1) as usize) << j;
    if (0..digits).map(digit).sum::<usize>() > n {
        return Ok(0);
    }
    if let Some(last) = message.last_mut() {
        *last = 0;
    }
    for (place, to, length) in marker_runs(n) {
        write_bits(message, to, word.range(place, length));
    }
    Ok(1)
}

// The C interface

/// The model behind the same interface as the library.
#[derive(Clone, Copy, Debug)]
pub struct Model;

impl Ends for Model {
    fn syndrome(s: &[u8], bits: usize) -> u64 {
        pack(if legal(s, bits) {
            Ok(syndrome(Bits::whole(s, bits)) as u64)
        } else {
            Err(Refusal::BadString)
        })
    }

    fn hash(s: &[u8], bits: usize, h: u32, key: u32) -> u64 {
        pack(if !(8..=32).contains(&h) || key == 0 {
            Err(Refusal::BadSetting)
        } else if !legal(s, bits) {
            Err(Refusal::BadString)
        } else {
            Ok(hash(Bits::whole(s, bits), h, key) as u64)
        })
    }

    fn repair(s: &[u8], bits: usize, n: usize, a: usize, out: &mut [u8]) -> u64 {
        if !legal(s, bits) {
            return pack(Err(Refusal::BadString));
        }
        if bits.abs_diff(n) != 1 || n > MAX_BITS || a > n {
            return pack(Err(Refusal::OutOfRange));
        }
        let Some(out) = out.get_mut(..n.div_ceil(8)) else {
            return pack(Err(Refusal::BufferTooShort));
        };
        let b = Bits::whole(s, bits);
        let Some(edit) = repair(b, n, a) else {
            return pack(Ok(0));
        };
        if let Some(last) = out.last_mut() {
            *last = 0;
        }
        write_edited(out, 0, b, edit);
        pack(Ok(1))
    }

    fn list(n: usize, a: usize, out: &mut [u32]) -> u64 {
        if n > MAX_LIST_BITS || a > n {
            return pack(Err(Refusal::OutOfRange));
        }
        let list = list(n, a);
        let Some(front) = out.get_mut(..list.len()) else {
            return pack(Err(Refusal::ListTooShort));
        };
        front.copy_from_slice(&list);
        pack(Ok(list.len() as u64))
    }

    fn marker_build(message: &[u8], bits: usize, n: usize, a: usize, out: &mut [u8]) -> u64 {
        pack(marker_build(message, bits, n, a, out))
    }

    fn marker_read(received: &[u8], bits: usize, n: usize, a: usize, out: &mut [u8]) -> u64 {
        pack(marker_read(received, bits, n, a, out))
    }

    fn anchor(
        y: &[u8],
        bits: usize,
        start: usize,
        q: usize,
        p: usize,
        s: usize,
        m: u32,
        k: u32,
        a: &[u8],
    ) -> u64 {
        if !(8..=64).contains(&m) || !(1..=8).contains(&k) {
            return pack(Err(Refusal::BadSetting));
        }
        let m = m as usize;
        if !legal(y, bits) || !legal(a, m) {
            return pack(Err(Refusal::BadString));
        }
        if start.checked_add(q).is_none_or(|end| end > bits)
            || p > MAX_BITS
            || s.checked_add(m).is_none_or(|end| end > p)
        {
            return pack(Err(Refusal::OutOfRange));
        }
        let copy = Bits::whole(y, bits).range(start, q);
        let place = find_anchor(copy, p, s, k as usize, Bits::whole(a, m));
        pack(Ok(place.map_or(0, |r| r as u64 + 1)))
    }

    fn holder_fresh(state: &mut [u8]) -> u64 {
        if state.len() < HOLDER_BYTES {
            return pack(Err(Refusal::BufferTooShort));
        }
        HolderState::FRESH.write(state);
        pack(Ok(0))
    }

    fn holder_answer(
        state: &mut [u8],
        x: &[u8],
        bits: usize,
        message: &[u8],
        reply: &mut [u8],
    ) -> u64 {
        pack(holder_answer(state, x, bits, message, reply).map(|length| length as u64))
    }

    fn rebuilder_start(
        m: u32,
        h: u32,
        k: u32,
        key: u32,
        ceiling: u32,
        y: &[u8],
        bits: usize,
        state: &mut [u8],
        question: &mut [u8],
    ) -> u64 {
        let (m, k, ceiling) = (m as usize, k as usize, ceiling as usize);
        let settings = Limits {
            m,
            h,
            k,
            key,
            ceiling,
        };
        pack(rebuilder_start(settings, y, bits, state, question).map(|length| length as u64))
    }

    fn rebuilder_call(
        state: &mut [u8],
        y: &[u8],
        bits: usize,
        string: &mut [u8],
        sheet: &mut [u8],
        message: &[u8],
        question: &mut [u8],
    ) -> u64 {
        let result = rebuilder_call(state, y, bits, string, sheet, message, question);
        pack(result.map(|length| length as u64))
    }
}
