//! A host's view of the Lunetteorris synchroniser.
//!
//! A holder has a reference X, a rebuilder a copy Y that differs from X by insertions, deletions
//! and substitutions of bits, single or in bursts. The rebuilder asks short questions, the holder
//! answers them, and in the end the rebuilder has X, except in settled pieces that differ from X's
//! and yet share length and hash (and syndrome or columns' syndromes, if used) with them. Carrying
//! the messages is the host's part.
//!
//! ```
//! use lunetteorris::{BitString, Holder, Rebuilder, Settings};
//!
//! let x: BitString = "1100101011110000101001101".parse()?;
//! let y: BitString = "110010101111000101001101".parse()?; // one bit lost
//!
//! let mut holder = Holder::new(x.clone());
//! let mut rebuilder = Rebuilder::start(Settings::house(), y)?;
//! while let Some(question) = rebuilder.question() {
//!     let answer = holder.answer(question)?; // the host carries both over its link
//!     rebuilder.take(&answer)?;
//! }
//!
//! assert_eq!(rebuilder.string(), x);
//! for row in rebuilder.sheet() {
//!     println!("{} bits from {} on: {:?}", row.length, row.start, row.how);
//! }
//! # Ok::<(), lunetteorris::Refusal>(())
//! ```
//!
//! [`Holder`] and [`Rebuilder`] own their states and buffers. [`Ends`] is the C interface itself
//! on slices, for a host that keeps states and buffers in places of its own: [`Library`] is the
//! linked library, [`model::Model`] an independent implementation that the tests compare it with.

#![deny(unsafe_code)]
#![warn(missing_docs)]

mod bit_string;
#[cfg(not(feature = "model-only"))]
#[allow(unsafe_code)]
mod ffi;
pub mod layout;
mod listing;
mod marker;
pub mod model;
mod refusal;
mod saved;
mod synchroniser;

use std::ops::Range;

pub use bit_string::BitString;
#[cfg(not(feature = "model-only"))]
pub use ffi::Library;
pub use listing::{strings_of_syndrome, SyndromeStrings};
pub use marker::Marker;
#[cfg(feature = "model-only")]
pub use model::Model as Library;
pub use refusal::Refusal;
pub use saved::{ResumeError, Saved};
pub use synchroniser::{Holder, How, Rebuilder, Row, Settings, Sheet};

/// The most bits that a string has.
pub const MAX_BITS: usize = 65_536;
/// The most bits of the strings that are listed by syndrome.
pub const MAX_LIST_BITS: usize = 20;
/// The most bits of a marker word.
pub const MAX_MARKER_BITS: usize = 4_096;
/// Bytes of a holder's state; its buffer may be longer.
pub const HOLDER_BYTES: usize = 20;
/// Bytes of a rebuilder's state; its buffer may be longer.
pub const REBUILDER_BYTES: usize = 564;
/// Bytes of a row in the sheet.
pub const ROW_BYTES: usize = 12;
/// Bytes that each question buffer needs.
pub const QUESTION_BYTES: usize = 8;
/// Bytes of the longest reply: 65,536 bits behind their kind. On n bits the larger of 102 and
/// 1 + ceil(n/8) is enough.
pub const REPLY_BYTES: usize = 1 + MAX_BITS / 8;

/// Rows that the sheet needs for a reference of `n` bits and anchors of `m` bits.
pub const fn sheet_rows(n: usize, m: usize) -> usize {
    2 * (n / m) + 1
}

/// The C interface on slices. Results are packed, see [`pack`] and [`unpack`]. On a refusal
/// nothing is written. Where several refusals apply, the order in `include/lunetteorris.h` decides.
///
/// A state's buffer has at least [`HOLDER_BYTES`] or [`REBUILDER_BYTES`] bytes: the functions read
/// and write so many of its first bytes and leave later ones alone. A shorter buffer gets 9 where a
/// state is made and 3 in the two calls, as do bytes that no state has. Fields are read from a
/// state's bytes at the offsets in [`layout`].
///
/// A rebuilder's `string` and `sheet` are needed from the call with the opening's answer on, for
/// the reference's n bits: `n.div_ceil(8)` bytes and [`sheet_rows`] rows of [`ROW_BYTES`] bytes.
/// Before it n is not known: a host makes both for [`MAX_BITS`], or enlarges them on refusal 9 and
/// calls again with the same message.
///
/// The library has no global state: calls on different states may run at the same time.
#[allow(clippy::too_many_arguments)]
pub trait Ends {
    /// The syndrome. Refusal 2.
    fn syndrome(s: &[u8], bits: usize) -> u64;

    /// The hash of `h` bits under `key`. Refusals 1, 2.
    fn hash(s: &[u8], bits: usize, h: u32, key: u32) -> u64;

    /// Writes to `out` the `n`-bit string with syndrome `a` that is one bit longer or shorter
    /// than `s`: 1; or finds that there is none: 0, nothing written. Refusals 2, 8, 9.
    fn repair(s: &[u8], bits: usize, n: usize, a: usize, out: &mut [u8]) -> u64;

    /// Writes to `out` all strings of `n` bits with syndrome `a`, each once, as numbers with the
    /// first bit highest, rising: their count. Later entries stay. Refusals 8, 14.
    fn list(n: usize, a: usize, out: &mut [u32]) -> u64;

    /// Writes to `out` the marker word of `n` bits with syndrome `a` that has this message: 1.
    /// Later bytes stay. Refusals 2, 8, 15, 9. [`Marker`] has the rule.
    fn marker_build(message: &[u8], bits: usize, n: usize, a: usize, out: &mut [u8]) -> u64;

    /// Writes to `out` the message of the marker word of `n` bits with syndrome `a` that is
    /// `received` or one lost or added bit away from it: 1, later bytes stay; or finds that there
    /// is none: 0, nothing written. Refusals 2, 8, 9.
    fn marker_read(received: &[u8], bits: usize, n: usize, a: usize, out: &mut [u8]) -> u64;

    /// Where the anchor `a` of `m` bits, at offset `s` of a piece of `p` bits, is placed in the
    /// `q` bits of `y` from `start` on: place + 1, or 0 for no place. Refusals 1, 2, 8.
    /// [`find_anchor`] has the rule.
    fn anchor(
        y: &[u8],
        bits: usize,
        start: usize,
        q: usize,
        p: usize,
        s: usize,
        m: u32,
        k: u32,
        a: &[u8],
    ) -> u64;

    /// Writes a fresh holder's state to the first [`HOLDER_BYTES`] bytes. Refusal 9.
    fn holder_fresh(state: &mut [u8]) -> u64;

    /// The holder's call: the reply's length. Refusals 2 to 10.
    fn holder_answer(
        state: &mut [u8],
        x: &[u8],
        bits: usize,
        message: &[u8],
        reply: &mut [u8],
    ) -> u64;

    /// The rebuilder's start: the question's length. The state is in the first
    /// [`REBUILDER_BYTES`] bytes. Refusals 1, 2, 9.
    fn rebuilder_start(
        m: u32,
        h: u32,
        k: u32,
        key: u32,
        ceiling: u32,
        y: &[u8],
        bits: usize,
        state: &mut [u8],
        question: &mut [u8],
    ) -> u64;

    /// The rebuilder's call: the next question's length, 0 when finished. Refusals 2 to 9.
    fn rebuilder_call(
        state: &mut [u8],
        y: &[u8],
        bits: usize,
        string: &mut [u8],
        sheet: &mut [u8],
        message: &[u8],
        question: &mut [u8],
    ) -> u64;
}

/// Packs a result as the C interface does: value * 256 + refusal, one of the two being 0.
pub fn pack(result: Result<u64, Refusal>) -> u64 {
    match result {
        Ok(value) => value * 256,
        Err(refusal) => refusal.number() as u64,
    }
}

/// Reads a packed result.
pub fn unpack(packed: u64) -> Result<u64, Refusal> {
    match (packed % 256) as u8 {
        0 => Ok(packed / 256),
        number => Err(Refusal::from_number(number).expect("refusals are 1 to 10, 14 or 15")),
    }
}

/// The syndrome of a string.
///
/// ```
/// assert_eq!(lunetteorris::syndrome(&"1011".parse()?)?, 3);
/// # Ok::<(), lunetteorris::Refusal>(())
/// ```
pub fn syndrome(s: &BitString) -> Result<u32, Refusal> {
    unpack(Library::syndrome(s.as_bytes(), s.bits())).map(|value| value as u32)
}

/// The hash of `h` bits of a string under `key`.
///
/// ```
/// assert_eq!(lunetteorris::hash(&"1011".parse()?, 8, 1)?, 0xab);
/// # Ok::<(), lunetteorris::Refusal>(())
/// ```
pub fn hash(s: &BitString, h: u32, key: u32) -> Result<u32, Refusal> {
    unpack(Library::hash(s.as_bytes(), s.bits(), h, key)).map(|value| value as u32)
}

/// The string of `n` bits with syndrome `a` that is got from `s` by putting one bit in (`s` has
/// `n - 1` bits) or taking one out (`n + 1` bits); `None` if there is none.
///
/// ```
/// use lunetteorris::repair;
///
/// assert_eq!(repair(&"101".parse()?, 4, 3)?, Some("1011".parse()?));
/// assert_eq!(repair(&"1011".parse()?, 3, 3)?, None);
/// # Ok::<(), lunetteorris::Refusal>(())
/// ```
pub fn repair(s: &BitString, n: usize, a: usize) -> Result<Option<BitString>, Refusal> {
    let mut out = vec![0; n.min(MAX_BITS).div_ceil(8)];
    let done = unpack(Library::repair(s.as_bytes(), s.bits(), n, a, &mut out))?;
    if done == 0 {
        return Ok(None);
    }
    BitString::from_bytes(out, n).map(Some)
}

/// Where an anchor is placed in the range `within` of `y`: the place counted from the range's
/// start, or `None`. The anchor stands at `offset` in a piece of `p` bits; `k` is the window
/// factor.
///
/// With q bits in the range and m in the anchor, it is placed at r, 0 to q - m, where the bits equal
/// it and |2r - (2·offset + q - p)| ≤ 2·k·floor(sqrt(q)). The smallest such distance wins, on a tie
/// the smaller r.
///
/// Refusals, in this order: 1 for an anchor of other than 8 to 64 bits or a `k` of other than 1 to
/// 8; 8 for a range that is reversed or ends past `y`, a `p` above [`MAX_BITS`], or an anchor that
/// ends past `p`.
///
/// ```
/// use lunetteorris::find_anchor;
///
/// let y = "000000000000111100000000".parse()?;
/// let anchor = "11110000".parse()?;
/// assert_eq!(find_anchor(&y, 0..24, 24, 10, 1, &anchor)?, Some(12));
/// assert_eq!(find_anchor(&y, 0..24, 24, 2, 1, &anchor)?, None); // 10 places off, 4 allowed
/// # Ok::<(), lunetteorris::Refusal>(())
/// ```
pub fn find_anchor(
    y: &BitString,
    within: Range<usize>,
    p: usize,
    offset: usize,
    k: u32,
    anchor: &BitString,
) -> Result<Option<usize>, Refusal> {
    // A reversed range becomes one that ends past every string: the library looks at the settings
    // first and refuses it in its turn.
    let q = within
        .end
        .checked_sub(within.start)
        .unwrap_or(usize::MAX - within.start);
    let place = unpack(Library::anchor(
        y.as_bytes(),
        y.bits(),
        within.start,
        q,
        p,
        offset,
        anchor.bits() as u32,
        k,
        anchor.as_bytes(),
    ))?;
    Ok((place as usize).checked_sub(1))
}
