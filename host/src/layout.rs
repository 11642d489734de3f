//! Offsets of the fields in states and in the sheet's rows, for a host that keeps them in places of
//! its own. Each field is a 32-bit number, little-endian; docs/STATE.md has their meaning. Only the
//! library writes a state.

/// Holder: 0 before the opening, 1 after it.
pub const HOLDER_OPENED: usize = 0;
/// Holder: bits of X at the opening.
pub const HOLDER_BITS: usize = 4;
/// Holder: the opening's hash width.
pub const HOLDER_H: usize = 8;
/// Holder: the opening's key.
pub const HOLDER_KEY: usize = 12;
/// Holder: answers given, the opening's among them.
pub const HOLDER_ANSWERS: usize = 16;

/// Rebuilder: bits of an anchor.
pub const REBUILDER_M: usize = 0;
/// Rebuilder: bits of a hash.
pub const REBUILDER_H: usize = 4;
/// Rebuilder: window factor.
pub const REBUILDER_K: usize = 8;
/// Rebuilder: key of the hash.
pub const REBUILDER_KEY: usize = 12;
/// Rebuilder: ceiling.
pub const REBUILDER_CEILING: usize = 16;
/// Rebuilder: bits of Y.
pub const REBUILDER_Y_BITS: usize = 20;
/// Rebuilder: 0 opening awaited, 1 pieces or finished, 2 whole string asked.
pub const REBUILDER_PHASE: usize = 24;
/// Rebuilder: bits of X, 0 before the opening's answer.
pub const REBUILDER_N: usize = 28;
/// Rebuilder: questions answered, the opening among them.
pub const REBUILDER_ANSWERED: usize = 32;
/// Rebuilder: bytes of the answers, the opening's not counted.
pub const REBUILDER_COUNTED: usize = 36;
/// Rebuilder: rows in use.
pub const REBUILDER_ROWS: usize = 40;
/// Rebuilder: what is asked of the leftmost piece: 0 its hash, 1 its syndrome to put a bit in, 2 to
/// take one out, 3 to 5 the first, second, third anchor, 6 all its bits, 7 its columns' syndromes; 0
/// if none waits. In phase 2 as the last answer left it.
pub const REBUILDER_STAGE: usize = 44;
/// Rebuilder: waiting pieces.
pub const REBUILDER_WAITING: usize = 48;
/// Rebuilder: 32 pieces of x, p, y, q, the leftmost waiting one last; unused ones zero.
pub const REBUILDER_PIECES: usize = 52;

/// Row: first bit in X, from 0.
pub const ROW_START: usize = 0;
/// Row: number of bits.
pub const ROW_LENGTH: usize = 4;
/// Row: how it was settled, see [`How`](crate::How).
pub const ROW_HOW: usize = 8;

/// The field at an offset.
pub(crate) fn field(bytes: &[u8], at: usize) -> u32 {
    u32::from_le_bytes(bytes[at..at + 4].try_into().expect("four bytes"))
}
