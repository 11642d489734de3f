//! Syndrome and repairs in the library's way (crates/codes/src: sums.rt, places.rt, edits.rt), for
//! the benchmark: eight running sums, one for each bit of a byte, each kept below the modulus after
//! each bit by compare and subtract. There is no division or remainder but by 2 and 8.
//!
//! The bits are those of a range, `bits` of them from bit `start` on, as the library takes them: the
//! piece of a run lies anywhere in a string. Bits of the range are read with no check of the bounds,
//! as in the library's code, where the proofs show that each read is in bounds: here `syndrome` and
//! `repair` see to it that the range lies in the bytes, and the other functions read no bit outside.

/// The syndrome.
#[inline(never)]
pub fn syndrome(bytes: &[u8], start: usize, bits: usize) -> u32 {
    assert!(start + bits <= 8 * bytes.len());
    sum_modulo(bytes, start, bits, bits + 1) as u32
}

/// Puts a bit in where `n` is `bits + 1`, takes one out where it is `bits - 1`: the first bytes of
/// `out` become the string of `n` bits with syndrome `a`. False, with nothing written, if there is
/// none.
#[inline(never)]
pub fn repair(bytes: &[u8], start: usize, bits: usize, n: usize, a: usize, out: &mut [u8]) -> bool {
    assert!(start + bits <= 8 * bytes.len());
    let edit = if n == bits + 1 {
        put_in(bytes, start, bits, a)
    } else {
        take_out(bytes, start, bits, a)
    };
    let Some(edit) = edit else {
        return false;
    };
    out[..n.div_ceil(8)].fill(0);
    write_edited(out, bytes, start, bits, edit);
    true
}

// Sums

/// x + y modulo m, for x below m and y not above m.
fn add_modulo(x: u32, y: u32, m: u32) -> u32 {
    let z = x + y;
    if m <= z {
        z - m
    } else {
        z
    }
}

/// x - y modulo m, of two numbers below m.
fn subtract_modulo(x: usize, y: usize, m: usize) -> usize {
    if y <= x {
        x - y
    } else {
        x + (m - y)
    }
}

/// One bit more: no branch on the bit.
fn sum_bit(bit: bool, place: u32, sum: u32, m: u32) -> u32 {
    add_modulo(sum, place * bit as u32, m)
}

/// The sum of the places of the ones of `count` bytes from bit `start` on: bit k of each byte goes to
/// sum k. With an iterator over the sums it takes 1.8 times as long.
#[allow(clippy::needless_range_loop)]
fn sum_bytes(bytes: &[u8], start: usize, count: usize, m: u32) -> u32 {
    let mut sums = [0; 8];
    for i in 0..count {
        let byte = eight_bits(bytes, start + 8 * i);
        for k in 0..8 {
            let bit = (byte >> (7 - k)) % 2 == 1;
            sums[k] = sum_bit(bit, (8 * i + k + 1) as u32, sums[k], m);
        }
    }
    sums.iter().fold(0, |all, &sum| add_modulo(all, sum, m))
}

/// The sum of the places of the ones modulo m, the first place being 1.
fn sum_modulo(bytes: &[u8], start: usize, bits: usize, m: usize) -> usize {
    let (count, m) = (bits / 8, m as u32);
    let mut sum = sum_bytes(bytes, start, count, m);
    for i in 8 * count..bits {
        sum = sum_bit(get_bit(bytes, start + i), (i + 1) as u32, sum, m);
    }
    sum as usize
}

/// The ones of a byte: those of each two of its bits, of each four, of all, added side by side.
fn ones_byte(byte: u8) -> u32 {
    let twos = byte - ((byte >> 1) & 85);
    let fours = (twos & 51) + ((twos >> 2) & 51);
    ((fours + (fours >> 4)) & 15) as u32
}

fn ones(bytes: &[u8], start: usize, bits: usize) -> usize {
    let count = bits / 8;
    let mut ones = 0;
    for i in 0..count {
        ones += ones_byte(eight_bits(bytes, start + 8 * i));
    }
    for i in 8 * count..bits {
        ones += get_bit(bytes, start + i) as u32;
    }
    ones as usize
}

// Places

/// A bit put in before a place, or the bit at a place taken out.
enum Edit {
    PutIn(usize, bool),
    TakeOut(usize),
}

/// The first place from bit `from` on with at most r ones from there on, where there are w ones.
fn zero_singly(bytes: &[u8], start: usize, from: usize, bits: usize, w: usize, r: usize) -> usize {
    let mut right = w;
    for i in from..bits {
        if right <= r {
            return i;
        }
        right -= get_bit(bytes, start + i) as usize;
    }
    bits
}

/// The same of all bits: a byte with more than r ones behind it is passed whole.
fn zero_place(bytes: &[u8], start: usize, bits: usize, w: usize, r: usize) -> usize {
    let mut right = w;
    let mut i = 0;
    while i + 8 <= bits {
        let behind = right - ones_byte(eight_bits(bytes, start + i)) as usize;
        if behind <= r {
            break;
        }
        right = behind;
        i += 8;
    }
    zero_singly(bytes, start, i, bits, right, r)
}

/// The first place from bit `from` on with z zeros between.
fn one_singly(bytes: &[u8], start: usize, from: usize, bits: usize, z: usize) -> usize {
    let mut left = z;
    for i in from..bits {
        if left == 0 {
            return i;
        }
        left -= !get_bit(bytes, start + i) as usize;
    }
    bits
}

/// The same from the first bit on: a byte with fewer zeros than are left to pass is passed whole.
fn one_place(bytes: &[u8], start: usize, bits: usize, z: usize) -> usize {
    let mut left = z;
    let mut i = 0;
    while i + 8 <= bits {
        let zeros = 8 - ones_byte(eight_bits(bytes, start + i)) as usize;
        if left <= zeros {
            break;
        }
        left -= zeros;
        i += 8;
    }
    one_singly(bytes, start, i, bits, left)
}

/// The bit put in that gives the syndrome a; one for each a up to bits + 1.
fn put_in(bytes: &[u8], start: usize, bits: usize, a: usize) -> Option<Edit> {
    let m = bits + 2;
    if a >= m {
        return None;
    }
    let w = ones(bytes, start, bits);
    let raise = subtract_modulo(a, sum_modulo(bytes, start, bits, m), m);
    Some(if raise <= w {
        Edit::PutIn(zero_place(bytes, start, bits, w, raise), false)
    } else {
        Edit::PutIn(one_place(bytes, start, bits, raise - w - 1), true)
    })
}

/// The bit taken out so that the syndrome is a. A 0 lowers the sum by the ones behind it, 0 to
/// bits - 1: it stands where a 0 is put in with as many ones behind it. A 1 lowers it by its place and
/// the ones behind it, 1 to bits: it stands where a 1 is put in with as many zeros before it as that
/// is above the count of ones.
fn take_out(bytes: &[u8], start: usize, bits: usize, a: usize) -> Option<Edit> {
    if a >= bits {
        return None;
    }
    let zero_fall = subtract_modulo(sum_modulo(bytes, start, bits, bits), a, bits);
    let one_fall = if zero_fall == 0 { bits } else { zero_fall };
    let w = ones(bytes, start, bits);
    let is = |place: usize, bit| place < bits && get_bit(bytes, start + place) == bit;
    if zero_fall <= w {
        let place = zero_place(bytes, start, bits, w, zero_fall);
        if is(place, false) {
            return Some(Edit::TakeOut(place));
        }
    }
    if w <= one_fall {
        let place = one_place(bytes, start, bits, one_fall - w);
        if is(place, true) {
            return Some(Edit::TakeOut(place));
        }
    }
    None
}

// Copies

/// Byte i, which holds a bit of the range.
fn byte_at(bytes: &[u8], i: usize) -> u8 {
    debug_assert!(i < bytes.len());
    // SAFETY: the range lies in the bytes, so that a byte with a bit of it is there.
    unsafe { *bytes.get_unchecked(i) }
}

/// Bit i, of the range.
fn get_bit(bytes: &[u8], i: usize) -> bool {
    (byte_at(bytes, i / 8) >> (7 - i % 8)) % 2 == 1
}

/// The eight bits from bit i on, all of the range.
fn eight_bits(bytes: &[u8], i: usize) -> u8 {
    match i % 8 {
        0 => byte_at(bytes, i / 8),
        shift => byte_at(bytes, i / 8) << shift ^ byte_at(bytes, i / 8 + 1) >> (8 - shift),
    }
}

/// No branch on the bit.
fn set_bit(bytes: &mut [u8], i: usize, bit: bool) {
    let byte = &mut bytes[i / 8];
    let turned = ((*byte >> (7 - i % 8)) % 2 == 1) != bit;
    *byte ^= (turned as u8) << (7 - i % 8);
}

/// Writes the edited bits.
fn write_edited(to: &mut [u8], bytes: &[u8], start: usize, bits: usize, edit: Edit) {
    match edit {
        Edit::PutIn(i, bit) => {
            copy_bits(bytes, start, i, to, 0);
            set_bit(to, i, bit);
            copy_bits(bytes, start + i, bits - i, to, i + 1);
        }
        Edit::TakeOut(i) => {
            copy_bits(bytes, start, i, to, 0);
            copy_bits(bytes, start + i + 1, bits - i - 1, to, i);
        }
    }
}

/// Writes `len` bits to place `at` on: bits up to the first edge of a byte, whole bytes, and the
/// bits that are left.
fn copy_bits(from: &[u8], start: usize, len: usize, to: &mut [u8], at: usize) {
    let head = len.min((8 - at % 8) % 8);
    let count = (len - head) / 8;
    let done = head + 8 * count;
    copy_singly(from, start, head, to, at);
    let first = (at + head).div_ceil(8);
    copy_bytes(from, start + head, &mut to[first..first + count]);
    copy_singly(from, start + done, len - done, to, at + done);
}

fn copy_singly(from: &[u8], start: usize, len: usize, to: &mut [u8], at: usize) {
    for i in 0..len {
        set_bit(to, at + i, get_bit(from, start + i));
    }
}

/// The bits from `start` on become all bytes of `to`.
fn copy_bytes(from: &[u8], start: usize, to: &mut [u8]) {
    let from = &from[start / 8..];
    match start % 8 {
        0 => to.copy_from_slice(&from[..to.len()]),
        shift => {
            for (byte, two) in to.iter_mut().zip(from.windows(2)) {
                *byte = two[0] << shift | two[1] >> (8 - shift);
            }
        }
    }
}
