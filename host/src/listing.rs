//! All strings of one syndrome.

use std::iter::FusedIterator;
use std::vec;

use crate::{unpack, BitString, Ends, Library, Refusal, MAX_LIST_BITS};

/// The strings of `n` bits with syndrome `a`, each once, as numbers with the first bit highest,
/// rising; their count is the length. The string of no bits is 0.
///
/// Refusal 8 for an `n` above [`MAX_LIST_BITS`] or an `a` above `n`. [`SyndromeStrings`] gives the
/// same as strings.
///
/// ```
/// use lunetteorris::strings_of_syndrome;
///
/// // The sums of places are 3, 1 + 3 + 4 and 1 + 2: each is 3 modulo 5.
/// assert_eq!(strings_of_syndrome(4, 3)?, [0b0010, 0b1011, 0b1100]);
/// # Ok::<(), lunetteorris::Refusal>(())
/// ```
pub fn strings_of_syndrome(n: usize, a: usize) -> Result<Vec<u32>, Refusal> {
    // There are 2^n strings of n bits, so the list fits. An n that is not listed is refused before
    // the buffer is looked at.
    let entries = if n <= MAX_LIST_BITS { 1 << n } else { 0 };
    let mut list = vec![0; entries];
    let count = unpack(Library::list(n, a, &mut list))?;
    list.truncate(count as usize);
    list.shrink_to_fit();
    Ok(list)
}

/// An iterator over the strings of n bits with syndrome a, in the order of
/// [`strings_of_syndrome`].
///
/// ```
/// use lunetteorris::{syndrome, SyndromeStrings};
///
/// let strings = SyndromeStrings::new(4, 3)?;
/// assert_eq!(strings.len(), 3);
/// for s in strings {
///     println!("{s}"); // 0010, 1011, 1100
///     assert_eq!(syndrome(&s)?, 3);
/// }
/// # Ok::<(), lunetteorris::Refusal>(())
/// ```
#[derive(Clone, Debug)]
pub struct SyndromeStrings {
    bits: usize,
    numbers: vec::IntoIter<u32>,
}

impl SyndromeStrings {
    /// All strings of `n` bits with syndrome `a`. Refusal 8 for an `n` above [`MAX_LIST_BITS`] or
    /// an `a` above `n`.
    pub fn new(n: usize, a: usize) -> Result<SyndromeStrings, Refusal> {
        let numbers = strings_of_syndrome(n, a)?.into_iter();
        Ok(SyndromeStrings { bits: n, numbers })
    }

    /// The numbers of the strings that are still to come.
    pub fn numbers(&self) -> &[u32] {
        self.numbers.as_slice()
    }

    fn string(&self, number: u32) -> BitString {
        BitString::from_bits((0..self.bits).rev().map(|place| number >> place & 1 == 1))
            .expect("at most 20 bits")
    }
}

impl Iterator for SyndromeStrings {
    type Item = BitString;

    fn next(&mut self) -> Option<BitString> {
        let number = self.numbers.next()?;
        Some(self.string(number))
    }

    fn size_hint(&self) -> (usize, Option<usize>) {
        self.numbers.size_hint()
    }
}

impl DoubleEndedIterator for SyndromeStrings {
    fn next_back(&mut self) -> Option<BitString> {
        let number = self.numbers.next_back()?;
        Some(self.string(number))
    }
}

impl ExactSizeIterator for SyndromeStrings {}

impl FusedIterator for SyndromeStrings {}
