//! Marker words: a message in a word of a wanted syndrome, which survives one lost or added bit.

use crate::{unpack, BitString, Ends, Library, Refusal, MAX_MARKER_BITS};

/// The marker words of n bits with syndrome a, one for each message of n - t bits, where t is
/// ceil(log2(n + 1)), the count of n's binary digits.
///
/// The message's bits stand in order at the places, counted from 1, that are not powers of two. The
/// places 1, 2, 4, .. hold a number, the place 2^j its digit of 2^j: a less the sum of the places
/// of the message's ones, modulo n + 1.
///
/// ```
/// use lunetteorris::{syndrome, BitString, Marker};
///
/// let marker = Marker::new(7, 5)?;
/// assert_eq!(marker.message_bits(), 4);
///
/// // The message stands at places 3, 5, 6 and 7. Its ones have the sum 3 + 6 + 7, and 5 - 16 is 5
/// // modulo 8: a 1 at places 1 and 4, a 0 at place 2.
/// let message: BitString = "1011".parse()?;
/// let word = marker.build(&message)?;
/// assert_eq!(word.to_string(), "1011011");
/// assert_eq!(syndrome(&word)?, 5);
///
/// assert_eq!(marker.read(&word)?.as_ref(), Some(&message));
/// assert_eq!(marker.read(&"101011".parse()?)?.as_ref(), Some(&message)); // a 1 lost
/// assert_eq!(marker.read(&"10011011".parse()?)?.as_ref(), Some(&message)); // a 0 added
/// assert_eq!(marker.read(&"0011011".parse()?)?, None); // a bit altered
/// # Ok::<(), lunetteorris::Refusal>(())
/// ```
#[derive(Clone, Copy, Debug, PartialEq, Eq, Hash)]
pub struct Marker {
    n: usize,
    a: usize,
}

impl Marker {
    /// The words of `n` bits with syndrome `a`. Refusal 8 for an `n` of 0 or above
    /// [`MAX_MARKER_BITS`], or an `a` above `n`.
    pub fn new(n: usize, a: usize) -> Result<Marker, Refusal> {
        if !(1..=MAX_MARKER_BITS).contains(&n) || a > n {
            return Err(Refusal::OutOfRange);
        }
        Ok(Marker { n, a })
    }

    /// The bits of a word, n.
    pub fn bits(&self) -> usize {
        self.n
    }

    /// The words' syndrome, a.
    pub fn syndrome(&self) -> usize {
        self.a
    }

    /// The bits of a message: n less one for each place 1, 2, 4, .. to n.
    pub fn message_bits(&self) -> usize {
        self.n - 1 - self.n.ilog2() as usize
    }

    /// The word of a message. Refusal 15 if the message has another count of bits than
    /// [`message_bits`](Marker::message_bits).
    pub fn build(&self, message: &BitString) -> Result<BitString, Refusal> {
        let mut word = vec![0; self.n.div_ceil(8)];
        let (bytes, bits) = (message.as_bytes(), message.bits());
        unpack(Library::marker_build(
            bytes, bits, self.n, self.a, &mut word,
        ))?;
        BitString::from_bytes(word, self.n)
    }

    /// The message of the word that was received whole, with one bit lost or with one bit added;
    /// `None` exactly if no word that [`build`](Marker::build) makes here is `received` or one lost
    /// or added bit away from it. Refusal 8 for another length than n - 1, n or n + 1.
    ///
    /// A string of syndrome a is no word of a message if the number at places 1, 2, 4, .. is above
    /// n:
    ///
    /// ```
    /// use lunetteorris::{BitString, Marker};
    ///
    /// let marker = Marker::new(2, 0)?; // 1 + 2 is 0 modulo 3
    /// assert_eq!(marker.read(&"11".parse()?)?, None);
    /// assert_eq!(marker.read(&"00".parse()?)?, Some(BitString::default()));
    /// # Ok::<(), lunetteorris::Refusal>(())
    /// ```
    pub fn read(&self, received: &BitString) -> Result<Option<BitString>, Refusal> {
        let mut message = vec![0; self.message_bits().div_ceil(8)];
        let (bytes, bits) = (received.as_bytes(), received.bits());
        let found = unpack(Library::marker_read(
            bytes,
            bits,
            self.n,
            self.a,
            &mut message,
        ))?;
        if found == 0 {
            return Ok(None);
        }
        BitString::from_bytes(message, self.message_bits()).map(Some)
    }
}
