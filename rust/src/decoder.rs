//! Decoding of text that arrives in chunks.

use crate::proved::codec::decoder;
use crate::FromHexError;
use core::fmt;

/// Decodes text that arrives in chunks, as from a file or a socket. Does not allocate.
///
/// The text may be split anywhere, even between the two digits of a byte or within the prefix. A prefix is removed only
/// at the start of the whole text, while [`decode_to_front`](crate::decode_to_front) would remove one from every chunk.
///
/// ```
/// # use const_hex_proved::{Decoder, FromHexError};
/// let mut decoder = Decoder::new();
/// let mut bytes = [0; 8];
/// let mut count = 0;
/// for chunk in ["0", "x6", "b697", "769"] {
///     count += decoder.decode(chunk, &mut bytes[count..])?;
/// }
/// assert_eq!(decoder.position(), 10);
/// decoder.finish()?;
/// assert_eq!(&bytes[..count], b"kiwi");
///
/// let mut decoder = Decoder::new();
/// let error = FromHexError::InvalidHexCharacter { c: 'x', index: 5 };
/// assert_eq!(decoder.decode("6161", &mut [0; 2]), Ok(2));
/// assert_eq!(decoder.decode("0x", &mut [0; 2]), Err(error));
/// assert_eq!(decoder.finish(), Err(error));
/// # Ok::<(), FromHexError>(())
/// ```
#[derive(Clone)]
pub struct Decoder(decoder::Decoder);

impl Decoder {
    /// Returns a decoder that has read nothing.
    #[inline]
    #[must_use]
    pub const fn new() -> Decoder {
        Decoder(decoder::Decoder::new())
    }

    /// Decodes the next chunk. Writes the new bytes to the front of `output`, and returns their number,
    /// which is at most `(chunk.len() + 1) / 2`. The rest of `output` is unchanged.
    ///
    /// Returns [`FromHexError::InvalidStringLength`] if `output` is too short for the new bytes. Neither it nor the
    /// decoder has changed then, and the call may be made again with a longer output. Returns
    /// [`FromHexError::InvalidHexCharacter`] with a position in the whole text if the chunk has an invalid character.
    /// Then `output` may already contain decoded bytes, and each later call for this decoder returns the same error.
    #[inline]
    pub fn decode<T: AsRef<[u8]>>(
        &mut self,
        chunk: T,
        output: &mut [u8],
    ) -> Result<usize, FromHexError> {
        self.0.decode(chunk.as_ref(), output)
    }

    /// Reads the next chunk, and returns an invalid character, as [`decode`](Decoder::decode) does, but writes nothing.
    ///
    /// ```
    /// # use const_hex_proved::Decoder;
    /// let mut decoder = Decoder::new();
    /// assert!(decoder.check("0x6b6").is_ok() && decoder.check("z").is_err());
    /// ```
    #[inline]
    pub fn check<T: AsRef<[u8]>>(&mut self, chunk: T) -> Result<(), FromHexError> {
        self.0.check(chunk.as_ref())
    }

    /// Returns how many bytes of text were read, prefix included, or `usize::MAX` if they were more. After an invalid
    /// character, returns its position.
    #[inline]
    #[must_use]
    pub fn position(&self) -> usize {
        self.0.position()
    }

    /// Finishes decoding. Returns `Ok` if the chunks together form complete text, whose bytes have then all been
    /// written. Otherwise returns the [`FromHexError::InvalidHexCharacter`] of a chunk, or else
    /// [`FromHexError::OddLength`].
    #[inline]
    pub fn finish(self) -> Result<(), FromHexError> {
        self.0.finish()
    }
}

/// Shows the [`position`](Decoder::position), and no digit.
impl fmt::Debug for Decoder {
    #[inline]
    fn fmt(&self, f: &mut fmt::Formatter<'_>) -> fmt::Result {
        let mut shown = f.debug_struct("Decoder");
        shown
            .field("position", &self.position())
            .finish_non_exhaustive()
    }
}

impl Default for Decoder {
    #[inline]
    fn default() -> Decoder {
        Decoder::new()
    }
}
