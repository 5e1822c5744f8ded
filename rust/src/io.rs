//! A reader that decodes, and a writer that encodes.

use crate::{encode_to_slice, Decoder};
use std::io::{BufRead, BufReader, BufWriter, Error, ErrorKind, Read, Result, Write};

/// Wraps a reader of hexadecimal text, and yields the decoded bytes. Allocates a buffer for the text, which ends where
/// the inner reader first returns no bytes.
///
/// A read returns the inner reader's error, and may be repeated. It returns an error of the kind `InvalidData` with the
/// [`FromHexError`](crate::FromHexError) inside for an invalid character, or for an odd length at the end of the text. Each later read
/// returns that error too. Bytes that the failing read has decoded before an invalid character are not returned.
///
/// ```
/// # use const_hex_proved::DecodeReader;
/// use std::io::Read;
///
/// let (mut reader, mut bytes) = (DecodeReader::new("0x6b697769".as_bytes()), Vec::new());
/// reader.read_to_end(&mut bytes)?;
/// assert_eq!(bytes, b"kiwi");
/// assert!(reader.get_ref().is_empty() && reader.into_inner().is_empty());
/// # Ok::<(), std::io::Error>(())
/// ```
#[derive(Debug)]
pub struct DecodeReader<R> {
    text: BufReader<R>,
    decoder: Decoder,
    /// Whether there are no more bytes. The decoder keeps an error of the text.
    is_at_end: bool,
}

impl<R: Read> DecodeReader<R> {
    /// Returns a reader of the bytes that the text of `reader` decodes to.
    pub fn new(reader: R) -> DecodeReader<R> {
        DecodeReader {
            text: BufReader::new(reader),
            decoder: Decoder::new(),
            is_at_end: false,
        }
    }

    /// Returns the inner reader. More of its text may have been read than was decoded.
    pub fn get_ref(&self) -> &R {
        self.text.get_ref()
    }

    /// Returns the inner reader. Text that is buffered and not yet decoded is lost.
    pub fn into_inner(self) -> R {
        self.text.into_inner()
    }
}

impl<R: Read> Read for DecodeReader<R> {
    fn read(&mut self, output: &mut [u8]) -> Result<usize> {
        let mut count = 0;
        while !self.is_at_end && count == 0 && !output.is_empty() {
            let text = self.text.fill_buf()?;
            // This number of digits fills the output, also if the decoder has a pending digit.
            let length = text.len().min(output.len().saturating_mul(2));
            let decoded = self.decoder.decode(&text[..length], output);
            self.is_at_end = text.is_empty() || decoded.is_err();
            self.text.consume(length);
            count = decoded.unwrap_or(0);
        }
        match self.decoder.clone().finish() {
            Err(error) if self.is_at_end => Err(Error::new(ErrorKind::InvalidData, error)),
            _ => Ok(count),
        }
    }
}

/// Wraps a writer, and writes two lowercase digits to it for each byte. Allocates a buffer for the text.
///
/// As with [`BufWriter`], text may stay in the buffer until the next `flush`. When all is written, call
/// [`finish`](EncodeWriter::finish): dropping the writer also writes the buffer, but ignores an error. A write that
/// returns the inner writer's error has consumed none of the bytes, so it may be repeated.
///
/// ```
/// # use const_hex_proved::EncodeWriter;
/// use std::io::Write;
///
/// let mut writer = EncodeWriter::new(Vec::new());
/// writer.write_all(b"ki")?;
/// writer.flush()?;
/// assert_eq!(writer.get_ref(), b"6b69");
/// writer.write_all(b"wi")?;
/// assert_eq!(writer.finish()?, b"6b697769");
/// # Ok::<(), std::io::Error>(())
/// ```
// Not over the proved `WriteSink`, which keeps its first error: a call of the inner writer may be repeated after one.
#[derive(Debug)]
pub struct EncodeWriter<W: Write>(BufWriter<W>);

/// The number of bytes that are encoded at a time.
const CHUNK: usize = 256;

impl<W: Write> EncodeWriter<W> {
    /// Returns a writer of bytes, whose text goes to `writer`.
    pub fn new(writer: W) -> EncodeWriter<W> {
        // Text that is shorter than the buffer is buffered completely or not at all.
        EncodeWriter(BufWriter::with_capacity(16 * CHUNK, writer))
    }

    /// Returns the inner writer. Some of the text may still be in the buffer.
    pub fn get_ref(&self) -> &W {
        self.0.get_ref()
    }

    /// Returns the inner writer, and discards the text in the buffer. To write it, use
    /// [`finish`](EncodeWriter::finish).
    pub fn into_inner(self) -> W {
        self.0.into_parts().0
    }

    /// Writes the buffer, flushes the inner writer, and returns it. After an error of the inner writer, which is
    /// returned, it is dropped, after one more attempt to write the buffer.
    pub fn finish(mut self) -> Result<W> {
        self.0.flush()?;
        self.0.into_inner().map_err(|error| error.into_error())
    }
}

impl<W: Write> Write for EncodeWriter<W> {
    fn write(&mut self, bytes: &[u8]) -> Result<usize> {
        let mut text = [0; 2 * CHUNK];
        let bytes = &bytes[..bytes.len().min(CHUNK)];
        let text = &mut text[..2 * bytes.len()];
        encode_to_slice(bytes, text).expect("the text has two digits per byte");
        self.0.write_all(text)?;
        Ok(bytes.len())
    }

    fn flush(&mut self) -> Result<()> {
        self.0.flush()
    }
}
