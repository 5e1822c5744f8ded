//! Calls of hexadecimal codecs on prepared input, each as its user writes it.

mod libraries;

pub use libraries::cases;

/// The numbers of bytes that are encoded, or decoded to.
pub const SIZES: [usize; 20] = [
    1, 2, 3, 4, 8, 12, 16, 17, 20, 24, 32, 33, 48, 64, 65, 128, 256, 2048, 16_384, 131_072,
];

/// One call of one library, on input of one size.
pub struct Case {
    /// The name of the call, such as `encode_to_slice`, with what is invalid.
    pub call: String,
    pub library: &'static str,
    pub size: usize,
    prepare: Box<dyn Fn() -> Repeat>,
}

/// Makes a call a number of times. The loop is in the closure, so that only the loop is called through a pointer.
pub type Repeat = Box<dyn FnMut(usize)>;

impl Case {
    /// The call with its buffers. If they are allocated for each measurement, they have the same addresses for each
    /// library: a store that crosses a page is slow.
    pub fn prepared(&self) -> Repeat {
        (self.prepare)()
    }
}
