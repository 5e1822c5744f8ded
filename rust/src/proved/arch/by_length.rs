// Made by rust/erase from crates/const_hex_arch/src/arch/by_length.rt. Do not edit.
//! The kernels with lanes: which blocks they take at which length. docs/DESIGN.md has the table.
//!
//! Neither a contract nor a test notices which blocks are taken where others give the same result: compare a change
//! with "Blocks by length" in docs/DESIGN.md.

use crate::std_shim::prelude::*;
use crate::proved::arch::lanes::LaneOps;
use crate::proved::arch::{Kernel, blocks, long, short};
use crate::std_shim::marker::PhantomData;

/// A kernel whose blocks have `N` lanes. Inputs that are too short for them take vectors of 16 lanes. `V` has the
/// operations on vectors.
pub struct ByLength<const N: usize, V> {
    operations: PhantomData<V>,
}

impl<const N: usize, V: LaneOps<N> + LaneOps<16>> Kernel for ByLength<N, V> {
    const USE_CHECK_FN: bool = false;

    const PIECE: usize = 2 * N;

    #[inline(always)]
    fn fill(input: &[u8], upper: bool, output: &mut [u8]) {
        // 16 bytes first: many identifiers have this length, which takes one block.
        // Up to 32 bytes in pairs of 16 also where N is 32: a block of 32 lanes would fit one length alone.
        if input.len() == 16 {
            blocks::fill_block::<16, V>(input, upper, output);
        } else if input.len() < 16 {
            short::fill(input, upper, output);
        } else if input.len() <= 32 {
            short::fill_two_vectors::<16, V>(input, upper, output);
        } else if input.len() <= 2 * N {
            short::fill_two_vectors::<N, V>(input, upper, output);
        } else {
            long::fill::<N, V>(input, upper, output);
        }
    }

    // Not `always`: `decode_body` calls `CheckFirst::<K>` in a branch that is never taken for this kernel. LLVM counts
    // that branch before it removes it, and with all of `check` in it, the decoders would be too large to be inlined.
    #[inline]
    fn check(input: &[u8]) -> bool {
        if input.len() < 16 {
            short::check::<V>(input)
        } else if input.len() <= 32 {
            short::check_two_vectors::<16, V>(input)
        } else if input.len() <= 2 * N {
            short::check_two_vectors::<N, V>(input)
        } else {
            long::check::<N, V>(input)
        }
    }

    /// All whole blocks before an invalid character are decoded, and of a remainder of less than 16 bytes all pairs
    /// before it. So a caller finds the same bytes there as after const-hex.
    #[inline(always)]
    fn decode_checked(input: &[u8], output: &mut [u8]) -> bool {
        Self::decode_all(input, output) || long::decode_before_invalid::<N, V>(input, output)
    }

    #[inline(always)]
    fn decode_all(input: &[u8], output: &mut [u8]) -> bool {
        // Cut to the length that the output implies: so a function that is not inlined, such as `read` of const_hex_c,
        // takes no length of the text.
        let text = &input[..2 * output.len()];
        if output.len() <= 16 {
            short::decode::<V>(text, output)
        } else if output.len() <= N {
            short::decode_two_vectors::<N, V>(text, output)
        } else {
            long::decode::<N, V>(text, output)
        }
    }

    #[inline(always)]
    fn decode_unchecked(input: &[u8], output: &mut [u8]) {
        if output.len() < N {
            // The digits are checked once more, since no function for short inputs leaves that out. It returns true.
            Self::decode_all(input, output);
        } else {
            long::decode_unchecked::<N, V>(input, output);
        }
    }
}
