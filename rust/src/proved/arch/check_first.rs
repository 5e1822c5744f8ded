// Made by rust/erase from crates/const_hex_arch/src/arch/check_first.rt. Do not edit.
//! A kernel that checks all of a text before it decodes it.

use crate::std_shim::prelude::*;
use crate::proved::arch::Kernel;
use crate::std_shim::marker::PhantomData;

/// The kernel `K`, but it decodes a text only after it has checked all of it. So an error leaves
/// the output unchanged.
pub struct CheckFirst<K> {
    kernel: PhantomData<K>,
}

// Neither a contract nor a test notices whether it checks by `K`, since every kernel returns the same
// results.
impl<K: Kernel> Kernel for CheckFirst<K> {
    const USE_CHECK_FN: bool = true;

    const PIECE: usize = K::PIECE;

    #[inline(always)]
    fn fill(input: &[u8], upper: bool, output: &mut [u8]) {
        K::fill(input, upper, output);
    }

    #[inline(always)]
    fn check(input: &[u8]) -> bool {
        K::check(input)
    }

    // Not `always`: `decode_body` calls this in a branch that is never taken for most kernels. LLVM counts that branch
    // before it removes it, and with this body in it, the decoders would be too large to be inlined.
    #[inline]
    fn decode_checked(input: &[u8], output: &mut [u8]) -> bool {
        if !K::check(input) {
            return false;
        }
        K::decode_unchecked(input, output);
        true
    }

    #[inline(always)]
    fn decode_unchecked(input: &[u8], output: &mut [u8]) {
        K::decode_unchecked(input, output);
    }
}
