//! The proved source without its contracts and proofs.
// Made by rust/erase. Do not edit.
#![allow(clippy::all)]

pub(crate) mod arch;
pub(crate) mod tables;
pub(crate) mod text;
pub(crate) mod codec;
pub(crate) mod error;
#[cfg(all(test, feature = "std"))]
mod examples;

pub use self::arch::check_first::*;
pub use self::arch::plain::*;
pub use self::arch::*;
pub use self::tables::*;
pub use self::text::*;
pub use self::codec::checks::*;
pub use self::codec::decoder::*;
pub use self::codec::decoders::*;
pub use self::codec::encoders::*;
pub use self::error::*;

// The places that each rule of rust/erase has changed:
//
//   15  Rattle's std is the module std_shim
//    1  Rust's errors are not copied
//    2  a formatter has a lifetime in place of its writer's type
//   56  all crates are one module
//    2  an allocation never fails: without memory the program ends
//   78  an assertion names no runtime
//    3  an example names a kernel that each target has
//    4  an example uses no allocator
//    2  and a constant converts by a cast
//    1  and an error is borrowed
//    6  and kernels over vectors are there for WebAssembly alone
//   13  and panics instead of returning an error
//    1  and the crate's decoder is cloned
//    3  before it reads a part, or ends
//   38  deleted: attribute
//  415  deleted: clause
//   79  deleted: ghost item
//    3  deleted: model
//    8  deleted: output
//    1  each value may be dropped
//    4  kernels that no target uses are left out, and callers that nothing exports
//    1  the kernel is chosen for the processor
//   12  what a constant calls is constant
//    2  what an error alone needs is compiled in the crates that call it
//    2  what hexfilter uses of const_hex is a module of std_shim
