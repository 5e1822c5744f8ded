//! Selects the kernel for the target: verified machine code if there is some, for WebAssembly with `simd128` the proved
//! source's kernel over vectors, and otherwise its portable kernel.

/// Compiles the items of the first branch whose `cfg` condition holds.
macro_rules! first_matching_cfg {
    (
        if $first:meta { $($item:item)* }
        else if $second:meta { $($other:item)* }
        else { $($last:item)* }
    ) => {
        $(#[cfg($first)] $item)*
        $(#[cfg(all(not($first), $second))] $other)*
        $(#[cfg(not(any($first, $second)))] $last)*
    };
}

// Miri runs no machine code, `cpuid` is illegal in an SGX enclave, code for the kernel of an operating system often may
// not use vector registers, and bare-metal aarch64 may have no unaligned accesses.
first_matching_cfg! {
    if all(
        any(
            all(target_arch = "x86_64", target_feature = "sse2", not(target_env = "sgx")),
            all(target_arch = "aarch64", target_feature = "neon", target_endian = "little", not(target_os = "none")),
        ),
        target_pointer_width = "64",
        not(any(miri, feature = "force-generic")),
    ) {
        mod machine_code;
        mod native;
        use machine_code::secret as constant_time;
        use machine_code as unchecked;
        // The fallback for few processors, so it has smaller tables.
        use crate::proved::Compact as Portable;
        pub use native::MachineCode as TargetKernel;
    } else if all(target_arch = "wasm32", target_feature = "simd128", not(feature = "force-generic")) {
        mod lanes;
        use arithmetic as constant_time;
        use portable as unchecked;
        use crate::proved::arch::lanes16::Lanes16 as Portable;
        pub use lanes::Vectors as TargetKernel;
    } else {
        use arithmetic as constant_time;
        use portable as unchecked;
        use TargetKernel as Portable;
        pub use crate::proved::Plain as TargetKernel;
    }
}
#[allow(dead_code)] // AArch64 has machine code in any case.
mod arithmetic;
#[cfg(feature = "alloc")]
mod owned;
#[allow(dead_code)] // No target needs all of it.
mod portable;
pub mod secret;
mod stack_buffer;
#[cfg(feature = "alloc")]
pub use owned::*;
pub use stack_buffer::StackBuffer;
