//! The machine code in `../asm`, which on x86-64 dispatches to one of two builds of it or to the portable functions.
//!
//! The tool `machine_code` in the repository has proved what each function that is declared here does with its
//! arguments. It reads no byte of its output that it has not written. The symbols contain the version of this crate, so
//! that a program may link several. In ELF and Mach-O they have hidden visibility.

// What assembles the files for the proof needs the directive for the syntax that is the default here.
#![allow(bad_asm_style)]

/// Assembles the files for the processor, with the directives for the format of the object file.
macro_rules! assemble {
    ($directives:literal) => {
        #[cfg(target_arch = "x86_64")]
        core::arch::global_asm!(
            include_str!($directives),
            include_str!("../asm/x86_64_v2.s"),
            include_str!("../asm/x86_64_v3.s"),
            include_str!("../asm/dispatch.s"),
            include_str!("../asm/end.s"),
            options(raw)
        );
        #[cfg(target_arch = "aarch64")]
        core::arch::global_asm!(
            include_str!($directives),
            include_str!("../asm/aarch64.s"),
            include_str!("../asm/end.s"),
            options(raw)
        );
    };
}
#[cfg(target_vendor = "apple")]
assemble!("../asm/mach_o.s");
#[cfg(any(windows, target_os = "uefi", target_os = "cygwin"))]
assemble!("../asm/coff.s");
#[cfg(not(any(
    windows,
    target_os = "uefi",
    target_os = "cygwin",
    target_vendor = "apple"
)))]
assemble!("../asm/elf.s");

/// Whether the crate is compiled for x86-64-v3.
#[cfg(target_arch = "x86_64")]
const IS_V3: bool = cfg!(all(
    target_feature = "avx2",
    target_feature = "bmi1",
    target_feature = "bmi2",
    target_feature = "f16c",
    target_feature = "fma",
    target_feature = "lzcnt",
    target_feature = "movbe",
));

/// Defines functions that call the machine code. They have no `#[inline]`: another crate may be part of another shared
/// library, where the hidden symbols cannot be linked. Link-time optimization inlines them, which saves a jump. With
/// `extern "C"` they do not unwind, so callers need no landing pads. `$module` has the portable functions.
macro_rules! define_functions {
    ($module:ident: $(
        $(#[$comment:meta])*
        $name:ident($($argument:ident: $type:ty),*) $(-> $result:ty)?, $for_cpu:ident, $v3:ident;
    )*) => {$(
        $(#[$comment])*
        pub unsafe extern "C" fn $name($($argument: $type),*) $(-> $result)? {
            #[cfg(target_arch = "aarch64")]
            extern "C" {
                fn $for_cpu($($argument: $type),*) $(-> $result)?;
            }
            #[cfg(target_arch = "x86_64")]
            extern "sysv64" {
                fn $for_cpu($($argument: $type,)* portable: Portable) $(-> $result)?;
                fn $v3($($argument: $type),*) $(-> $result)?;
            }
            #[cfg(target_arch = "x86_64")]
            type Portable = unsafe extern "sysv64" fn($($type),*) $(-> $result)?;
            #[cfg(target_arch = "x86_64")]
            unsafe extern "sysv64" fn portable($($argument: $type),*) $(-> $result)? {
                // SAFETY: the caller promises what the function requires.
                unsafe { crate::kernel::$module::$name($($argument),*) }
            }
            // SAFETY: the same.
            unsafe {
                #[cfg(target_arch = "aarch64")]
                return $for_cpu($($argument),*);
                #[cfg(target_arch = "x86_64")]
                if crate::kernel::machine_code::IS_V3 {
                    $v3($($argument),*)
                } else {
                    $for_cpu($($argument,)* portable)
                }
            }
        }
    )*};
}

define_functions! {
    portable:
    /// Fills the text with the lowercase digits of the bytes.
    ///
    /// Safety: `bytes` has `length` bytes, and `text` is valid for writes of twice as many. These need not be
    /// initialized, and are afterwards.
    fill_lower(bytes: *const u8, length: usize, text: *mut u8),
        const_hex_1_0_0_fill_lower, const_hex_1_0_0_fill_lower_v3;
    /// As `fill_lower`, in uppercase. Safety: the same.
    fill_upper(bytes: *const u8, length: usize, text: *mut u8),
        const_hex_1_0_0_fill_upper, const_hex_1_0_0_fill_upper_v3;
    /// Returns whether every byte of the text is a digit.
    ///
    /// Safety: the text has `length` bytes.
    check(text: *const u8, length: usize) -> bool, const_hex_1_0_0_check, const_hex_1_0_0_check_v3;
    /// Decodes the text to the bytes, and returns true. Returns false if some character is not a digit. Then bytes
    /// before it may be written, and no others.
    ///
    /// Safety: `bytes` is valid for writes of `length` bytes, and the text has two bytes for each of them. What is
    /// written need not be initialized, and is afterwards if the result is true.
    read(text: *const u8, bytes: *mut u8, length: usize) -> bool, const_hex_1_0_0_read, const_hex_1_0_0_read_v3;
}

/// The same for secrets: where there is no machine code for the CPU, by arithmetic, and not by a table.
pub mod secret {
    define_functions! {
        arithmetic:
        /// Safety: as for the function of this name above, and all bytes are initialized.
        fill_lower(bytes: *const u8, length: usize, text: *mut u8),
            const_hex_1_0_0_fill_lower, const_hex_1_0_0_fill_lower_v3;
        /// Safety: the same.
        fill_upper(bytes: *const u8, length: usize, text: *mut u8),
            const_hex_1_0_0_fill_upper, const_hex_1_0_0_fill_upper_v3;
        /// Safety: the same.
        read(text: *const u8, bytes: *mut u8, length: usize) -> bool, const_hex_1_0_0_read, const_hex_1_0_0_read_v3;
    }
}
