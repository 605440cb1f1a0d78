//! The machine code of the calls, as the assembly text that Rattle's toolchain made of the library it
//! proved. rustc's own assembler takes it in, so no C compiler is needed.
//!
//! Each name in it carries the version, and those of the calls are hidden. So another version of this
//! crate, and the library for C, may be in the same program.

// where this symbol is, the calls have the names of `ffi`, and else those of the header
#[cfg(all(target_os = "linux", target_arch = "x86_64", target_pointer_width = "64"))]
std::arch::global_asm!(
    ".set .Lunftp_hidden, 1",
    include_str!("../generated/x86_64-linux.s"),
    options(att_syntax, raw)
);

#[cfg(all(target_os = "linux", target_arch = "aarch64", target_pointer_width = "64"))]
std::arch::global_asm!(
    ".set .Lunftp_hidden, 1",
    include_str!("../generated/aarch64-linux.s"),
    options(raw)
);

#[cfg(not(any(
    doc,
    all(
        target_os = "linux",
        target_pointer_width = "64",
        any(target_arch = "x86_64", target_arch = "aarch64")
    )
)))]
compile_error!(
    "unftp_control has machine code for Linux on x86-64 and aarch64 only; the feature `system` links \
     an installed library"
);
