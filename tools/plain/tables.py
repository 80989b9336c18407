"""The forms of Rattle that plain Rust writes differently, or also has. A form that no table lists is rejected."""
from __future__ import annotations

# The crates, lowest first, and their dependencies besides std: crates of the workspace, and of crates.io.
CRATES = {
    "devices": [],
    "pbm_core": ["devices", "thiserror"],
    "qm_core": [],
    "raster_core": ["qm_core"],
    "t85_core": ["devices", "pbm_core", "qm_core", "raster_core", "kit", "byteorder", "memchr", "thiserror"],
    "libt85": ["devices", "pbm_core", "qm_core", "raster_core", "t85_core", "kit", "byteorder"],
    "program_core": ["t85_core", "devices", "kit", "clap"],
    "jbgtopbm85": ["devices", "program_core", "kit"],
    "pbmtojbg85": ["devices", "program_core", "kit"],
    "tests": ["devices", "pbm_core", "qm_core", "raster_core", "t85_core", "program_core", "kit"],
}
ABOUT = {
    "devices": "Sources and destinations of bytes",
    "pbm_core": "Images in the PBM format",
    "qm_core": "The arithmetic coder of JBIG1",
    "raster_core": "Rows, templates and typical prediction of JBIG1",
    "t85_core": "The stream layer of JBIG1 in the fax profile T.85",
    "libt85": "A C library for JBIG1 in the fax profile T.85",
    "program_core": "The command lines of pbmtojbg85 and jbgtopbm85",
    "jbgtopbm85": "Converts a JBIG1 stream of the fax profile T.85 to a PBM image",
    "pbmtojbg85": "Converts a PBM image to a JBIG1 stream of the fax profile T.85",
    "tests": "Tests of the crates below the programs, and of both programs",
}
DEPENDENCIES = {
    "byteorder": 'byteorder = { version = "1", default-features = false }',
    "memchr": 'memchr = { version = "2", default-features = false }',
    "thiserror": 'thiserror = "1"',
    "clap": 'clap = { path = "../kit_clap", package = "kit_clap" }',
}
# Crates that need only Rust's core, unless the feature `std` is on: the modules, the exports and the dependencies that need it.
WITHOUT_STD = {"devices", "pbm_core", "qm_core", "raster_core", "t85_core", "libt85"}
STD_MODULES = {"devices": ["adapters"], "t85_core": ["conversion"]}
STD_EXPORTS = {"pbm_core": ("devices", ["FromRead", "ToWrite"])}
STD_DEPENDENCIES = {"thiserror", "kit"}
STD_FEATURES = {
    "devices": [],
    "pbm_core": ["devices/std", "dep:thiserror"],
    "t85_core": ["pbm_core/std", "memchr/std", "dep:kit", "dep:thiserror"],
    "libt85": ["pbm_core/std", "t85_core/std"],
}
# Items of std that Rust has under the same name, and those of the crate `kit`, by module.
OF_RUST = {
    "io": {"self", "Read", "Write", "Result", "ErrorKind"},
    "process": {"ExitCode"},
    "ops": {"Range"},
    "mem": {"replace", "size_of"},
    "fmt": {"self", "Display", "Write"},
    "cell": {"Cell"},
}
OF_CORE = {"ops", "mem", "fmt", "cell"}
OF_KIT = {
    "alloc": {"AllocError", "AllocFailed", "Global"},
    "convert": {"AsStr"},
    "env": {"Args", "args"},
    "fmt": {"InlineText"},
    "fs": {"self", "File", "FileType"},
    "io": {"Stdin", "Stdout"},
    "os": {"AsRawFd", "RawFd"},
    "process": {"Abort"},
    "str": {"FromStr"},
    "test": {"Fail"},
}
# In crates that contain only tests, `Vec` and `String` are those of `kit`, and these methods take an allocator.
OF_TESTS = {"tests"}
WITH_ALLOC = {"to_vec": "ToVec", "repeat": "Repeat"}
# Methods that Rust's library has only since a version after 1.63, and the trait of the crate `newer` that supplies them.
NEWER = {"div_ceil": "DivCeil", "first_chunk": "FirstChunk"}
# Names of Rattle's prelude that Rust's does not have.
PRELUDE = {"HostRuntime"}
# Macros that take a handle, and those with another name in Rust.
WITH_HANDLE = {"vec", "format", "assert", "assert_eq", "assert_ne"}
RENAMED = {"prove": "debug_assert", "prove_eq": "debug_assert_eq", "prove_ne": "debug_assert_ne"}
SAME_MACROS = {"matches", "unreachable", "write", "format_args", "macro_rules", "value_parser"}
KEPT_ATTRIBUTES = {
    "inline", "inline(always)", "inline(never)", "cold", "cfg(test)", "repr(C)", "must_use",
}  # fmt: skip
DERIVES = {"Clone", "Copy", "Debug", "PartialEq", "Eq", "PartialOrd", "Ord", "Default", "Error"}
# Words that Rattle and Rust read differently, or that have no place in these crates.
REJECTED = {
    "clone", "size_of", "size_of_val", "async", "await", "dyn", "static_mut", "transmute", "spawn", "final", "union",
    "expect",
}  # fmt: skip
# A type's size is proved by this line alone, and Rust checks it as it compiles.
SIZE_CHECK = r"const _: \(\) = prove!\(std::mem::size_of::<\w+>\(\) == \w+\)"
ROOT_LINES = "#![allow(unused_labels, unused_variables, dead_code, unused_imports, unused_must_use)]\n#![allow(clippy::all, unstable_name_collisions)]\n"
# Without std, the C library needs a panic handler, which ends the process. The proofs show that no call of the library panics.
# Rust's core refers to the last function in builds without optimization.
PANIC_LINES = """
#[cfg(not(any(feature = "std", test)))]
#[panic_handler]
fn panic(_: &core::panic::PanicInfo<'_>) -> ! {
    #[cfg(target_arch = "wasm32")]
    core::arch::wasm32::unreachable();
    #[cfg(not(target_arch = "wasm32"))]
    {
        extern "C" {
            fn abort() -> !;
        }
        unsafe { abort() }
    }
}

#[cfg(all(debug_assertions, not(any(feature = "std", test))))]
#[no_mangle]
pub extern "C" fn rust_eh_personality() {}
"""
