//! A fuzzing target for each call of the C interface: an input's bytes become arguments, on which library and second
//! implementation must agree, in their answers and in every byte that they were lent.

mod both;
mod calls;
pub mod corpus;
mod disk;
mod fenced;
mod flash;
mod input;

pub use both::Outcome;

use input::Input;
use second::{Rules, RULES};

/// A call by its name in the C interface.
#[derive(Clone, Copy)]
pub struct Target {
    pub call: &'static str,
    run: fn(&Rules, &mut Input) -> Outcome,
}

impl Target {
    /// What differs between the library and the second implementation under these rules.
    pub fn compare(&self, rules: &Rules, input: &[u8]) -> Outcome {
        (self.run)(rules, &mut Input::new(input))
    }
}

macro_rules! targets {
    ($($entry:ident $call:ident)*) => {
        pub const TARGETS: &[Target] = &[$(Target { call: stringify!($call), run: calls::$call }),*];

        $(
            /// For the fuzzer: ends the program where the two differ.
            ///
            /// # Safety
            /// `data` points to `len` bytes.
            #[no_mangle]
            pub unsafe extern "C" fn $entry(data: *const u8, len: usize) -> i32 {
                let input = if len == 0 { &[] } else { std::slice::from_raw_parts(data, len) };
                if let Err(difference) = calls::$call(&RULES, &mut Input::new(input)) {
                    eprintln!("{}: {difference}", stringify!($call));
                    std::process::abort();
                }
                0
            }
        )*
    };
}

targets! {
    fuzz_usi_crc32 usi_crc32
    fuzz_usi_guid_read usi_guid_read
    fuzz_usi_type_read usi_type_read
    fuzz_usi_guid_write usi_guid_write
    fuzz_usi_fmap_find usi_fmap_find
    fuzz_usi_fmap_fault usi_fmap_fault
    fuzz_usi_fmap_area usi_fmap_area
    fuzz_usi_fmap_named usi_fmap_named
    fuzz_usi_fmap_carry usi_fmap_carry
    fuzz_usi_gpt_format usi_gpt_format
    fuzz_usi_gpt_build usi_gpt_build
    fuzz_usi_gpt_read usi_gpt_read
    fuzz_usi_gpt_table usi_gpt_table
    fuzz_usi_gpt_free usi_gpt_free
    fuzz_usi_gpt_check usi_gpt_check
    fuzz_usi_gpt_add usi_gpt_add
    fuzz_usi_gpt_delete usi_gpt_delete
    fuzz_usi_gpt_resize usi_gpt_resize
    fuzz_usi_gpt_rename usi_gpt_rename
    fuzz_usi_gpt_repair usi_gpt_repair
    fuzz_usi_fmd_read usi_fmd_read
    fuzz_usi_fmd_records usi_fmd_records
    fuzz_usi_fmd_write usi_fmd_write
}
