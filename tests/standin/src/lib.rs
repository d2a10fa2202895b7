//! A stand-in for the archive: the plain coder (`tests/plain`) under the archive's C names (`tests/names`), for a machine without the prover. It
//! shows that the header, the examples, the bindings and the tests fit together; it is never what a release links. Pointers and lengths are
//! those that include/zebrankai.h asks for.
#![allow(clippy::missing_safety_doc, clippy::too_many_arguments)]

use plain::{Refusal, Sizes};

/// The refusal's number in the low eight bits, what is reported above them.
fn answer(result: Result<usize, Refusal>) -> u64 {
    match result {
        Ok(value) => (value as u64) << 8,
        Err(refusal) => refusal as u64,
    }
}

macro_rules! exported {
    (($($plain:tt)*) $name:ident ($($c:tt)*) $rust:tt $to_c:tt ($($from_c:tt)*)) => {
        #[no_mangle]
        pub unsafe extern "C" fn $name($($c)*) -> u64 {
            answer(plain::$($plain)*($($from_c)*))
        }
    };
}

names::archive!(exported);

/// The name that gives a state, as it is.
macro_rules! exported_state {
    (($($plain:tt)*) $name:ident ($($c:tt)*) $rust:tt $to_c:tt ($($from_c:tt)*)) => {
        #[no_mangle]
        pub unsafe extern "C" fn $name($($c)*) -> u32 {
            plain::$($plain)*($($from_c)*)
        }
    };
}

names::state!(exported_state);
