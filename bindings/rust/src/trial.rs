//! The trial file: bytes to try things with, the same from one seed on every machine.

// As include/zebrankai.h declares it.
extern "C" {
    fn zbk_trial_file(seed: u32, out: *mut u8, out_len: usize) -> u32;
}

/// The trial file: fills all of `out` with the bytes that a generator emits with `seed` as its starting state, and gives the state after them. Each
/// step replaces the state by state × 1664525 + 1013904223, modulo 2³², and emits the top eight bits of the new one.
///
/// The state that it gives goes on as the seed of the next call, so a longer file can be drawn in parts, of any lengths: one after another they are
/// the whole. It refuses nothing; where `out` has no bytes it gives the seed. The bytes are for trials alone: whoever sees some of them can tell the
/// rest.
///
/// ```
/// use zebrankai::trial_file;
///
/// let mut whole = [0; 6];
/// let state = trial_file(0, &mut whole);
/// assert_eq!(whole, [0x3C, 0x47, 0xD1, 0xAA, 0x62, 0x9F]);
///
/// // the same in two parts
/// let mut parts = [0; 6];
/// let between = trial_file(0, &mut parts[..2]);
/// assert_eq!(trial_file(between, &mut parts[2..]), state);
/// assert_eq!(parts, whole);
/// ```
pub fn trial_file(seed: u32, out: &mut [u8]) -> u32 {
    // Safety: the output is handed over as its pointer, which is never null, and its length, and is lent to this call alone
    unsafe { zbk_trial_file(seed, out.as_mut_ptr(), out.len()) }
}
