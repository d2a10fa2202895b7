//! The trial file (request A.2): the bytes that a generator of 32 bits emits from a seed on.

/// Fills the output with the bytes emitted from this state on, the top eight bits of each new one; gives the state after them.
pub fn fill(seed: u32, out: &mut [u8]) -> u32 {
    let mut state = seed;
    for byte in out.iter_mut() {
        state = state.wrapping_mul(1_664_525).wrapping_add(1_013_904_223);
        *byte = (state >> 24) as u8;
    }
    state
}
