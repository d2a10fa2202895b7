//! The coder's own generator (request A.2 of document 02), over whole numbers: "A generator keeps a 32-bit state; each step replaces it by state
//! times 1664525 plus 1013904223, modulo 2 to the 32, and emits the top eight bits." And the state after any number of steps without making them:
//! two steps are one of the same form, with another factor and another summand.

use crate::call::{Call, Lent, Outcome};

/// 2 to the 32.
pub const STATES: u64 = 4_294_967_296;

/// Of 256 states one after another all have the same top eight bits.
const TOP: u64 = STATES / 256;

pub struct Stream {
    state: u64,
}

impl Stream {
    /// "with the seed as starting state".
    pub fn new(seed: u64) -> Stream {
        assert!(seed < STATES);
        Stream { state: seed }
    }

    pub fn next(&mut self) -> u8 {
        self.state = STEP.of(self.state);
        (self.state / TOP) as u8
    }

    pub fn take(&mut self, count: usize) -> Vec<u8> {
        (0..count).map(|_| self.next()).collect()
    }
}

/// So many steps as one: a state times the factor plus the summand.
#[derive(Clone, Copy)]
struct Steps {
    factor: u64,
    summand: u64,
}

const STEP: Steps = Steps { factor: 1_664_525, summand: 1_013_904_223 };

impl Steps {
    fn of(self, state: u64) -> u64 {
        ((u128::from(state) * u128::from(self.factor) + u128::from(self.summand)) % u128::from(STATES)) as u64
    }

    /// These, and then others.
    fn then(self, others: Steps) -> Steps {
        let factor = u128::from(self.factor) * u128::from(others.factor) % u128::from(STATES);
        Steps { factor: factor as u64, summand: others.of(self.summand) }
    }
}

/// The state after so many steps, by the binary digits of their number.
pub fn after(seed: u64, count: usize) -> u64 {
    let mut state = seed;
    let mut twice = STEP;
    let mut left = count;
    while left > 0 {
        if left % 2 == 1 {
            state = twice.of(state);
        }
        twice = twice.then(twice);
        left /= 2;
    }
    state
}

/// What a trial file's call gives and leaves: all of the output, and the state after it, which stands where others report a value.
pub fn expect(call: &Call, lent: &Lent) -> Outcome {
    let Call::TrialFile { seed } = call else { unreachable!("a call that draws no file") };
    let out = Stream::new(u64::from(*seed)).take(lent.out.len());
    let state = after(u64::from(*seed), lent.out.len());
    Outcome::accepted(state as usize, Lent { out, ..lent.clone() })
}
