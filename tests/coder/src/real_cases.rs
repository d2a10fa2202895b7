//! Cases of real sizes: files of hundreds and thousands of stripes on few boards and on many, in areas with room for 101 to 4,096 stripes. Each case
//! makes every call, true, damaged and spoilt; reads and edits areas of which something is altered, so that DISAGREE is met in any stripe; and keeps a
//! whole history.

use crate::board_cases;
use crate::careful_cases;
use crate::carried;
use crate::code::{Sizes, MAX_STRIPES};
use crate::draw;
use crate::edit_cases;
use crate::histories;
use crate::move_cases;
use crate::points;
use crate::prefix_cases;
use crate::random::Random;
use crate::real::{Measure, THIRTY_TWO, THIRTY_TWO_LEN, TWELVE, TWELVE_LEN};
use crate::real_reads;
use crate::scene::Scene;
use crate::step_cases;
use crate::store_cases;
use crate::stream_cases;
use crate::text_cases;
use crate::trial::Trial;
use crate::worn;
use std::ops::RangeInclusive;

/// How many cases stand behind those of extreme sizes in each run.
const FIRST: u64 = 15;

/// After how many cases there is one more.
const EVERY: u64 = 1000;

/// The most products of a byte that the shares of all boards may take, where sizes are drawn.
const WORK: usize = 60_000_000;

/// Which of the cases of real sizes a case is; none where it is none.
pub fn turn(case: u64) -> Option<u64> {
    let first = draw::EXTREMES.len() as u64;
    match case.checked_sub(first)? {
        turn if turn < FIRST => Some(turn),
        behind => (behind % EVERY == 0).then_some(FIRST + behind / EVERY),
    }
}

/// What a case is about: so many stripes fit in, and the file has this length.
struct Plan {
    sizes: Sizes,
    capacity: usize,
    length: usize,
    /// how many spoilt calls are made at board level and over the store, and how many drawn ones end the history
    calls: usize,
}

impl Plan {
    fn of(random: &mut Random, turn: u64) -> Plan {
        match turn {
            0..=2 => {
                let capacity = TWELVE.stripes(TWELVE_LEN);
                Plan { sizes: TWELVE, capacity, length: TWELVE_LEN, calls: 20 }
            }
            3 => {
                let capacity = THIRTY_TWO.stripes(THIRTY_TWO_LEN) + random.within(1, 8);
                let length = random.within(THIRTY_TWO_LEN + 1, capacity * THIRTY_TWO.stripe_len() - 1);
                Plan { sizes: THIRTY_TWO, capacity, length, calls: 5 }
            }
            4 => Plan::full(random, 5..=8),
            5 => Plan::full(random, 9..=16),
            6 => Plan::full(random, 17..=32),
            // a short file in much room
            7 => {
                let sizes = sizes(random, 5..=12, 100);
                let length = random.within(1, 100 * sizes.stripe_len());
                Plan { sizes, capacity: random.within(101, MAX_STRIPES), length, calls: 10 }
            }
            8 => Plan::drawn(random, 5..=8, 1001),
            9 => Plan::drawn(random, 9..=16, 1001),
            10 => Plan::drawn(random, 17..=32, 101),
            11 => Plan::drawn(random, 2..=4, 101),
            12 => Plan::one_read(random),
            13 => Plan::two_more(random),
            _ if random.once_in(4) => Plan::full(random, 5..=32),
            _ => Plan::drawn(random, 2..=32, 101),
        }
    }

    /// All 4,096 stripes, the last of them mostly not full.
    fn full(random: &mut Random, boards: RangeInclusive<usize>) -> Plan {
        let sizes = sizes(random, boards, MAX_STRIPES);
        let length = sizes.longest() - random.below(sizes.stripe_len());
        Plan { sizes, capacity: MAX_STRIPES, length, calls: 8 }
    }

    /// Many boards of which one is read, and a file that fills its last stripe.
    fn one_read(random: &mut Random) -> Plan {
        let sizes = loop {
            let drawn = draw::sizes(random);
            if drawn.n > 4 && drawn.k == 1 && work(drawn) * MAX_STRIPES <= WORK {
                break drawn;
            }
        };
        let stripes = random.within(101, MAX_STRIPES);
        Plan { sizes, capacity: random.within(stripes, MAX_STRIPES), length: stripes * sizes.stripe_len(), calls: 10 }
    }

    /// k + 2 boards in all.
    fn two_more(random: &mut Random) -> Plan {
        let n = random.within(5, 12);
        let sizes = Sizes::new(n, n - 2, n - 2, 2);
        let stripes = random.within(101, 4 * 101);
        let length = stripes * sizes.stripe_len() - random.below(2);
        Plan { sizes, capacity: stripes + 1, length, calls: 10 }
    }

    /// So many stripes or more.
    fn drawn(random: &mut Random, boards: RangeInclusive<usize>, fewest: usize) -> Plan {
        let sizes = sizes(random, boards, fewest);
        let capacity = random.within(fewest, MAX_STRIPES);
        let most = capacity.min(WORK / work(sizes));
        let stripe = sizes.stripe_len();
        let length = random.within((fewest - 1) * stripe + 1, most * stripe);
        Plan { sizes, capacity, length, calls: 10 }
    }
}

/// The products that the shares of a stripe take.
fn work(sizes: Sizes) -> usize {
    sizes.n * sizes.share_len() * sizes.stripe_len()
}

/// Sizes with boards of a number in a range, of which so many stripes are no more work than there may be. From five boards on more than one is read,
/// and more than one can be rebuilt; `one_read` has the others.
fn sizes(random: &mut Random, boards: RangeInclusive<usize>, stripes: usize) -> Sizes {
    loop {
        let drawn = draw::sizes(random);
        let wanted = drawn.n < 5 || (drawn.k > 1 && drawn.r > 1);
        if wanted && boards.contains(&drawn.n) && work(drawn) * stripes <= WORK {
            return drawn;
        }
    }
}

/// Points of each kind in turn.
fn points_in_turn(random: &mut Random, turn: u64, n: usize) -> Vec<u8> {
    match turn % 3 {
        0 => points::standard(n),
        1 => points::first_series(n),
        _ => points::others(random, n),
    }
}

/// How many boards are rebuilt a packet at a time: r, one, or a number between.
fn fresh_in_turn(random: &mut Random, turn: u64, r: usize) -> usize {
    match turn % 4 {
        0 | 2 => r,
        3 if r > 3 => random.within(3, r - 1),
        3 if r > 2 => 2,
        _ => 1,
    }
}

pub fn run(trial: &mut Trial, random: &mut Random, turn: u64) {
    let Plan { sizes, capacity, length, calls } = Plan::of(random, turn);
    let scene = Scene::new(sizes, points_in_turn(random, turn, sizes.n), random.bytes(length));
    board_cases::each(trial, random, &scene);
    board_cases::spoilt(trial, random, &scene, calls);
    real_reads::run(trial, random, &scene, capacity);
    edit_cases::over(trial, random, &scene, capacity);
    let t = fresh_in_turn(random, turn, sizes.r);
    step_cases::over(trial, random, &scene, capacity, t);
    careful_cases::over(trial, random, &scene, capacity);
    move_cases::over(trial, random, &scene, capacity);
    // the two robots of real sizes once, others that are not too much work
    if turn == 0 || turn == 3 || (turn > 3 && work(sizes) * scene.stripes() * sizes.n < WORK) {
        carried::over(trial, random, sizes, capacity, scene.file.clone());
    }
    store_cases::over(trial, random, &scene, capacity, calls);
    text_cases::named(trial, random, &scene);
    text_cases::over(trial, random, &scene);
    prefix_cases::of_scene(trial, random, &scene);
    if turn % 4 == 0 {
        move_cases::long(trial, random);
        prefix_cases::longest(trial, random);
        stream_cases::long(trial, random);
    }
    worn::whole(trial, random, &scene, capacity, calls);
    if histories::whole(trial, random, &scene, capacity, calls) {
        trial.real.count_history(Measure { sizes, room: capacity, length });
    }
}
