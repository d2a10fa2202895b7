//! Cases of single store calls: points, records and areas are made up, true, damaged or arbitrary, and calls are made over them.

use crate::call::{Call, Lent};
use crate::code::Sizes;
use crate::draw;
use crate::move_draw;
use crate::points;
use crate::random::Random;
use crate::repairs;
use crate::running_draw;
use crate::scene::Scene;
use crate::spoil::spoil;
use crate::steps;
use crate::store;
use crate::store_draw;
use crate::trial::Trial;

/// How many calls a case makes.
const CALLS: usize = 10;

pub fn run(trial: &mut Trial, random: &mut Random, sizes: Sizes) {
    let capacity = draw::stripes(random, sizes);
    let length = draw::length(random, sizes, capacity);
    let file = random.bytes(length);
    let scene = Scene::new(sizes, points::draw(random, sizes.n), file);
    over(trial, random, &scene, capacity, CALLS);
}

/// So many calls over a file's area.
pub fn over(trial: &mut Trial, random: &mut Random, scene: &Scene, capacity: usize, calls: usize) {
    let (sizes, points, length) = (scene.sizes, &scene.points, scene.length());
    let area = area(random, scene, capacity);
    for _ in 0..calls {
        // sometimes all boards are in service, else some
        let out_of_service = random.pick(&[0, 1, 1, 2, 2, sizes.r, sizes.n]);
        let in_service = random.choose((0..sizes.n).collect(), sizes.n - out_of_service.min(sizes.n));
        let record = store::words(sizes, points, capacity, Some(length), &in_service);
        let mut call = store_draw::call(random, scene, capacity, &in_service);
        if random.once_in(3) {
            repairs::spoil(random, sizes, &in_service, &mut call);
            move_draw::spoil(random, sizes, points, &mut call);
        }
        let out = store_draw::output(random, &call, length);
        let (repair, packets) = repair(random, scene, &in_service, &call);
        let mut lent = Lent { record, repair, area: area.clone(), packets, out };
        spoil(random, sizes, &mut call, &mut lent);
        trial.check(&call, &lent, &store::expect(&call, &lent));
    }
}

/// The record of a repair beside that of the store, and a packet area for a step: mostly a repair that runs where the call is a step, and none where it
/// is another one; sometimes a record that no call hands on.
fn repair(random: &mut Random, scene: &Scene, in_service: &[usize], call: &Call) -> (Vec<u64>, Vec<u8>) {
    let sizes = scene.sizes;
    let stepped = matches!(call, Call::Step { .. });
    let runs = if stepped { !random.once_in(6) } else { random.once_in(6) };
    let lists = if runs { running_draw::lists(random, sizes, in_service) } else { None };
    let Some(lists) = lists else {
        let packets = if stepped { running_draw::packet_area(random, None) } else { Vec::new() };
        return (running_draw::idle(random), packets);
    };
    let mut repair = running_draw::running(random, &lists);
    if random.once_in(8) {
        running_draw::spoil(random, sizes, in_service, &lists, &mut repair);
    }
    let due = steps::area_len(&steps::order(sizes, &lists, scene.stripes()));
    let packets = if stepped { running_draw::packet_area(random, Some(due)) } else { Vec::new() };
    (repair, packets)
}

/// An area with a file's shares, true, damaged or arbitrary; its other bytes are arbitrary.
fn area(random: &mut Random, scene: &Scene, capacity: usize) -> Vec<u8> {
    let sizes = scene.sizes;
    let board_len = capacity * sizes.share_len();
    let area = true_area(random, scene, capacity);
    let mut area = draw::damaged(random, area);
    // some boards hold arbitrary bytes
    if random.once_in(3) {
        let board = random.below(sizes.n);
        let bytes = random.bytes(board_len);
        area[board * board_len..][..board_len].copy_from_slice(&bytes);
    }
    area
}

/// An area with a file's shares, all true; its other bytes are arbitrary.
pub fn true_area(random: &mut Random, scene: &Scene, capacity: usize) -> Vec<u8> {
    let board_len = capacity * scene.sizes.share_len();
    let mut area = random.bytes(scene.sizes.n * board_len);
    for board in 0..scene.sizes.n {
        let share = scene.share(board);
        area[board * board_len..][..share.len()].copy_from_slice(share);
    }
    area
}
