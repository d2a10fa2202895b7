//! The trial file: figures, in parts, and into nothing.

use zebrankai::trial_file;

/// The bytes of a seed's trial file, and the state after them.
fn drawn(seed: u32, length: usize) -> (Vec<u8>, u32) {
    let mut file = vec![0xEE; length];
    let state = trial_file(seed, &mut file);
    (file, state)
}

#[test]
fn the_first_bytes_of_some_seeds() {
    assert_eq!(drawn(0, 6).0, [0x3C, 0x47, 0xD1, 0xAA, 0x62, 0x9F]);
    assert_eq!(drawn(1, 6).0, [0x3C, 0x5E, 0x81, 0xB4, 0x0C, 0x5E]);
    assert_eq!(drawn(u32::MAX, 3).0, [0x3C, 0x30, 0x22]);
    // the state after one byte is the state that it is the top of
    assert_eq!(drawn(0, 1), (vec![0x3C], 1_013_904_223));
    assert_eq!(drawn(1, 1), (vec![0x3C], 1_015_568_748));
    assert_eq!(drawn(u32::MAX, 1), (vec![0x3C], 1_012_239_698));
}

#[test]
fn no_bytes_give_the_seed() {
    for seed in [0, 1, 3081, 1 << 31, u32::MAX] {
        assert_eq!(trial_file(seed, &mut []), seed);
    }
}

#[test]
fn parts_are_the_whole() {
    for seed in [0, 1, 3081, u32::MAX] {
        let whole = drawn(seed, 1000);
        for lengths in [[0, 1000, 0], [1, 998, 1], [255, 256, 489], [999, 0, 1]] {
            let mut file = Vec::new();
            let mut state = seed;
            for length in lengths {
                let part = drawn(state, length);
                file.extend(part.0);
                state = part.1;
            }
            assert_eq!((file, state), whole);
        }
    }
}

#[test]
fn bytes_beside_the_output_stay() {
    let mut bytes = [0xEE; 9];
    trial_file(0, &mut bytes[2..5]);
    assert_eq!(bytes, [0xEE, 0xEE, 0x3C, 0x47, 0xD1, 0xEE, 0xEE, 0xEE, 0xEE]);
}
