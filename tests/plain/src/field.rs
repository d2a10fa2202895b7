//! The field of 256 elements, modulo 11D, by logarithms to the base 02.

struct Tables {
    power: [u8; 512],
    log: [u16; 256],
}

const fn tables() -> Tables {
    let mut power = [0; 512];
    let mut log = [0; 256];
    let mut value: u16 = 1;
    let mut e = 0;
    while e < 255 {
        power[e] = value as u8;
        power[e + 255] = value as u8;
        log[value as usize] = e as u16;
        value <<= 1;
        if value & 0x100 != 0 {
            value ^= 0x11D;
        }
        e += 1;
    }
    Tables { power, log }
}

static TABLES: Tables = tables();

/// The product of two bytes.
#[inline]
pub fn multiply(a: u8, b: u8) -> u8 {
    if a == 0 || b == 0 {
        return 0;
    }
    TABLES.power[(TABLES.log[a as usize] + TABLES.log[b as usize]) as usize]
}

/// The quotient of two bytes; the divisor is not 00.
#[inline]
pub fn divide(a: u8, b: u8) -> u8 {
    if a == 0 {
        return 0;
    }
    TABLES.power[(TABLES.log[a as usize] + 255 - TABLES.log[b as usize]) as usize]
}

/// Adds a multiple of a row to another row, byte by byte.
#[inline]
pub fn add_multiple(sum: &mut [u8], factor: u8, row: &[u8]) {
    if factor == 0 {
        return;
    }
    let log = TABLES.log[factor as usize];
    for (sum, &byte) in sum.iter_mut().zip(row) {
        if byte != 0 {
            *sum ^= TABLES.power[(log + TABLES.log[byte as usize]) as usize];
        }
    }
}
