//! The field of 256 elements of document 01, by its words: a product of polynomials over {0, 1}, reduced modulo 11D by long division. The
//! product table is made from logarithms to a base that is searched for, and is then held to long division for all 65,536 pairs.

use std::sync::LazyLock;

/// z^8 + z^4 + z^3 + z^2 + 1.
const MODULUS: u16 = 0x11D;

/// A product by document 01's words: multiply the polynomials, then take the remainder.
fn by_division(a: u8, b: u8) -> u8 {
    let mut product: u16 = 0;
    for bit in 0..8 {
        if b >> bit & 1 == 1 {
            product ^= u16::from(a) << bit;
        }
    }
    for bit in (8..15).rev() {
        if product >> bit & 1 == 1 {
            product ^= MODULUS << (bit - 8);
        }
    }
    product as u8
}

/// The powers of `base`, from 01 on, until they come round; all 255 where the base is primitive.
fn powers(base: u8) -> Vec<u8> {
    let mut list = vec![1];
    loop {
        let next = by_division(list[list.len() - 1], base);
        if next == 1 || list.len() == 255 {
            return list;
        }
        list.push(next);
    }
}

/// The powers that are kept: F has no higher one.
const POWERS: usize = 32;

pub struct Field {
    products: Vec<[u8; 256]>,
    inverses: [u8; 256],
    powers: Vec<[u8; POWERS]>,
}

impl Field {
    fn new() -> Field {
        let antilog = (2..=255).map(powers).find(|list| list.len() == 255).expect("the field has a primitive element");
        let mut log = [0; 256];
        for (exponent, &value) in antilog.iter().enumerate() {
            log[usize::from(value)] = exponent;
        }
        let mut field = Field { products: vec![[0; 256]; 256], inverses: [0; 256], powers: vec![[1; POWERS]; 256] };
        for a in 1..256 {
            for b in 1..256 {
                field.products[a][b] = antilog[(log[a] + log[b]) % 255];
            }
            field.inverses[a] = antilog[(255 - log[a]) % 255];
        }
        for base in 0..=255 {
            for exponent in 1..POWERS {
                let below = field.power(base, exponent - 1);
                field.powers[usize::from(base)][exponent] = field.product(below, base);
            }
        }
        field
    }

    /// Whether the tables are those of document 01's words.
    pub fn holds(&self) -> bool {
        let bytes = || 0..=255u8;
        let products = bytes().all(|a| bytes().all(|b| self.product(a, b) == by_division(a, b)));
        products && (1..=255).all(|a| by_division(a, self.inverse(a)) == 1)
    }

    pub fn product(&self, a: u8, b: u8) -> u8 {
        self.products[usize::from(a)][usize::from(b)]
    }

    /// The inverse of a byte other than 00.
    pub fn inverse(&self, a: u8) -> u8 {
        self.inverses[usize::from(a)]
    }

    /// A power, the exponent below 32; 00 to the power 0 is 01.
    pub fn power(&self, base: u8, exponent: usize) -> u8 {
        self.powers[usize::from(base)][exponent]
    }

    /// Adds `factor` times a row to another row of the same length.
    pub fn add_multiple(&self, to: &mut [u8], factor: u8, row: &[u8]) {
        let multiples = &self.products[usize::from(factor)];
        for (sum, &value) in to.iter_mut().zip(row) {
            *sum ^= multiples[usize::from(value)];
        }
    }

    /// Multiplies a row by `factor`.
    pub fn scale(&self, row: &mut [u8], factor: u8) {
        let multiples = &self.products[usize::from(factor)];
        for value in row {
            *value = multiples[usize::from(*value)];
        }
    }
}

pub static FIELD: LazyLock<Field> = LazyLock::new(Field::new);
