//! Spoils a text: a byte of it, or how it is written. What must be answered then is the model's to say.

use crate::code::{self, Sizes};
use crate::points;
use crate::random::Random;
use crate::texts::Told;

/// A byte in the place of another: near it, one that texts have, or any.
pub fn other_byte(random: &mut Random, byte: u8) -> u8 {
    let any = random.next() as u8;
    let of_texts = random.pick(b"0123456789abcdefABCDEFgn=\n\r +-x");
    let choices = [byte ^ 0x20, byte.wrapping_add(1), byte.wrapping_sub(1), of_texts, of_texts, of_texts, any, 0];
    random.pick(&choices)
}

/// A text as lines of a name and a value.
struct Lines(Vec<(&'static str, String)>);

impl Lines {
    fn of(told: &Told) -> Lines {
        let Sizes { n, k, d, r } = told.sizes;
        let numbers = [("n", n), ("k", k), ("d", d), ("r", r), ("node", told.node), ("length", told.length)];
        let mut lines: Vec<_> = numbers.iter().map(|&(name, number)| (name, number.to_string())).collect();
        if told.points != points::standard(n) {
            lines.push(("points", code::pairs(&told.points[..n])));
        }
        lines.push(("data", code::pairs(&told.share)));
        Lines(lines)
    }

    fn text(&self) -> Vec<u8> {
        self.0.iter().map(|(name, value)| format!("{name}={value}\n")).collect::<String>().into_bytes()
    }

    /// The value of a line.
    fn value(&mut self, of: &str) -> &mut String {
        &mut self.0.iter_mut().find(|(name, _)| *name == of).expect("the line is there").1
    }

    /// The value of any line of numbers.
    fn any_number(&mut self, random: &mut Random) -> &mut String {
        &mut self.0[random.below(6)].1
    }

    /// The line with the points, which is put in where there is none.
    fn points(&mut self, n: usize) -> &mut String {
        if self.0[6].0 != "points" {
            self.0.insert(6, ("points", code::pairs(&points::standard(n)[..n])));
        }
        &mut self.0[6].1
    }
}

/// A number that is that one where it is cut to 64 bits.
fn past_the_word(number: usize) -> String {
    (number as u128 + (1 << 64)).to_string()
}

/// A text that is written otherwise, and of which kind it is; whether it is taken is the model's to say.
pub fn otherwise(random: &mut Random, told: &Told) -> (&'static str, Vec<u8>) {
    let Sizes { n, k, d, r } = told.sizes;
    let mut lines = Lines::of(told);
    let kind = match random.below(20) {
        0 | 1 => {
            let zeros = random.pick(&["0", "0", "00", "00000000000000000000"]);
            lines.any_number(random).insert_str(0, zeros);
            "a leading zero"
        }
        2 => {
            let sign = random.pick(&["+", "-", " ", "0x"]);
            lines.any_number(random).insert_str(0, sign);
            "a sign"
        }
        3 | 4 => {
            let name = if lines.0.len() > 7 && random.once_in(2) { "points" } else { "data" };
            let value = lines.value(name);
            *value = value.to_uppercase();
            "upper case"
        }
        5 | 6 => {
            *lines.points(n) = code::pairs(&points::standard(n)[..n]);
            "points 0 to n-1 said"
        }
        7 => {
            let value = lines.points(n);
            let (one, other) = (random.below(n), random.below(n));
            let pair = value[2 * one..2 * one + 2].to_string();
            value.replace_range(2 * other..2 * other + 2, &pair);
            "a point twice"
        }
        8 => {
            let value = lines.points(n);
            match random.below(4) {
                0 => value.push_str("00"),
                1 => value.push_str("fe"),
                2 => value.push('0'),
                _ => value.truncate(2 * n - 2),
            }
            "points too few or many"
        }
        9 => {
            let number = random.pick(&[n, n + 1, 32, 33, 256 + told.node, (1 << 32) + told.node, usize::MAX]);
            let number = if random.once_in(4) { past_the_word(told.node) } else { number.to_string() };
            *lines.value("node") = number;
            "board n or more"
        }
        10 => {
            let longest = told.sizes.longest();
            let number = random.pick(&[longest + 1, longest + 1, 1 << 32, 1 << 63, usize::MAX]);
            let number = if random.once_in(4) { past_the_word(told.length) } else { number.to_string() };
            *lines.value("length") = number;
            "a length too great"
        }
        11 | 12 => {
            let stripe = told.sizes.stripe_len();
            let same = told.length.saturating_sub(1) / stripe * stripe;
            let near = [same + 1, same + stripe, same, told.length + 1, told.length.saturating_sub(1)];
            *lines.value("length") = random.pick(&near).to_string();
            "another length"
        }
        13 => {
            let place = random.below(4);
            let old = [n, k, d, r][place];
            let new = random.pick(&[0, old + 1, old.wrapping_sub(1), 33, old + 256, (1 << 32) + old]);
            lines.0[place].1 = if random.once_in(6) { past_the_word(old) } else { new.to_string() };
            "other sizes"
        }
        14 => {
            let value = lines.value("data");
            match random.below(4) {
                0 => value.push_str("00"),
                1 => value.push('0'),
                2 => value.truncate(value.len().saturating_sub(1)),
                _ => value.truncate(value.len().saturating_sub(2)),
            }
            "pairs too few or many"
        }
        15 => {
            let place = random.below(lines.0.len());
            lines.0[place].1.push('\r');
            "a carriage return"
        }
        16 => {
            let place = random.below(lines.0.len() - 1);
            match random.below(4) {
                0 => lines.0.swap(place, place + 1),
                1 => drop(lines.0.remove(place)),
                2 => lines.0.insert(place, lines.0[place].clone()),
                _ => lines.0[place].1.push('\n'),
            }
            "lines out of order"
        }
        17 | 18 => {
            let mut text = lines.text();
            let again = text.clone();
            text.extend(random.pick(&[b"\n".to_vec(), b"x".to_vec(), vec![0], b"n=".to_vec(), again]));
            return ("bytes behind", text);
        }
        _ => {
            let before = random.pick(&[b"\n".to_vec(), b" ".to_vec(), vec![0xEF, 0xBB, 0xBF], vec![0]]);
            return ("bytes before", [before, lines.text()].concat());
        }
    };
    (kind, lines.text())
}
