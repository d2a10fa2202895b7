//! What ends a command before its work is done, and the words for it.

use std::fmt::Write;
use std::process::ExitCode;
use zebrankai::Refusal;

/// Why a command ends.
pub enum Trouble {
    /// The words of the command line make no sense; the command whose help says more.
    Usage(String, Option<&'static str>),
    /// A call was refused, or would be; what is said beside its name and number.
    Refused(Refusal, String),
    /// A file cannot be read or written, and the like.
    Failed(String),
    /// All that there is to say has been said, or whoever reads the output has gone.
    Told,
}

pub type Outcome<T = ()> = Result<T, Trouble>;

impl Trouble {
    /// Says it on standard error; gives the exit code: 2 for the command line, else 1.
    pub fn tell(self) -> ExitCode {
        match self {
            Trouble::Usage(what, command) => {
                say(what);
                let command = command.map_or(String::new(), |name| format!(" {name}"));
                say(format!("'zbk{command} --help' says how it is used"));
                return ExitCode::from(2);
            }
            Trouble::Refused(refusal, what) => {
                say(format!("refused, {} ({}): {what}", refusal.name(), refusal.number()));
            }
            Trouble::Failed(what) => say(what),
            Trouble::Told => {}
        }
        ExitCode::from(1)
    }
}

/// Says a line on standard error; where that cannot be written to, nothing can be said.
pub fn say(line: impl std::fmt::Display) {
    let _ = std::io::Write::write_all(&mut std::io::stderr(), format!("zbk: {line}\n").as_bytes());
}

/// A refusal with words of its own.
pub fn refused<T>(refusal: Refusal, what: impl Into<String>) -> Outcome<T> {
    Err(Trouble::Refused(refusal, what.into()))
}

/// What cannot be done with a file.
pub fn failed<T>(what: impl Into<String>) -> Outcome<T> {
    Err(Trouble::Failed(what.into()))
}

/// A refusal of a call that no check of the tool foresaw, in the call's own words.
pub fn unforeseen(refusal: Refusal) -> Trouble {
    Trouble::Refused(refusal, refusal.sentence().to_string())
}

/// A number that was given; one that is too great for its type was read as the greatest.
pub fn given(number: usize) -> String {
    if number == usize::MAX {
        format!("{number} or more")
    } else {
        number.to_string()
    }
}

/// Numbers as a list in words: 1, 2 and 5, or 0 to 7.
pub fn list(numbers: &[usize]) -> String {
    let mut said = String::new();
    if let [first, _, .., last] = *numbers {
        if numbers.windows(2).all(|two| two[0] + 1 == two[1]) {
            return format!("{first} to {last}");
        }
    }
    for (place, number) in numbers.iter().enumerate() {
        let between = match place {
            0 => "",
            _ if place + 1 == numbers.len() => " and ",
            _ => ", ",
        };
        write!(said, "{between}{number}").expect("a string takes it");
    }
    said
}

/// Rising numbers in words, those one after another taken together: 5, 9 to 12 and 40; of many such runs the first eight.
pub fn ranges(numbers: &[usize]) -> String {
    let mut runs: Vec<(usize, usize)> = Vec::new();
    for &number in numbers {
        match runs.last_mut() {
            Some((_, last)) if *last + 1 == number => *last = number,
            _ => runs.push((number, number)),
        }
    }
    let words = |&(first, last): &(usize, usize)| match last - first {
        0 => first.to_string(),
        1 => format!("{first}, {last}"),
        _ => format!("{first} to {last}"),
    };
    let shown: Vec<String> = runs.iter().take(RUNS).map(words).collect();
    let told: usize = runs.iter().take(RUNS).map(|(first, last)| last + 1 - first).sum();
    match &shown[..] {
        _ if told < numbers.len() => format!("{} and {} more", shown.join(", "), numbers.len() - told),
        [before @ .., last] if !before.is_empty() => format!("{} and {last}", before.join(", ")),
        _ => shown.concat(),
    }
}

/// So many runs of numbers are told.
const RUNS: usize = 8;

/// Boards in words: board 3, boards 1, 2 and 5, no board.
pub fn boards(numbers: &[usize]) -> String {
    match numbers {
        [] => "no board".to_string(),
        [one] => format!("board {one}"),
        _ => format!("boards {}", list(numbers)),
    }
}

/// A count with its noun: 1 text, 2 texts.
pub fn count(number: usize, noun: &str) -> String {
    format!("{number} {noun}{}", if number == 1 { "" } else { "s" })
}

#[cfg(test)]
mod tests {
    use super::ranges;

    #[test]
    fn numbers_in_words() {
        for (numbers, due) in [
            (&[][..], ""),
            (&[5], "5"),
            (&[5, 6], "5, 6"),
            (&[5, 9], "5 and 9"),
            (&[5, 9, 10, 11, 12, 40], "5, 9 to 12 and 40"),
            (&[0, 2, 4, 6, 8, 10, 12, 14, 16, 18, 19], "0, 2, 4, 6, 8, 10, 12, 14 and 3 more"),
        ] {
            assert_eq!(ranges(numbers), due);
        }
    }
}
