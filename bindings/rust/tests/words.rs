//! The words of refusals are those of docs/REFUSALS.md.

use zebrankai::Refusal;

const PAGE: &str = include_str!("../../../docs/REFUSALS.md");

/// What stands behind a word, at the beginning of a line.
fn behind<'a>(lines: &[&'a str], word: &str) -> &'a str {
    lines.iter().find_map(|line| line.strip_prefix(word)).unwrap_or_else(|| panic!("no line {word}"))
}

#[test]
fn each_refusal_has_the_words_of_the_page() {
    let parts: Vec<&str> = PAGE.split("\n## ").skip(1).collect();
    assert_eq!(parts.len(), Refusal::ALL.len());
    for (part, &refusal) in parts.iter().zip(Refusal::ALL) {
        let lines: Vec<&str> = part.lines().filter(|line| !line.is_empty()).collect();
        assert_eq!(lines[0], format!("{} {}", refusal.number(), refusal.name()));
        assert_eq!(lines[1], refusal.sentence());
        assert_eq!(behind(&lines, "**Who acts:** "), refusal.who());
        assert_eq!(behind(&lines, "**What to do:** "), refusal.remedy());
        assert_eq!(lines.len(), 4);
        assert_eq!(refusal.to_string(), format!("{} ({}): {}", refusal.name(), refusal.number(), lines[1]));
    }
}

#[test]
fn a_refusal_by_its_name() {
    for &refusal in Refusal::ALL {
        assert_eq!(Refusal::from_name(refusal.name()), Some(refusal));
        assert_eq!(Refusal::from_name(&refusal.name().to_lowercase()), Some(refusal));
    }
    for name in ["", "POINTS", "SIZES", " SIZE", "1", "ACCEPTED"] {
        assert_eq!(Refusal::from_name(name), None, "{name}");
    }
}

#[test]
fn a_refusal_is_an_error() {
    let error: Box<dyn std::error::Error> = Box::new(Refusal::Down);
    assert!(error.to_string().starts_with("DOWN (9): "));
}
