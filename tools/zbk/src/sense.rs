//! How far bytes that are no text make sense, in words: up to which line and place they also begin some text. How far that is, the archive says.

use zebrankai::board;

/// How many bytes are shown of a long line's beginning, and of its end.
const SHOWN: usize = 16;

/// How far a text makes sense that begins at `start` and is none; nothing is said of one without bytes. Lines are counted from the first byte of all.
pub fn words(bytes: &[u8], start: usize) -> Option<String> {
    let text = &bytes[start..];
    let count = board::text_prefix(text);
    let (sense, rest) = text.split_at(count);
    let next = quoted(&next(rest));
    Some(if text.is_empty() {
        return None;
    } else if count == 0 {
        format!("nothing of it makes sense: it begins with {next}")
    } else if rest.is_empty() {
        format!("all of it makes sense; it is cut short behind {}", place(bytes, start + count))
    } else if board::read_text(sense, &mut vec![0; count]).is_ok() {
        format!("it is a whole text up to {}; then comes {next}", place(bytes, start + count))
    } else {
        format!("it makes sense up to {}; then comes {next}", place(bytes, start + count))
    })
}

/// The line and the place in it of the last of some bytes, both from 1, with the line up to there; or the line alone, where they end with it.
fn place(bytes: &[u8], count: usize) -> String {
    let before = &bytes[..count];
    let whole = before.last() == Some(&b'\n');
    let before = before.strip_suffix(b"\n").unwrap_or(before);
    let number = 1 + before.iter().filter(|&&byte| byte == b'\n').count();
    let line = before.rsplit(|&byte| byte == b'\n').next().unwrap_or_default();
    let shown = if line.len() > 2 * SHOWN + 2 {
        [&line[..SHOWN], b"..", &line[line.len() - SHOWN..]].concat()
    } else {
        line.to_vec()
    };
    if whole {
        format!("the end of line {number}: {}", quoted(&shown))
    } else {
        format!("line {number}, place {}: {}", line.len(), quoted(&shown))
    }
}

/// The bytes that stand next, up to the end of their line.
fn next(rest: &[u8]) -> Vec<u8> {
    let end = rest.iter().skip(1).position(|&byte| byte == b'\n').map_or(rest.len(), |place| place + 1);
    let end = if rest.first() == Some(&b'\n') { 1 } else { end };
    let line = &rest[..end];
    if line.len() > SHOWN + 2 {
        [&line[..SHOWN], b".."].concat()
    } else {
        line.to_vec()
    }
}

/// Bytes in quotation marks; those that cannot be printed are escaped, as \n and \xEF.
fn quoted(bytes: &[u8]) -> String {
    let shown = |&byte: &u8| match byte {
        b'\n' => "\\n".to_string(),
        b'\r' => "\\r".to_string(),
        b'\t' => "\\t".to_string(),
        b'"' | b'\\' => format!("\\{}", char::from(byte)),
        b' '..=b'~' => char::from(byte).to_string(),
        _ => format!("\\x{byte:02X}"),
    };
    format!("\"{}\"", bytes.iter().map(shown).collect::<String>())
}

#[cfg(test)]
mod tests {
    use super::words;

    const TEXT: &str = "n=5\nk=2\nd=3\nr=2\nnode=1\nlength=12\ndata=01020304000405\n";

    /// What is said of bytes behind some others.
    fn said(bytes: &[u8], start: usize) -> String {
        words(bytes, start).unwrap_or_default()
    }

    #[test]
    fn a_text_that_is_cut() {
        assert_eq!(said(b"", 0), "");
        assert_eq!(said(b"n", 0), "all of it makes sense; it is cut short behind line 1, place 1: \"n\"");
        assert_eq!(said(b"n=5\n", 0), "all of it makes sense; it is cut short behind the end of line 1: \"n=5\"");
        let cut = &TEXT.as_bytes()[..TEXT.len() - 1];
        assert_eq!(
            said(cut, 0),
            "all of it makes sense; it is cut short behind line 7, place 19: \"data=01020304000405\""
        );
    }

    #[test]
    fn a_text_with_other_bytes() {
        let begin = "it makes sense up to";
        let other = |old: &str, new: &str| said(TEXT.replace(old, new).as_bytes(), 0);
        assert_eq!(other("n=5\n", "n=33\n"), format!("{begin} line 1, place 3: \"n=3\"; then comes \"3\""));
        assert_eq!(other("n=5\n", "n=1\n"), format!("{begin} line 1, place 3: \"n=1\"; then comes \"\\n\""));
        assert_eq!(other("\n", "\r\n"), format!("{begin} line 1, place 3: \"n=5\"; then comes \"\\r\""));
        assert_eq!(other("k=2\n", ""), format!("{begin} the end of line 1: \"n=5\"; then comes \"d=3\""));
        assert_eq!(other("=12", "=49153"), format!("{begin} line 6, place 11: \"length=4915\"; then comes \"3\""));
        assert_eq!(
            other("=0102", "=0G\"\u{e9}"),
            format!("{begin} line 7, place 6: \"data=0\"; then comes \"G\\\"\\xC3\\xA90304000405\"")
        );
        assert_eq!(said(b"\xEF\xBB\xBFn=5\n", 0), "nothing of it makes sense: it begins with \"\\xEF\\xBB\\xBFn=5\"");
    }

    #[test]
    fn bytes_behind_and_lines_of_all_bytes() {
        let behind = |more: &str, start: usize| said((TEXT.to_string() + more).as_bytes(), start);
        let whole = "it is a whole text up to the end of line 7: \"data=01020304000405\"; then comes";
        assert_eq!(behind("\n", 0), format!("{whole} \"\\n\""));
        assert_eq!(behind("a long line is cut where it is shown\n", 0), format!("{whole} \"a long line is c..\""));
        let start = TEXT.len();
        assert_eq!(behind("n=4\nx", start), "it makes sense up to the end of line 8: \"n=4\"; then comes \"x\"");
        assert_eq!(behind("x", start), "nothing of it makes sense: it begins with \"x\"");
    }

    #[test]
    fn a_long_line() {
        let begin = "it makes sense up to line 7, place";
        let long = TEXT.replace("length=12", "length=36");
        assert_eq!(said(long.as_bytes(), 0), format!("{begin} 19: \"data=01020304000405\"; then comes \"\\n\""));
        let long = long.replace("data=", "data=fedcba98765432100123abcd");
        assert_eq!(
            said(long.as_bytes(), 0),
            format!("{begin} 43: \"data=fedcba98765..cd01020304000405\"; then comes \"\\n\"")
        );
    }
}
