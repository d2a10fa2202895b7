//! The manual page and the completion for bash, made from the help texts, so that they say the same.

use crate::help;

/// An option as a help text shows it.
struct Shown<'a> {
    short: Option<&'a str>,
    long: &'a str,
    value: Option<&'a str>,
    text: String,
}

/// Where the words on an option begin in its line.
const COLUMN: usize = 25;

/// The option whose line this is; the first words on it stand in the line too.
fn option_of(line: &str) -> Option<Shown<'_>> {
    let (head, text) = (line.get(..COLUMN).unwrap_or(line), line.get(COLUMN..).unwrap_or_default());
    let mut words = head.strip_prefix("  ")?.split_whitespace().peekable();
    let short = words.next_if(|word| word.len() == 3 && word.starts_with('-')).map(|word| &word[..2]);
    let long = words.next().filter(|word| word.starts_with("--"))?;
    Some(Shown { short, long, value: words.next(), text: text.to_string() })
}

/// The lines of a help text that are on no option, and the options.
fn parted(help: &str) -> (Vec<&str>, Vec<Shown<'_>>) {
    let (mut lines, mut options): (Vec<&str>, Vec<Shown>) = (Vec::new(), Vec::new());
    let mut goes_on = false;
    for line in help.lines() {
        match (option_of(line), options.last_mut()) {
            (Some(option), _) => {
                options.push(option);
                goes_on = true;
            }
            (None, Some(last)) if goes_on && line.starts_with(&" ".repeat(COLUMN)) => {
                last.text.push(' ');
                last.text.push_str(line.trim_start());
            }
            _ => {
                lines.push(line);
                goes_on = false;
            }
        }
    }
    (lines, options)
}

/// Words as the page's language takes them.
fn escaped(words: &str) -> String {
    let words = words.replace('\\', "\\e").replace('-', "\\-");
    match words.chars().next() {
        Some('.' | '\'') => format!("\\&{words}"),
        _ => words,
    }
}

/// A help text as part of the page: paragraphs are filled, usage and indented lines stay as they are, and options are a list.
fn body(help: &str) -> String {
    let (lines, options) = parted(help);
    let mut page = String::new();
    let mut kept = false;
    for line in lines {
        let keeping = line.starts_with(' ') || line.starts_with("zbk ");
        if kept != keeping {
            page.push_str(if keeping { ".PP\n.nf\n" } else { ".fi\n" });
            kept = keeping;
        }
        page.push_str(&if line.is_empty() { ".PP".to_string() } else { escaped(line) });
        page.push('\n');
    }
    if kept {
        page.push_str(".fi\n");
    }
    for Shown { short, long, value, text } in options {
        let short = short.map(|short| format!("\\fB{}\\fR, ", escaped(short))).unwrap_or_default();
        let value = value.map(|value| format!(" \\fI{}\\fR", escaped(value))).unwrap_or_default();
        page.push_str(&format!(".TP\n{short}\\fB{}\\fR{value}\n{}\n", escaped(long), escaped(&text)));
    }
    page
}

/// The manual page, in the language of man.
pub fn page(commands: &[&str]) -> String {
    let all = help::words(None).unwrap_or_default();
    let (name, rest) = all.split_once('\n').unwrap_or_default();
    let version = env!("CARGO_PKG_VERSION");
    let mut page =
        format!(".\\\" Made by 'zbk --man' from the texts of 'zbk --help'.\n.TH ZBK 1 \"\" \"zbk {version}\" \"\"\n");
    page.push_str(&format!(".SH NAME\n{}\n.SH DESCRIPTION\n{}", escaped(name).replacen(": ", " \\- ", 1), body(rest)));
    page.push_str(".SH COMMANDS\n");
    for command in commands {
        let help = help::words(Some(command)).unwrap_or_default();
        page.push_str(&format!(".SS {command}\n{}", body(&help)));
    }
    page
}

/// The completion for bash: commands, then the options of the one that stands there, else names of files.
pub fn completion(commands: &[&str]) -> String {
    let names = |help: &str| {
        let both =
            |option: &Shown| [option.short, Some(option.long)].into_iter().flatten().collect::<Vec<_>>().join(" ");
        parted(help).1.iter().map(both).collect::<Vec<_>>().join(" ")
    };
    let cases: String = commands
        .iter()
        .map(|command| {
            format!("    {command}) options='{}' ;;\n", names(&help::words(Some(command)).unwrap_or_default()))
        })
        .collect();
    let all = help::words(None).unwrap_or_default();
    let first = format!("{} help {}", commands.join(" "), names(&all));
    format!(
        "# Completion of zbk for bash, made by 'zbk --completion bash' from the texts of 'zbk --help'.
_zbk() {{
    local options now=${{COMP_WORDS[COMP_CWORD]}}
    COMPREPLY=()
    case ${{COMP_WORDS[1]}} in
    help) options='{}' ;;
{cases}    esac
    if [ \"$COMP_CWORD\" -eq 1 ]; then
        options='{first}'
    elif [[ $now != -* && ${{COMP_WORDS[1]}} != help ]]; then
        return
    fi
    mapfile -t COMPREPLY < <(compgen -W \"$options\" -- \"$now\")
}}
complete -o default -F _zbk zbk
",
        commands.join(" ")
    )
}

#[cfg(test)]
mod tests {
    use super::{completion, page, parted};
    use crate::args::SHORT;
    use crate::help;
    use crate::COMMANDS;

    /// Each command's help shows just the options that it takes, with their short names and with values where they have one.
    #[test]
    fn help_shows_what_is_taken() {
        for (takes, _) in &COMMANDS {
            let help = help::words(Some(takes.command)).unwrap();
            let mut shown: Vec<(&str, bool)> = Vec::new();
            for option in parted(&help).1 {
                let short = SHORT.iter().find(|(_, long)| *long == option.long).map(|(short, _)| *short);
                assert_eq!(option.short, short, "{} {}", takes.command, option.long);
                assert!(!option.text.is_empty(), "{} {}", takes.command, option.long);
                shown.push((option.long, option.value.is_some()));
            }
            let valued = takes.valued.iter().map(|option| (*option, true));
            let plain = takes.plain.iter().chain(&["--quiet", "--help"]).map(|option| (*option, false));
            let mut due: Vec<(&str, bool)> = valued.chain(plain).collect();
            shown.sort_unstable();
            due.sort_unstable();
            assert_eq!(shown, due, "{}", takes.command);
        }
    }

    /// The page and the completion name every command and every option of each, in its place.
    #[test]
    fn page_and_completion_name_all() {
        let commands: Vec<&str> = COMMANDS.iter().map(|(takes, _)| takes.command).collect();
        let (page, completion) = (page(&commands), completion(&commands));
        for (takes, _) in &COMMANDS {
            let (_, section) = page.split_once(&format!(".SS {}\n", takes.command)).unwrap();
            let section = section.split("\n.SS ").next().unwrap();
            let (_, case) = completion.split_once(&format!("    {}) options='", takes.command)).unwrap();
            let case: Vec<&str> = case.split('\'').next().unwrap().split(' ').collect();
            for option in takes.valued.iter().chain(takes.plain).chain(&["--quiet", "--help"]) {
                let bold = format!("\\fB{}\\fR", option.replace('-', "\\-"));
                assert!(section.contains(&bold), "the page: {} {option}", takes.command);
                assert!(case.contains(option), "the completion: {} {option}", takes.command);
            }
            assert!(help::words(None).unwrap().contains(&format!("\n  zbk {} ", takes.command)), "{}", takes.command);
        }
        for option in ["-h", "--help", "-V", "--version", "--man", "--completion"] {
            assert!(page.contains(&option.replace('-', "\\-")), "the page: {option}");
            assert!(completion.split([' ', '\'']).any(|word| word == option), "the completion: {option}");
        }
    }
}
