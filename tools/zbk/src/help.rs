//! The help texts.

use crate::files;
use crate::trouble::Outcome;

const ALL: &str = "\
zbk: share texts of a file on shelf boards, by the proved archive

  zbk spread FILE DIR --boards 8 --read 4 --helpers 6 --fresh 2
                                 a text for each board, DIR/board-0.txt and so on
  zbk gather TEXT.. [-o FILE]    the file from k texts
  zbk check TEXT..               whether texts agree, and which do not fit
  zbk rebuild DIR --fresh 2,5    the texts of fresh boards from those of others
  zbk look TEXT..                what texts are, and how far others make sense
  zbk tidy TEXT.. [-o FILE]      line ends, blanks, capitals and broken lines
  zbk explain NUMBER|NAME..      what a refusal means, who acts, what to do
  zbk sizes N                    all legal sizes with at most N boards
  zbk sizes -n 8 -k 4 -d 6 -r 2  what sizes cost: storage, bus, longest file
  zbk share FILE --boards 8 --read 4 --helpers 6 --fresh 2 --board 3
                                 the text of one board
  zbk print                      what the share printer writes for its input
  zbk trial SEED                 a load on a store, the same wherever it is run

'zbk COMMAND --help' says more. - stands for standard input where a file or
texts are read, and for standard output where they are written. Names of files
may be any bytes. A folder stands for its texts, board-0.txt and so on, in any
case, and as copies are named, 'board-0 (1).txt'; other files in it are passed
over, and named.

  -h, --help             this text
  -V, --version          the version
      --man              the manual page: zbk --man >zbk.1
      --completion bash  what bash completes: source it, or put it where bash
                         looks for it

Exit codes: 0 done, and of check that the texts agree; 1 refused, or a file
cannot be read or written, and of check that they do not; 2 the command line
makes no sense.
";

const SIZES: &str = "  -n, --boards N         boards, at most 32
  -k, --read K           boards that give the file back
  -d, --helpers D        helpers of each fresh board, at least K
  -r, --fresh R          boards rebuilt together, at least 1; D + R is at most N
  -p, --points POINTS    standard: board i has the point i, as where nothing is
                         said; first-series: i + 1, as on robots of the first
                         series; or a pair of hexadecimal digits for each board
";

const JSON: &str = "      --json             the same as one line of JSON
";

const COMMON: &str = "  -q, --quiet            no progress and no report
  -h, --help             this text
";

const SPREAD: &str = "\
zbk spread FILE DIR --boards N --read K --helpers D --fresh R
           [--points POINTS] [--force]

Writes the text of each board's share: DIR/board-0.txt and so on. Any K of them
give the file back. FILE - is standard input; DIR - writes all texts to standard
output, one after another. DIR is made where it is missing. A file has at most
4096 stripes of K(2D + R - K) bytes; a longer one is LONG (3).

@SIZES  -f, --force            replaces texts that are there
@COMMON";

const GATHER: &str = "\
zbk gather TEXT.. [-o FILE] [--force]

Writes the file that k texts give, to standard output or to FILE. Texts are
named in any order; - is standard input; a file may have several texts, one
after another; a folder stands for its texts board-0.txt and so on. Bytes that
are not plain text do not go to a terminal.

What was used is said when it is done, and what the texts show of each other: k
texts show that they fit together, not that none was altered. Among k + 1 one
that is wrong always shows. Of k + 2 or more it is named, if one alone is wrong,
and the file is that of the others. With more than one wrong it is DISAGREE,
unless k + 1 of them fit another file: then that is the file, and a right one is
named.

Refused, in this order:
  TEXT (12)      bytes that are no text: line and place, what was expected there
                 and what was found, and whether 'zbk tidy' makes it a text
  MIXED (13)     texts that differ in sizes, points or length
  COUNT (4)      fewer than k texts, and which boards are missing
  REPEAT (6)     two texts of one board
  DISAGREE (10)  texts that no file has, but for one of k + 2 or more; of k + 1
                 those are named of which one is at fault, if one alone is
                 wrong; 'zbk check' says more

  -o, --output FILE      where the file is written
  -f, --force            replaces FILE where it is there; any bytes also go to a
                         terminal
@COMMON";

const CHECK: &str = "\
zbk check TEXT.. [--json]

Says whether texts agree: exit code 0 where all are texts of one file, of k
boards at least, and some file has the shares of all; else 1. k texts alone show
only that they fit together. Nothing is written but what is said, and with
--quiet not even that. Texts are named as for 'zbk gather'; there may be two of
one board.

Where they do not agree:
  stripe by stripe   which texts are wrong, of k + 2 texts or more: where at
                     most (m - k) / 2 of m texts are wrong in a stripe, they are
                     named, in each stripe for itself; stripes are counted from 0
  two by two         which texts fit each other, by the packets that their
                     boards send each other as helpers: texts of two robots fall
                     into their groups, also where there are fewer than k. That
                     two fit shows little; that they do not, shows that one is
                     wrong, or that they are of two files

@JSON@COMMON";

const TIDY: &str = "\
zbk tidy TEXT.. [-o FILE | --folder DIR] [--force]

Undoes what mail, editors and other machines do to texts, and says what it
changed: line ends CR LF or CR, a byte order mark, UTF-16, blanks and empty
lines, capitals, lines of points or data that were broken, a last line without
its end. No digit is altered, but that A to F become a to f; none is added or
left out; blanks within a number are not touched, since a digit may be missing
there. All texts are written, one after another, or none where one is no text
then: TEXT (12). Texts are named as for 'zbk gather'.

  -o, --output FILE      where they are written, else to standard output
      --folder DIR       each is written to DIR/board-0.txt and so on
  -f, --force            replaces files that are there
@COMMON";

const REBUILD: &str = "\
zbk rebuild DIR --fresh BOARDS [--helpers BOARDS] [--stand-ins BOARDS] [--force]
            [--json]

Writes the texts of t fresh boards, 1 to r of them, from the texts of other
boards in DIR, by the packets that these would send over the bus: d helpers send
each fresh board two bytes a stripe, fresh boards send each other one, and where
t is below r, r - t stand-ins send one each. Reports who sent, and the bytes
carried: stripes x t x (2d + r - 1). BOARDS are numbers with commas between.

  -r, --fresh BOARDS     the boards to rebuild; texts of theirs in DIR are not
                         looked at
  -d, --helpers BOARDS   d helpers; once for all fresh boards, or once for each
      --stand-ins BOARDS r - t stand-ins, likewise. Where none are named, the
                         first boards with a text are taken. All texts in DIR but
                         those of fresh boards must agree.
  -f, --force            replaces texts of the fresh boards
@JSON@COMMON";

const LOOK: &str = "\
zbk look TEXT.. [--json]

Prints a table of texts: board, sizes, points, the file's length, its stripes,
the bytes of a share; or why a text is not readable, and where. Below that
stands how far it makes sense, as far as it also begins some text: up to which
line and place, with that line, and what comes then. A text of which all makes
sense is cut short. Bytes that cannot be printed are shown as \\n or \\xEF. Where
'zbk tidy' makes it a text, that is said. Texts are named as for 'zbk gather'.
Exit code 1 where a text or a file is not readable. Whether texts agree is not
looked at: 'zbk check' does that.

@JSON@COMMON";

const EXPLAIN: &str = "\
zbk explain NUMBER|NAME..

Says of each refusal what it means, who acts - the installer, the calling
program or service staff - and what to do: 'zbk explain 10', 'zbk explain
DISAGREE'. A name may be in small letters, or as in the C header. The words are
those of docs/REFUSALS.md. Exit code 2 where no refusal has the number or name;
0 is none, and 11 is not used.

@COMMON";

const SHARE: &str = "\
zbk share FILE --boards N --read K --helpers D --fresh R --board I
          [--points POINTS] [-o TEXT] [--force]

Writes the text of board I's share, as the share printer and the points printer
do, for files up to 4096 stripes. A refusal is also one line refused= with its
number on standard output.

@SIZES      --board I          whose share
  -o, --output TEXT      where the text is written
  -f, --force            replaces TEXT where it is there
@COMMON";

const SIZE_LINES: &str = "\
zbk sizes N [--json]
zbk sizes --boards N --read K --helpers D --fresh R [--length L] [--json]

Prints all legal sizes with at most N boards, 2 to 32, as the size printer does:
a line n= k= d= r= share= stripe= for each. For another N the line refused=1.

With sizes, what they cost: the longest file, how many boards may be lost, how
often the file is stored, which part of it goes over the bus for a board that is
rebuilt and for R together; with a length also the bytes of share, text, packets
and area for such a file. Figures are for files that fill their stripes.

  -n, --boards N         boards, at most 32
  -k, --read K           boards that give the file back
  -d, --helpers D        helpers of each fresh board, at least K
  -r, --fresh R          boards rebuilt together, at least 1; D + R is at most N
      --length L         bytes of a file
@JSON@COMMON";

const PRINT: &str = "\
zbk print [--points-line] <INPUT

Writes what the share printer writes for its input, lines n= k= d= r= node= and
then the file's bytes, at most 16384: the text of the share, or one line
refused= with the number.

      --points-line      what the points printer writes, which takes a line
                         points= after node=
@COMMON";

const TRIAL: &str = "\
zbk trial SEED [--boards N] [--read K] [--helpers D] [--fresh R]
          [--capacity C] [--length L] [--calls COUNT] [--lines]
zbk trial - <LINES
zbk trial --file SEED LENGTH [-o FILE] [--force]

Draws calls from a number, 0 to 4294967295, and makes them on a store in memory:
writes, losses, repairs and reads. Prints a line for each as it is made: op=
with its word, answer= with the refusal or 0, moved= with the bytes moved or 0.
The same numbers give the same lines wherever they are run, and the program
trial writes them too. A load that is not taken is one line refused=1.

  -n, --boards N         boards, at most 32; 12 where nothing is said
  -k, --read K           boards that give the file back; likewise 6
  -d, --helpers D        helpers of each fresh board, at least K; likewise 8
  -r, --fresh R          boards rebuilt together, at least 1; D + R is at most
                         N; likewise 2
      --capacity C       stripes that the store has room for; where nothing is
                         said as many as an area of 32768 bytes, the most, holds
      --length L         bytes of each file written, at most 16384; where
                         nothing is said as many as the store has room for
      --calls COUNT      calls, at most 4294967295; 1000 where nothing is said
      --lines            prints the lines that the program trial reads for this
                         load, n= k= d= r= C= seed= length= calls=, and makes no
                         call; with - they are read from standard input
      --file             writes the trial file of SEED instead, LENGTH bytes
                         that are the same wherever they are drawn
  -o, --output FILE      where that file is written; its bytes do not go to a
                         terminal
  -f, --force            replaces FILE where it is there, and writes to a terminal
@COMMON";

/// The help of a command; none where there is no such command.
fn of(command: &str) -> Option<&'static str> {
    Some(match command {
        "spread" => SPREAD,
        "gather" => GATHER,
        "check" => CHECK,
        "tidy" => TIDY,
        "rebuild" => REBUILD,
        "look" => LOOK,
        "explain" => EXPLAIN,
        "share" => SHARE,
        "sizes" => SIZE_LINES,
        "print" => PRINT,
        "trial" => TRIAL,
        _ => return None,
    })
}

/// The help of all, or of a command.
pub fn words(command: Option<&str>) -> Option<String> {
    let words = command.map_or(Some(ALL), of)?;
    Some(words.replace("@SIZES", SIZES).replace("@JSON", JSON).replace("@COMMON", COMMON))
}

/// Prints it; the command is one.
pub fn print(command: Option<&str>) -> Outcome {
    files::print(words(command).unwrap_or_default().as_bytes())
}
