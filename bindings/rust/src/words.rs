//! The words of the refusals: those of docs/REFUSALS.md, put here by tools/refusals.sh.

use crate::Refusal;

impl Refusal {
    /// The refusal's name.
    #[must_use]
    pub const fn name(self) -> &'static str {
        match self {
            Refusal::Size => "SIZE",
            Refusal::Area => "AREA",
            Refusal::Long => "LONG",
            Refusal::Count => "COUNT",
            Refusal::Node => "NODE",
            Refusal::Repeat => "REPEAT",
            Refusal::Short => "SHORT",
            Refusal::Empty => "EMPTY",
            Refusal::Down => "DOWN",
            Refusal::Disagree => "DISAGREE",
            Refusal::Text => "TEXT",
            Refusal::Mixed => "MIXED",
            Refusal::Serving => "SERVING",
            Refusal::Range => "RANGE",
            Refusal::Busy => "BUSY",
            Refusal::Idle => "IDLE",
        }
    }

    /// What it means, in one plain sentence.
    #[must_use]
    pub const fn sentence(self) -> &'static str {
        match self {
            Refusal::Size => {
                "The sizes are not legal, the capacity is not 1 to 4,096 stripes, the record is one that no call \
                 hands out, the points repeat, or one from n up is not 00; or a repair is running by a repair record \
                 that no call hands out beside this record."
            }
            Refusal::Area => {
                "The area, the packet area of a repair that is running, or a slice of shares or packets, has another \
                 length than the sizes give."
            }
            Refusal::Long => "The file is longer than the store's capacity, or than 4,096 stripes at board level.",
            Refusal::Count => {
                "A list has the wrong number of boards, not k + 2 of them for a careful read, or k + 2 is above n; \
                 there are not 1 to r fresh boards; or the texts to gather are not k."
            }
            Refusal::Node => "A board number is n or more.",
            Refusal::Repeat => {
                "A board is named twice where each must be another one, two texts to gather are of one board, or the \
                 new point of a move is some board's."
            }
            Refusal::Short => "The output is shorter than what is to be written.",
            Refusal::Empty => {
                "A repair, a read, a careful read, an edit, a start, a step or a move before any file was written."
            }
            Refusal::Down => {
                "A board to read from, a helper or a stand-in is out of service, or any board, for a move."
            }
            Refusal::Disagree => {
                "No file of this length has these shares; of a careful read, none has all of them but one."
            }
            Refusal::Text => "The text is none that zbk_share_text writes.",
            Refusal::Mixed => "The texts differ in sizes, points or length.",
            Refusal::Serving => "A fresh board is in service.",
            Refusal::Range => "The edit goes beyond the end of the file.",
            Refusal::Busy => "A repair is running.",
            Refusal::Idle => "No repair is running.",
        }
    }

    /// Who acts: the installer, the calling program or service staff.
    #[must_use]
    pub const fn who(self) -> &'static str {
        match self {
            Refusal::Size => "installer",
            Refusal::Area => "installer",
            Refusal::Long => "calling program",
            Refusal::Count => "calling program",
            Refusal::Node => "calling program",
            Refusal::Repeat => "calling program",
            Refusal::Short => "calling program",
            Refusal::Empty => "calling program",
            Refusal::Down => "service staff",
            Refusal::Disagree => "service staff",
            Refusal::Text => "service staff",
            Refusal::Mixed => "service staff",
            Refusal::Serving => "service staff",
            Refusal::Range => "calling program",
            Refusal::Busy => "calling program",
            Refusal::Idle => "calling program",
        }
    }

    /// What to do, in a few sentences.
    #[must_use]
    pub const fn remedy(self) -> &'static str {
        match self {
            Refusal::Size => {
                "Check the sizes (1 <= k <= d, r >= 1, d + r <= n <= 32), the capacity and the points (n different \
                 bytes, then 00). Where they are as they were at set-up, the record was altered, or the repair \
                 record does not belong beside it: give an idle repair record, as after every power failure. Where \
                 it is SIZE still, go on with the second record and area, if two are kept in turn, else set the \
                 store up and write the file anew. A program lends 12 words for a record, 71 for that of a repair, 6 \
                 for a text's head and 32 points."
            }
            Refusal::Area => {
                "Check whether sizes or capacity were changed since set-up. The area has n x capacity x (2d + r - 1) \
                 bytes, the packet area of a repair stripes x t x (2d + r - 1); a share has 2d + r - 1 bytes for \
                 each stripe, a helper packet 2, an exchange packet 1. Where other sizes or another capacity are \
                 wanted, read the file first, then set the store up and write the file anew."
            }
            Refusal::Long => {
                "Write a shorter file, or set up a store of a greater capacity: the longest file has capacity x k(2d \
                 + r - k) bytes, and the capacity is at most 4,096 stripes."
            }
            Refusal::Count => {
                "Name just k boards for a read or an edit, and just k + 2 for a careful read; where k + 2 is above n \
                 no careful read is possible. For a repair or a start name t fresh boards, 1 to r, and for each of \
                 them d helpers and r - t stand-ins; for a move and at board level d helpers and r - 1 partners. \
                 Gather just k texts; zbk gather takes more."
            }
            Refusal::Node => "Name boards 0 to n - 1: the first board is 0, not 1.",
            Refusal::Repeat => {
                "Name each board once among those to read, and once among the fresh ones. The helpers and stand-ins \
                 of one fresh board are all different, and no fresh board is a helper or a stand-in of any. At board \
                 level all boards named in a call are different, the one that works and the one that receives among \
                 them. Of two texts of one board gather one. Move a board to a point that no board has; its own is \
                 one of them."
            }
            Refusal::Short => {
                "Lend an output with room for all that the call writes: for a read or a careful read the file's \
                 length, for a share 2d + r - 1 bytes for each stripe, for a helper packet 2, for an exchange packet \
                 1, for a share's text twice as many as the share and 200 more, for a file from texts half as many \
                 as the texts have."
            }
            Refusal::Empty => {
                "Write a file first. Where one was written, the store was set up anew since then, or this is not the \
                 record that was kept with the area: go on with the one that was."
            }
            Refusal::Down => {
                "Name boards that are in service: k for a read or an edit, k + 2 for a careful read, d + r - t for a \
                 repair of t boards. For a move all n are: repair those that are not first. Where too few are for a \
                 repair, rebuild more boards in one, up to r: it then needs fewer others. Where fewer than d are, no \
                 repair is possible: change the boards, and where k are in service, read the file from them and \
                 write it anew. A board comes into service by a repair or a write alone."
            }
            Refusal::Disagree => {
                "Order nothing by this file before a read of it is trusted again. Bytes of a board were altered, a \
                 write or an edit was cut off, record and area do not belong together, or at board level the length \
                 is another file's. Do a careful read of k + 2 boards: where just one of them is wrong it gives the \
                 file and names that board, which is then taken out of service and rebuilt. Where that is DISAGREE \
                 too, two or more of them are wrong: try others, or write the file anew. That k boards do not \
                 disagree does not show that none is altered. Of texts name k + 2 or more to zbk check, which says \
                 which of them are wrong, or fit each other two by two."
            }
            Refusal::Text => {
                "Copy the text again, whole and unaltered: small letters, no blanks, no empty line, no line broken \
                 in two, each line ended by one line feed, nothing behind the last. zbk look says up to which line \
                 and place it makes sense, and what was expected there; zbk tidy undoes what mail and editors do to \
                 a text, as CR LF, blanks, capitals and broken lines."
            }
            Refusal::Mixed => {
                "Sort the texts by robot and by file, and gather only those of one file; zbk look shows sizes, \
                 points and length of each, zbk check which fit each other."
            }
            Refusal::Serving => {
                "See that the board named is the one that was changed. If it is, take it out of service first, and \
                 then rebuild it; if not, name the one that was."
            }
            Refusal::Range => {
                "Edit bytes of the file alone: offset and number of bytes together are at most its length. An edit \
                 keeps the length; a longer file is written anew."
            }
            Refusal::Busy => {
                "Step the repair to its end, and then write, edit, repair, move or start another. To give it up take \
                 one of its fresh boards out of service, which ends it. Reads, careful reads and losses go on while \
                 it runs."
            }
            Refusal::Idle => {
                "Start a repair before it is stepped. Where one was started it has come to its end, or the loss of a \
                 board that it names or a power failure has ended it: where its fresh boards are still out of \
                 service, start it anew."
            }
        }
    }
}
