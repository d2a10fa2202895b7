//! The demo: a small stock file on eight shelf boards. Two boards are lost and rebuilt together, then two others one at a time, each with a board
//! that stands in, and the file is read back from the four rebuilt boards only. A carton is loaded: one pack count is changed by an edit, without a
//! rewrite, and read back from other boards than those that told the old one. Two more boards are rebuilt while the arm works, three packets at a time
//! with reads in between; power fails in the middle, and the repair is started anew. A board answers a wrong byte: a read of four boards takes it, and a
//! careful read of six gives the right file and names the board, which is swapped. Then the first file on a robot of the first series, whose boards have
//! other points: two boards are lost and rebuilt, one of them is printed as text, and the file is read back. This robot is carried to the present points
//! while it runs: its boards are moved one after another, with a read behind each move; in between a pack count is changed, and a board is lost and rebuilt.
//! At last the boards hold what a fresh write would put there, and a text has no line of points. Prints what happens, board by board, and how many
//! bytes the bus carried.

use std::error::Error;
use std::ops::Range;
use zebrankai::{board, Points, Record, Sizes};

/// Eight boards; any four give the file back; each fresh board hears six helpers; up to two are rebuilt together.
const SIZES: Sizes = Sizes { n: 8, k: 4, d: 6, r: 2 };

/// Stripes that each board has room for.
const CAPACITY: usize = 16;

/// Packets that the arm leaves room for on the bus, from one of its moves to the next.
const ALLOWED: usize = 3;

const STOCK: &str = "aspirin 100 mg: 42 boxes
ibuprofen 400 mg: 17 boxes
paracetamol 500 mg: 0 boxes
saline 0.9 %, 500 ml: 120 bags
gloves, size M: 36 packs
insulin pens: 8 boxes
thermometer covers: 250 pieces
";

/// The shelf: the store's record, the memory of all boards, that for the packets of a started repair, and the boards that were rebuilt.
struct Shelf {
    record: Record,
    area: Vec<u8>,
    packets: Vec<u8>,
    rebuilt: Vec<usize>,
}

fn main() -> Result<(), Box<dyn Error>> {
    let file = STOCK.as_bytes();
    println!("The stock file has {} lines, {} bytes:\n", STOCK.lines().count(), file.len());
    print_lines(STOCK);
    let mut shelf = Shelf::write(Points::standard(SIZES.n), file)?;
    println!("\n1. It is written to {} boards. Any {} of them give it back.\n", SIZES.n, SIZES.k);
    shelf.print_boards();

    shelf.swap(2, &[2, 5])?;
    shelf.swap(4, &[0])?;
    shelf.swap(6, &[7])?;

    println!("\n8. The file is read from the four rebuilt boards only: 2, 5, 0 and 7.\n");
    shelf.read(&[2, 5, 0, 7], file)?;

    println!("\n9. A carton of 24 boxes of aspirin is loaded. Of the file four bytes change, \" 42 \" to \" 66 \". Boards 1, 3, 4 and 6");
    println!("   tell the old ones, and every board is changed by its share of the difference.\n");
    let edited = shelf.edit(" 42 ", " 66 ", &[1, 3, 4, 6])?;

    println!("\n10. The file is read from the other four boards: 0, 2, 5 and 7.\n");
    shelf.read(&[0, 2, 5, 7], edited.as_bytes())?;

    println!("\n11. Boards 1 and 6 fail while the arm needs the bus. Their repair is started, and carries {ALLOWED} packets at a time; the");
    println!("    file is read in between.\n");
    shelf.fail(&[1, 6])?;
    shelf.start(&[1, 6])?;
    shelf.step(9, &[0, 2, 3, 4], edited.as_bytes())?;

    println!("\n12. Power fails. The record and the boards are kept; the repair's own record and its packets are gone. The file is");
    println!("    read from boards 2, 4, 5 and 7.\n");
    shelf.power_fails();
    shelf.print_boards();
    println!();
    shelf.read(&[2, 4, 5, 7], edited.as_bytes())?;

    println!("\n13. The repair is started anew, and stepped to its end.\n");
    shelf.start(&[1, 6])?;
    shelf.step(shelf.packet_count(2), &[0, 2, 3, 4], edited.as_bytes())?;
    shelf.rebuilt.extend([1, 6]);
    println!();
    shelf.print_boards();

    println!("\n14. The file is read from boards 1, 6, 0 and 7.\n");
    shelf.read(&[1, 6, 0, 7], edited.as_bytes())?;

    println!("\n15. Board 5 is worn: a byte of it is another one, and it stays in service. A read of boards 5, 0, 2 and 3 sees that they fit");
    println!("    together, and no more.\n");
    shelf.wear(5);
    shelf.read_wrongly(&[5, 0, 2, 3], edited.as_bytes())?;

    println!("\n16. A careful read of six boards, two more than give the file back: 5, 0, 2, 3, 6 and 7.\n");
    shelf.read_careful(&[5, 0, 2, 3, 6, 7], edited.as_bytes())?;

    shelf.swap(17, &[5])?;

    println!("\n19. The careful read once more.\n");
    shelf.read_careful(&[5, 0, 2, 3, 6, 7], edited.as_bytes())?;

    println!("\n20. A robot of the first series keeps the first file. There board i has the point i + 1 and not i, so the boards");
    println!("    hold other bytes.\n");
    let mut shelf = Shelf::write(Points::first_series(SIZES.n), file)?;
    shelf.print_boards();

    shelf.swap(21, &[3, 4])?;

    println!("\n23. Board 3 is printed as text, which says the points of all boards.\n");
    shelf.print_text(3)?;

    println!("\n24. The file is read from boards 3, 4, 6 and 1.\n");
    shelf.read(&[3, 4, 6, 1], file)?;

    println!("\n25. This robot gets the points of present ones while it runs: boards are moved from i + 1 to i, one after another. Boards 0");
    println!("    to 2 are; the file is read behind each move, also from the moved board.\n");
    shelf.move_boards(0..3, file)?;

    println!("\n26. A carton of 24 boxes of ibuprofen is loaded, \" 17 \" becomes \" 41 \", by what boards 0, 1, 5 and 7 tell.\n");
    let edited = shelf.edit(" 17 ", " 41 ", &[0, 1, 5, 7])?;

    println!("\n27. Board 6 fails and is swapped for a new one. Until it is rebuilt no board can be moved.\n");
    shelf.fail(&[6])?;
    shelf.move_refused(3)?;
    shelf.rebuild(28, &[6])?;

    println!("\n29. The other boards are moved, 3 to 7.\n");
    shelf.move_boards(3..SIZES.n, edited.as_bytes())?;

    println!("\n30. The boards hold what a fresh write of the file puts on a present robot, and the record is that of one.\n");
    shelf.is_as_written(edited.as_bytes())?;
    shelf.print_boards();

    println!("\n31. Board 3 is printed as text once more. There is no line of points: they are 0 to 7.\n");
    shelf.print_text(3)?;

    println!("\n32. The file is read from boards 3, 4, 6 and 1.\n");
    shelf.read(&[3, 4, 6, 1], edited.as_bytes())
}

fn print_lines(text: &str) {
    for line in text.lines() {
        println!("    {line}");
    }
}

impl Shelf {
    /// Sets up a store of boards with these points and writes a file to it.
    fn write(points: Points, file: &[u8]) -> Result<Shelf, Box<dyn Error>> {
        // what boards hold before the first write does not matter
        let mut area = vec![0xEE; SIZES.area_len(CAPACITY)];
        let mut record = Record::set_up(SIZES, points, CAPACITY)?;
        record.write(&mut area, file)?;
        Ok(Shelf { record, area, packets: Vec::new(), rebuilt: Vec::new() })
    }

    /// Reads the file from these boards, prints it, and holds it to the file that was written, or edited.
    fn read(&self, boards: &[usize], file: &[u8]) -> Result<(), Box<dyn Error>> {
        let mut read = vec![0; self.record.length()];
        self.record.read(&self.area, boards, &mut read)?;
        print_lines(&String::from_utf8_lossy(&read));
        if read != file {
            return Err("the file that was read is not the file that was written or edited".into());
        }
        match file == STOCK.as_bytes() {
            true => {
                println!("\nAll {} bytes are as they were written: no count was lost, none was made up.", read.len())
            }
            false => println!(
                "\nAll {} bytes are those of the edited file: one count is new, no other was touched.",
                read.len()
            ),
        }
        Ok(())
    }

    /// A byte of a board's share becomes another one: the second, which no board shares with it but the next one by number.
    fn wear(&mut self, board: usize) {
        let byte = &mut self.area[board * CAPACITY * SIZES.share_len() + 1];
        let was = *byte;
        *byte ^= 0x10;
        println!("    board {board}: byte 1: {was:02x}  became  {byte:02x}");
    }

    /// Reads the file from boards of which one is worn, and prints how many bytes are wrong.
    fn read_wrongly(&self, boards: &[usize], file: &[u8]) -> Result<(), Box<dyn Error>> {
        let mut read = vec![0; self.record.length()];
        self.record.read(&self.area, boards, &mut read)?;
        let wrong = read.iter().zip(file).filter(|(read, right)| read != right).count();
        if wrong == 0 {
            return Err("the worn board did not show".into());
        }
        println!("    accepted, with {wrong} of {} bytes wrong", read.len());
        Ok(())
    }

    /// Reads the file from two boards more, and says which one is odd.
    fn read_careful(&self, boards: &[usize], file: &[u8]) -> Result<(), Box<dyn Error>> {
        let mut read = vec![0; self.record.length()];
        match self.record.read_careful(&self.area, boards, &mut read)? {
            Some(odd) => println!("    board {odd} is odd; the other {} agree", boards.len() - 1),
            None => println!("    all {} boards agree; none is odd", boards.len()),
        }
        if read != file {
            return Err("the careful read gave another file".into());
        }
        println!("    All {} bytes are right.", read.len());
        Ok(())
    }

    /// Puts a count in the place of the one that stands in the stock file once, by what some boards tell of it, and prints what each board had and has
    /// in the stripe that is reached, which is one; gives the edited file.
    fn edit(&mut self, old: &str, new: &str, boards: &[usize]) -> Result<String, Box<dyn Error>> {
        let offset = STOCK.find(old).ok_or("no such count")?;
        let before = self.area.clone();
        self.record.edit(&mut self.area, offset, new.as_bytes(), boards)?;
        let (width, share_len) = (SIZES.share_len(), self.share_len());
        let start = offset / SIZES.stripe_len() * width;
        let stripe = start..start + width;
        let board_len = CAPACITY * width;
        for (board, (now, before)) in self.area.chunks(board_len).zip(before.chunks(board_len)).enumerate() {
            let [was, is] = [before, now].map(|bytes| hexadecimal(&bytes[stripe.clone()], ""));
            println!("    board {board}: bytes {start} to {}: {was}  become  {is}", stripe.end - 1);
            if now[..start] != before[..start] || now[stripe.end..] != before[stripe.end..] {
                return Err("the edit reached another stripe".into());
            }
        }
        println!("\n    The other {} bytes of each board are as they were.", share_len - width);
        Ok(STOCK.replacen(old, new, 1))
    }

    /// Bytes of a board's share.
    fn share_len(&self) -> usize {
        SIZES.stripes(self.record.length()) * SIZES.share_len()
    }

    /// One line for each board: out of service, or how its share begins.
    fn print_boards(&self) {
        for (board, bytes) in self.area.chunks(CAPACITY * SIZES.share_len()).enumerate() {
            if self.record.in_service(board) {
                let rebuilt = if self.rebuilt.contains(&board) { "  (rebuilt)" } else { "" };
                println!(
                    "    board {board}: keeps {} bytes: {} ..{rebuilt}",
                    self.share_len(),
                    hexadecimal(&bytes[..8], " ")
                );
            } else {
                println!("    board {board}: out of service");
            }
        }
    }

    /// Takes boards out, and puts new ones in their places, which hold nothing of use.
    fn fail(&mut self, boards: &[usize]) -> Result<(), Box<dyn Error>> {
        for &board in boards {
            self.record.lose(board)?;
            let length = CAPACITY * SIZES.share_len();
            self.area[board * length..][..length].fill(0xEE);
        }
        Ok(())
    }

    /// How many packets a repair of so many boards has.
    fn packet_count(&self, boards: usize) -> usize {
        boards * (SIZES.d + SIZES.r - 1)
    }

    /// Starts to rebuild r boards: the first d of the others help each.
    fn start(&mut self, boards: &[usize]) -> Result<(), Box<dyn Error>> {
        let helpers: Vec<usize> = (0..SIZES.n).filter(|board| !boards.contains(board)).take(SIZES.d).collect();
        self.record.start(&self.area, boards, &helpers.repeat(boards.len()), &[])?;
        self.packets = vec![0xEE; self.record.packets_len()];
        Ok(())
    }

    /// Carries packets, as many at a time as are allowed, and reads the file from these boards behind each step, until so many are carried.
    fn step(&mut self, count: usize, readers: &[usize], file: &[u8]) -> Result<(), Box<dyn Error>> {
        let all = self.packet_count(SIZES.r);
        let mut carried = 0;
        while carried < count {
            let now = self.record.step(&mut self.area, &mut self.packets, ALLOWED)?;
            let mut read = vec![0; self.record.length()];
            self.record.read(&self.area, readers, &mut read)?;
            if read != file {
                return Err("the file that was read between packets is another one".into());
            }
            println!(
                "    packets {} to {} of {all} carried, {}; read from boards {}: all {} bytes are right",
                carried + 1,
                carried + now,
                if self.record.is_repairing() {
                    "the new boards are out of service"
                } else {
                    "and both are in service"
                },
                listed(readers, ", "),
                read.len()
            );
            carried += now;
        }
        Ok(())
    }

    /// Power fails: what is kept is the record's words and the area.
    fn power_fails(&mut self) {
        self.record = Record::from_words(self.record.words());
        self.packets.clear();
    }

    /// Takes boards out, and rebuilds new ones in their places together. `step` is the number of the first of the two steps.
    fn swap(&mut self, step: usize, boards: &[usize]) -> Result<(), Box<dyn Error>> {
        self.fail(boards)?;
        match boards {
            [one] => {
                println!("\n{step}. Board {one} fails and is swapped for a new one, which holds nothing of use.\n")
            }
            _ => println!(
                "\n{step}. Boards {} fail and are swapped for new ones, which hold nothing of use.\n",
                listed(boards, " and ")
            ),
        }
        self.print_boards();
        self.rebuild(step + 1, boards)
    }

    /// Rebuilds boards together: the first of the others stand in for those that are missing to r, the next d help.
    fn rebuild(&mut self, step: usize, boards: &[usize]) -> Result<(), Box<dyn Error>> {
        let count = boards.len();
        let others: Vec<usize> = (0..SIZES.n).filter(|board| !boards.contains(board)).collect();
        let (stand_ins, others) = others.split_at(SIZES.r - count);
        let helpers = &others[..SIZES.d];
        match stand_ins {
            [] => println!("\n{step}. The new boards are rebuilt together.\n"),
            _ => {
                println!("\n{step}. The new board is rebuilt; board {} stands in for a second new one.\n", stand_ins[0])
            }
        }
        let moved = self.record.repair(&mut self.area, boards, &helpers.repeat(count), &stand_ins.repeat(count))?;
        self.rebuilt.extend(boards);
        for &board in boards {
            let partners = boards.iter().filter(|&&other| other != board);
            let said: Vec<String> = stand_ins
                .iter()
                .map(|stand_in| format!("board {stand_in}, which stands in"))
                .chain(partners.map(|partner| format!("new board {partner}")))
                .collect();
            self.print_packets(board, helpers, &said.join(", "));
        }
        let whole = count * self.record.length();
        let each = if count == 1 { "the new board" } else { "each of the two boards" };
        println!("    The bus carried {moved} bytes. Fetching the whole file for {each} would take {whole}:");
        println!("    this way the bus carries {} % of that.\n", (100 * moved).div_ceil(whole));
        self.print_boards();
        Ok(())
    }

    /// The lists for a board alone: the first of the others is its partner, the next d help.
    fn others(board: usize) -> (Vec<usize>, Vec<usize>) {
        let others: Vec<usize> = (0..SIZES.n).filter(|&other| other != board).collect();
        let (partners, others) = others.split_at(SIZES.r - 1);
        (others[..SIZES.d].to_vec(), partners.to_vec())
    }

    /// Moves boards to the points of present robots, and reads the file behind each move from the board and the next three.
    fn move_boards(&mut self, boards: Range<usize>, file: &[u8]) -> Result<(), Box<dyn Error>> {
        for board in boards {
            let (helpers, partners) = Shelf::others(board);
            let was = self.record.points().of_boards(SIZES.n)[board];
            let moved = self.record.move_board(&mut self.area, board, board as u8, &helpers, &partners)?;
            let readers: Vec<usize> = (0..SIZES.k).map(|t| (board + t) % SIZES.n).collect();
            let mut read = vec![0; self.record.length()];
            self.record.read(&self.area, &readers, &mut read)?;
            if read != file {
                return Err("the file that was read behind a move is another one".into());
            }
            println!(
                "    board {board} moved from {was:02x} to {board:02x}, {moved} bytes carried; read from boards {}: all {} bytes are right",
                listed(&readers, ", "),
                read.len()
            );
        }
        Ok(())
    }

    /// A move that is refused, and why.
    fn move_refused(&mut self, board: usize) -> Result<(), Box<dyn Error>> {
        let (helpers, partners) = Shelf::others(board);
        match self.record.move_board(&mut self.area, board, board as u8, &helpers, &partners) {
            Ok(_) => Err("a board was moved with another one out of service".into()),
            Err(refusal) => {
                println!("    a move of board {board}: {refusal}");
                Ok(())
            }
        }
    }

    /// Holds the record and the boards to those of a store newly set up at the present points, once the file is written.
    fn is_as_written(&self, file: &[u8]) -> Result<(), Box<dyn Error>> {
        let anew = Shelf::write(Points::standard(SIZES.n), file)?;
        let shares = |shelf: &Shelf| -> Vec<Vec<u8>> {
            let boards = shelf.area.chunks(CAPACITY * SIZES.share_len());
            boards.map(|bytes| bytes[..shelf.share_len()].to_vec()).collect()
        };
        match anew.record == self.record && shares(&anew) == shares(self) {
            true => Ok(()),
            false => Err("the moved boards hold other bytes than a fresh write gives".into()),
        }
    }

    /// A board's share as text, the last line cut.
    fn print_text(&self, board: usize) -> Result<(), Box<dyn Error>> {
        let length = self.record.length();
        let share = &self.area[board * CAPACITY * SIZES.share_len()..][..self.share_len()];
        let mut text = vec![0; SIZES.text_room(length)];
        let written = board::share_text(SIZES, self.record.points(), length, board, share, &mut text)?;
        for line in String::from_utf8_lossy(&text[..written]).lines() {
            match line.get(..21).filter(|line| line.starts_with("data=")) {
                Some(begin) => println!("    {begin}.."),
                None => println!("    {line}"),
            }
        }
        Ok(())
    }

    /// What a fresh board hears.
    fn print_packets(&self, board: usize, helpers: &[usize], partner: &str) {
        let length = self.record.length();
        println!(
            "    board {board} hears {} bytes from each of the boards {}, then {} bytes from {partner}",
            SIZES.helper_packet_len(length),
            listed(helpers, ", "),
            SIZES.exchange_packet_len(length)
        );
    }
}

/// Bytes as hexadecimal pairs, with this between them.
fn hexadecimal(bytes: &[u8], between: &str) -> String {
    bytes.iter().map(|byte| format!("{byte:02x}")).collect::<Vec<String>>().join(between)
}

/// The numbers of boards, with these words between them.
fn listed(boards: &[usize], between: &str) -> String {
    boards.iter().map(usize::to_string).collect::<Vec<String>>().join(between)
}
