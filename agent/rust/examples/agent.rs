//! agent TABLE PACKETS: prints the rows of a table with their priorities, and for each packet what a switch does with
//! it. It reads and prints what the example in C does (agent/c/agent.c), with the same exit statuses.
//!
//! Both files are texts of decimal words, as policies are: words are parted by blanks or newlines, and '#' starts a
//! comment that ends with its line. A row is 11 words, a packet six (docs/FORMAT.md).
//!
//! Exit status: 0 all was answered; 1 the table or a packet is refused; 2 no answer (a wrong call, a file that cannot
//! be read, a wrong word, an output that cannot be written).
#![forbid(unsafe_code)]

use std::env;
use std::ffi::OsString;
use std::fs;
use std::io::{self, BufWriter, Write};
use std::net::Ipv4Addr;
use std::process::ExitCode;

use qadhmuleh_agent::{number, scan, words, Action, Decision, Refusal, PACKET_BYTES, ROW_BYTES};

const WORD_BYTES: usize = 4;

/// The flags of a row, each for the value that it says is constrained.
const IN_PORT: u32 = 1;
const PROTOCOL: u32 = 2;
const SOURCE_PORT: u32 = 4;
const DESTINATION_PORT: u32 = 8;

/// The words of a file as bytes, and the line that each stands in.
struct Words {
    file: String,
    bytes: Vec<u8>,
    lines: Vec<usize>,
}

fn main() -> ExitCode {
    match run(env::args_os().skip(1).collect()) {
        Ok(true) => ExitCode::SUCCESS,
        Ok(false) => ExitCode::from(1),
        Err(why) => {
            let _ = writeln!(io::stderr(), "agent: {why}");
            ExitCode::from(2)
        }
    }
}

/// Whether all was answered, or why there is no answer.
fn run(arguments: Vec<OsString>) -> Result<bool, String> {
    let [table, packets] = &arguments[..] else {
        return Err("usage: agent TABLE PACKETS".to_string());
    };
    let (table, packets) = (Words::read(table)?, Words::read(packets)?);
    let mut out = BufWriter::new(io::stdout().lock());
    show(&mut out, &table, &packets)
        .and_then(|all| out.flush().map(|()| all))
        .map_err(|error| format!("cannot write standard output: {}", reason(&error)))
}

/// What the system says of an error, without its number.
fn reason(error: &io::Error) -> String {
    let text = error.to_string();
    match text.split_once(" (os error") {
        Some((reason, _)) => reason.to_string(),
        None => text,
    }
}

impl Words {
    fn read(name: &OsString) -> Result<Words, String> {
        let file = name.to_string_lossy().into_owned();
        let text =
            fs::read(name).map_err(|error| format!("cannot read {file}: {}", reason(&error)))?;
        let mut all = Words {
            file,
            bytes: Vec::new(),
            lines: Vec::new(),
        };
        let lines = (1..).zip(text.split(|&byte| byte == b'\n'));
        for (line, word) in
            lines.flat_map(|(line, text)| texts_of(text).map(move |word| (line, word)))
        {
            let Some(value) = value_of(word) else {
                let (most, word) = (u32::MAX, shown(word));
                return Err(format!(
                    "not a decimal number up to {most}: {word}, line {line} of {}",
                    all.file
                ));
            };
            all.bytes.extend(value.to_le_bytes());
            all.lines.push(line);
        }
        Ok(all)
    }

    /// How many words there are.
    fn count(&self) -> usize {
        self.lines.len()
    }

    /// Some words as they stand in the file.
    fn show(&self, out: &mut impl Write, from: usize, many: usize) -> io::Result<()> {
        write!(out, "line {} of {},", self.lines[from], self.file)?;
        for word in words(&self.bytes).skip(from).take(many) {
            write!(out, " {word}")?;
        }
        Ok(())
    }
}

/// The texts of a line that are parted by blanks, up to a comment.
fn texts_of(line: &[u8]) -> impl Iterator<Item = &[u8]> {
    let comment = line.iter().position(|&byte| byte == b'#');
    line[..comment.unwrap_or(line.len())]
        .split(|byte| b" \t\r".contains(byte))
        .filter(|text| !text.is_empty())
}

/// The word that a text is: digits alone.
fn value_of(word: &[u8]) -> Option<u32> {
    let digit = |&byte: &u8| byte.is_ascii_digit().then(|| u32::from(byte - b'0'));
    word.iter().try_fold(0u32, |value, byte| {
        value.checked_mul(10)?.checked_add(digit(byte)?)
    })
}

/// A text; what cannot be printed of it becomes '?'.
fn shown(word: &[u8]) -> String {
    let printed = |&byte: &u8| {
        if byte.is_ascii_graphic() {
            char::from(byte)
        } else {
            '?'
        }
    };
    word.iter().map(printed).collect()
}

/// Prints the table, then the packets up to the first that is refused. Whether none was, nor the table.
fn show(out: &mut impl Write, table: &Words, packets: &Words) -> io::Result<bool> {
    if !show_table(out, table)? {
        return Ok(false);
    }
    for (place, bytes) in packets.bytes.chunks(PACKET_BYTES).enumerate() {
        // The last may be too short to be a packet.
        let decision = match bytes.try_into() {
            Ok(packet) => scan(&table.bytes, packet),
            Err(_) => Err(Refusal::WrongPacket),
        };
        match decision {
            Ok(decision) => show_decision(out, place, bytes, table, decision)?,
            Err(refusal) => {
                writeln!(out, "refused {} {}", refusal.number(), refusal.place())?;
                write!(out, "packet {place}, ")?;
                packets.show(
                    out,
                    place * PACKET_BYTES / WORD_BYTES,
                    bytes.len() / WORD_BYTES,
                )?;
                writeln!(out, ": {}", refusal.meaning())?;
                return Ok(false);
            }
        }
    }
    Ok(true)
}

/// Prints a table with its priorities and the chain that forces them, or its refusal. Whether it was not refused.
fn show_table(out: &mut impl Write, table: &Words) -> io::Result<bool> {
    let rows = table.bytes.len() / ROW_BYTES;
    let (mut priorities, mut chain) = (vec![0; WORD_BYTES * rows], vec![0; WORD_BYTES * rows]);
    match number(&table.bytes, &mut priorities, &mut chain) {
        Ok(levels) => {
            writeln!(out, "rows {rows} priorities {levels}")?;
            for (row, priority) in table.bytes.chunks(ROW_BYTES).zip(words(&priorities)) {
                show_row(out, row, priority)?;
            }
            write!(out, "chain")?;
            for place in words(&chain).take(levels as usize) {
                write!(out, " {place}")?;
            }
            writeln!(out)?;
            Ok(true)
        }
        Err(refusal) => {
            writeln!(out, "refused {} {}", refusal.number(), refusal.place())?;
            if let Refusal::WrongRow { place } = refusal {
                write!(out, "row {place}, ")?;
                table.show(out, place * ROW_BYTES / WORD_BYTES, ROW_BYTES / WORD_BYTES)?;
            } else {
                write!(out, "{}, {} words", table.file, table.count())?;
            }
            writeln!(out, ": {}", refusal.meaning())?;
            Ok(false)
        }
    }
}

/// The words of a row, by their places.
fn row_words(row: &[u8]) -> [u32; ROW_BYTES / WORD_BYTES] {
    let mut all = [0; ROW_BYTES / WORD_BYTES];
    for (word, value) in all.iter_mut().zip(words(row)) {
        *word = value;
    }
    all
}

/// The line of a row, as a listing has it.
fn show_row(out: &mut impl Write, row: &[u8], priority: u32) -> io::Result<()> {
    let [in_port, source, destination, protocol, source_port, destination_port, from, to, flags, kind, rate] =
        row_words(row);
    let value = |flag: u32, value: u32| match flags & flag {
        0 => "*".to_string(),
        _ => value.to_string(),
    };
    write!(
        out,
        "{priority} {} {}/{from} {}/{to} {} {} {} ",
        value(IN_PORT, in_port),
        Ipv4Addr::from(source),
        Ipv4Addr::from(destination),
        value(PROTOCOL, protocol),
        value(SOURCE_PORT, source_port),
        value(DESTINATION_PORT, destination_port)
    )?;
    match Action::from_words(kind, rate) {
        Some(Action::Allow) => writeln!(out, "allow"),
        Some(Action::Deny) => writeln!(out, "deny"),
        Some(Action::Reserve { kbits }) => writeln!(out, "gmb {kbits}"),
        Some(Action::DontCare) | None => writeln!(out, "none"),
    }
}

/// What a switch does with a packet, and which row says so.
fn show_decision(
    out: &mut impl Write,
    place: usize,
    packet: &[u8],
    table: &Words,
    Decision { action, tried }: Decision,
) -> io::Result<()> {
    write!(out, "packet {place} (")?;
    for (value, word) in words(packet).enumerate() {
        let blank = if value > 0 { " " } else { "" };
        match value {
            1 | 2 => write!(out, "{blank}{}", Ipv4Addr::from(word))?,
            _ => write!(out, "{blank}{word}")?,
        }
    }
    write!(out, "): ")?;
    match action {
        Action::DontCare => write!(out, "nothing said")?,
        Action::Allow => write!(out, "allow")?,
        Action::Deny => write!(out, "deny")?,
        Action::Reserve { kbits } => write!(out, "reserve {kbits} kbit/s")?,
    }
    // Where nothing is said after the last row, that row may say don't care itself, or not be met.
    let last = table.bytes.chunks(ROW_BYTES).last().map(row_words);
    if action != Action::DontCare || tried < table.bytes.len() / ROW_BYTES {
        write!(out, ", by row {}", tried - 1)?;
    } else if matches!(last, Some([.., 0, _])) {
        write!(out, ", by row {} or by none", tried - 1)?;
    } else {
        write!(out, ", by no row")?;
    }
    writeln!(out, "; rows tried: {tried}")
}
