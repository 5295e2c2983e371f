//! The command for people: one question to the second program, its answer on standard output.
//! Exit status 0 for an answer, 1 for a refusal, 2 for bad usage. `tally` answers every line of
//! standard input: 0 once all are answered, refusals too, and 3 if reading or writing fails.
#![forbid(unsafe_code)]

use second::reading::{self, Reading};
use second::{bits, crc, day, hex, house, lines, refusal, section, sheet, text, units};
use std::fs::File;
use std::io;
use std::os::fd::AsFd;
use std::process::ExitCode;

const USAGE: &str = "\
usage: second accept HEX                       whether a section is accepted, and its fields
       second accept-text TEXT                 the same, the section given as base64 text
       second sheet HEX                        the field sheet of a section
       second unsheet N N N ..                 the section of a field sheet
       second command HEX                      the command of a section
       second insert-component HEX N           component N of a component insert
       second event HEX N                      event N of a schedule
       second event-component HEX N M          component M of event N
       second private-byte HEX N               byte N of a private command
       second descriptors HEX                  how many known descriptors there are
       second descriptor HEX N                 known descriptor N
       second dtmf-char HEX N M                character M of known descriptor N
       second segmentation-component HEX N M   segmentation component M of known descriptor N
       second audio-component HEX N M          audio component M of known descriptor N
       second upid HEX N                       where the UPID of known descriptor N lies, and its bytes
       second break HEX                        the break that a section opens
       second dash-duration HEX                how long its DASH event lasts
       second effective-time HEX               when it splices, with pts_adjustment added
       second dvb HEX                          whether DVB-DASH allows its command
       second label HEX HOUSE-HEX              its bill label, under this house name
       second numbers QUESTION HEX ..          the answer to one of these sixteen as a flat list
       second tally                            the breaks of texts on standard input, one a line
       second line TEXT                        the line that tally writes for this text
       second line-hex HEX                     the same, the text given as hex bytes
       second sample-day                       the texts of the sample day, samples/day.txt
       second sample-day table                 what each of them is, as in samples/README.md
       second to-section TEXT [ROOM]           the bytes of a base64 text
       second to-section-hex HEX [ROOM]        the same, the text given as hex bytes
       second to-text HEX [ROOM]               the base64 text of a section
       second crc HEX                          the CRC of the bytes
       second millis TICKS                     ticks in milliseconds
       second clock A B                        the sum of two clocks, wrapped at 2^33
       second field HEX AT WIDTH               the number in a field of bits
       second set-field HEX AT WIDTH VALUE     whether it is written, and the bytes then";

/// Why there is no answer.
enum Failure {
    Refusal(u8),
    Usage(String),
}

fn main() -> ExitCode {
    let given: Vec<_> = std::env::args_os().skip(1).collect();
    let words: Vec<&[u8]> = given.iter().map(|word| word.as_encoded_bytes()).collect();
    match words.as_slice() {
        [b"tally"] => tally(),
        words => one_answer(words),
    }
}

fn tally() -> ExitCode {
    match tally_standard_input() {
        Ok(()) => ExitCode::SUCCESS,
        Err(error) => {
            eprintln!("second: {error}");
            ExitCode::from(3)
        }
    }
}

/// As plain files, since Rust's own standard streams pass over some failures.
fn tally_standard_input() -> io::Result<()> {
    let input = File::from(io::stdin().as_fd().try_clone_to_owned()?);
    let output = File::from(io::stdout().as_fd().try_clone_to_owned()?);
    lines::tally(input, output)
}

fn one_answer(words: &[&[u8]]) -> ExitCode {
    match answer(words) {
        Ok(answer) => {
            println!("{answer}");
            ExitCode::SUCCESS
        }
        Err(Failure::Refusal(number)) => {
            println!("{}", refusal::shown(number));
            ExitCode::from(1)
        }
        Err(Failure::Usage(message)) => {
            eprintln!("second: {message}\n{USAGE}");
            ExitCode::from(2)
        }
    }
}

/// What answers a question: a line, or for a section or a typed answer a line for each field.
fn answer(words: &[&[u8]]) -> Result<String, Failure> {
    match words {
        [b"accept", section] => accept(&bytes(section)?),
        [b"accept-text", text] => accept(&read_text(text, usize::MAX)?),
        [b"sheet", section] => sheet(&bytes(section)?),
        [b"unsheet", numbers @ ..] => unsheet(numbers),
        [b"to-section", text, room @ ..] => to_section(text, room),
        [b"to-section-hex", text, room @ ..] => to_section(&bytes(text)?, room),
        [b"to-text", section, room @ ..] => to_text(&bytes(section)?, room),
        [b"crc", data] => Ok(format!("{:#010x}", crc::crc32(&bytes(data)?))),
        [b"millis", ticks] => Ok(units::ticks_to_millis(number(ticks)?).to_string()),
        [b"clock", a, b] => Ok(units::clock_sum(number(a)?, number(b)?).to_string()),
        [b"field", data, at, width] => {
            Ok(bits::read_field(&bytes(data)?, size(at)?, size(width)?).to_string())
        }
        [b"set-field", data, at, width, value] => {
            let mut data = bytes(data)?;
            let written = bits::write_field(&mut data, size(at)?, size(width)?, number(value)?);
            Ok(format!("{written} {}", hex::to_hex(&data)))
        }
        [b"line", text] => Ok(lines::answer(text)),
        [b"line-hex", text] => Ok(lines::answer(&bytes(text)?)),
        [b"sample-day"] => Ok(without_last_newline(day::file())),
        [b"sample-day", b"table"] => Ok(without_last_newline(day::table())),
        [b"numbers", typed_question @ ..] => Ok(joined(&typed(typed_question)?.numbers)),
        [] => Err(Failure::Usage("nothing is asked".to_string())),
        _ => Ok(typed(words)?.listing),
    }
}

/// What is printed has its last newline added.
fn without_last_newline(mut lines: String) -> String {
    lines.pop();
    lines
}

/// The answer to a typed question, in both of its forms.
struct Typed {
    listing: String,
    numbers: Vec<u64>,
}

/// A typed question: the section, and the numbers of what is asked for in it.
fn typed(words: &[&[u8]]) -> Result<Typed, Failure> {
    match words {
        [b"command", section] => both(reading::command(&bytes(section)?)),
        [b"insert-component", section, n] => {
            both(reading::insert_component(&bytes(section)?, number(n)?))
        }
        [b"event", section, n] => both(reading::event(&bytes(section)?, number(n)?)),
        [b"event-component", section, n, m] => {
            let (section, n, m) = (bytes(section)?, number(n)?, number(m)?);
            both(reading::event_component(&section, n, m))
        }
        [b"private-byte", section, n] => both(reading::private_byte(&bytes(section)?, number(n)?)),
        [b"descriptors", section] => both(reading::descriptor_count(&bytes(section)?)),
        [b"descriptor", section, n] => both(reading::descriptor(&bytes(section)?, number(n)?)),
        [b"dtmf-char", section, n, m] => {
            let (section, n, m) = (bytes(section)?, number(n)?, number(m)?);
            both(reading::dtmf_char(&section, n, m))
        }
        [b"segmentation-component", section, n, m] => {
            let (section, n, m) = (bytes(section)?, number(n)?, number(m)?);
            both(reading::segmentation_component(&section, n, m))
        }
        [b"audio-component", section, n, m] => {
            let (section, n, m) = (bytes(section)?, number(n)?, number(m)?);
            both(reading::audio_component(&section, n, m))
        }
        [b"upid", section, n] => both(reading::upid(&bytes(section)?, number(n)?)),
        [b"break", section] => both(house::break_answer(&bytes(section)?)),
        [b"dash-duration", section] => both(house::dash_duration(&bytes(section)?)),
        [b"effective-time", section] => both(house::effective_time(&bytes(section)?)),
        [b"dvb", section] => both(house::dvb(&bytes(section)?)),
        [b"label", section, house_name] => label(&bytes(section)?, &bytes(house_name)?),
        _ => Err(Failure::Usage(
            "this is not one of the questions".to_string(),
        )),
    }
}

fn both(answer: Result<impl Reading, u8>) -> Result<Typed, Failure> {
    let answer = answer.map_err(Failure::Refusal)?;
    Ok(Typed {
        listing: reading::listing(&answer).trim_end().to_string(),
        numbers: reading::numbers(&answer),
    })
}

/// The bytes of the label are told to people too; they are not among its numbers.
fn label(section: &[u8], house_name: &[u8]) -> Result<Typed, Failure> {
    let label = house::bill_label(section, house_name);
    let mut typed = both(Ok(label))?;
    typed.listing += &match label.bytes() {
        [] => "\nbytes: no bytes".to_string(),
        bytes => format!("\nbytes: {}", hex::to_hex(bytes)),
    };
    Ok(typed)
}

fn accept(bytes: &[u8]) -> Result<String, Failure> {
    let accepted = section::accept(bytes).map_err(Failure::Refusal)?;
    let listing = section::listing(&accepted);
    Ok(format!("accepted\n{}", listing.trim_end()))
}

fn sheet(bytes: &[u8]) -> Result<String, Failure> {
    let sheet = sheet::sheet_of(bytes).map_err(Failure::Refusal)?;
    Ok(joined(&sheet))
}

fn joined(numbers: &[u64]) -> String {
    let numbers: Vec<String> = numbers.iter().map(u64::to_string).collect();
    numbers.join(" ")
}

/// The numbers may have commas behind them, as 01 prints them.
fn unsheet(words: &[&[u8]]) -> Result<String, Failure> {
    let numbers = words
        .iter()
        .map(|word| number(word.strip_suffix(b",").unwrap_or(word)));
    let sheet: Vec<u64> = numbers.collect::<Result<_, _>>()?;
    let section = sheet::section_of(&sheet).map_err(Failure::Refusal)?;
    Ok(hex::to_hex(&section))
}

fn to_section(text: &[u8], room: &[&[u8]]) -> Result<String, Failure> {
    let section = read_text(text, room_or_plenty(room)?)?;
    Ok(hex::to_hex(&section))
}

fn read_text(text: &[u8], room: usize) -> Result<Vec<u8>, Failure> {
    text::text_to_section(text, room).map_err(Failure::Refusal)
}

fn to_text(section: &[u8], room: &[&[u8]]) -> Result<String, Failure> {
    let text = text::section_to_text(section, room_or_plenty(room)?).map_err(Failure::Refusal)?;
    Ok(String::from_utf8_lossy(&text).into_owned())
}

/// The room that was given, or as much as anything can need.
fn room_or_plenty(words: &[&[u8]]) -> Result<usize, Failure> {
    match words {
        [] => Ok(usize::MAX),
        [room] => size(room),
        _ => Err(Failure::Usage("there is more than one ROOM".to_string())),
    }
}

fn bytes(word: &[u8]) -> Result<Vec<u8>, Failure> {
    let shown = String::from_utf8_lossy(word);
    hex::from_hex(&shown).ok_or_else(|| Failure::Usage(format!("not hex bytes: {shown}")))
}

fn number(word: &[u8]) -> Result<u64, Failure> {
    let shown = String::from_utf8_lossy(word);
    shown
        .parse()
        .map_err(|_| Failure::Usage(format!("not a number from 0 to 2^64 - 1: {shown}")))
}

fn size(word: &[u8]) -> Result<usize, Failure> {
    number(word)?
        .try_into()
        .map_err(|_| Failure::Usage("a number is too large for this machine".to_string()))
}
