//! Says in words what a cue says: cue TEXT [HOUSE]
//!
//! TEXT is the cue in base64, HOUSE the name under which a break is billed whose cue has no UPID. The exit
//! status is 0 for a cue that is accepted, 1 for one that is refused and 2 for wrong usage.
//! examples/cue.c prints the same.

use std::env;
use std::os::unix::ffi::OsStringExt;
use std::process::ExitCode;

use timpanimist::*;

#[path = "cue/command.rs"]
mod command_words;
#[path = "cue/descriptors.rs"]
mod descriptor_words;

fn main() -> ExitCode {
    let words: Vec<Vec<u8>> = env::args_os().skip(1).map(OsStringExt::into_vec).collect();
    let (text, house) = match &words[..] {
        [text] => (text, &b"HOUSE"[..]),
        [text, house] => (text, &house[..]),
        _ => {
            eprintln!("usage: cue TEXT [HOUSE]");
            return ExitCode::from(2);
        }
    };
    match cue(text, house) {
        Ok(()) => ExitCode::SUCCESS,
        Err(refusal) => {
            println!("refused, {refusal}");
            ExitCode::from(1)
        }
    }
}

fn cue(text: &[u8], house: &[u8]) -> Result<(), Refusal> {
    let section = text_to_section(text)?;
    accept(&section)?;
    println!("accepted: {} bytes", section.len());
    told("command: ", command_words::print(&section));
    told("known descriptors: ", descriptor_words::print(&section));
    told("effective time: ", print_effective_time(&section));
    told("break: ", print_break(&section));
    told("DVB-DASH check: ", print_dvb(&section));
    told("DASH duration: ", print_dash_duration(&section));
    print_bill_label(&section, house);
    Ok(())
}

/// Prints the refusal of a question that an accepted section leaves open: a sealed one has many.
fn told(question: &str, answer: Result<(), Refusal>) {
    if let Err(refusal) = answer {
        println!("{question}refused, {refusal}");
    }
}

fn print_effective_time(section: &[u8]) -> Result<(), Refusal> {
    match effective_time(section)? {
        EffectiveTime::At(Ticks(ticks)) => println!("effective time: {ticks} ticks"),
        EffectiveTime::None => println!("effective time: none"),
    }
    Ok(())
}

fn print_break(section: &[u8]) -> Result<(), Refusal> {
    match break_answer(section)? {
        Break::None => println!("break: none"),
        Break::Measured(ticks) => println!("break: {}", measured(ticks)),
        Break::Unmeasured => println!("break: without measure"),
        Break::Unread => println!("break: unread"),
    }
    Ok(())
}

fn print_dvb(section: &[u8]) -> Result<(), Refusal> {
    let passes = dvb(section)?;
    println!("DVB-DASH check: {}", if passes { "yes" } else { "no" });
    Ok(())
}

fn print_dash_duration(section: &[u8]) -> Result<(), Refusal> {
    match dash_duration(section)? {
        DashDuration::Measured(ticks) => println!("DASH duration: {}", measured(ticks)),
        DashDuration::None => println!("DASH duration: none"),
    }
    Ok(())
}

fn print_bill_label(section: &[u8], house: &[u8]) {
    match label(section, house) {
        Label::Upid(bytes) => println!("bill label: UPID{}", spaced(bytes.iter().copied())),
        Label::House(name) => println!("bill label: house {}", String::from_utf8_lossy(name)),
    }
}

fn measured(ticks: Ticks) -> String {
    format!("{} ticks, {} ms", ticks.0, ticks.to_millis().0)
}

/// Bytes in hex, a space before each.
fn spaced(bytes: impl Iterator<Item = u8>) -> String {
    bytes.map(|byte| format!(" {byte:02x}")).collect()
}
