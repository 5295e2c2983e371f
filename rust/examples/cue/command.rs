//! The command of a cue in words.

use crate::{measured, spaced};
use timpanimist::*;

pub fn print(section: &[u8]) -> Result<(), Refusal> {
    match command(section)? {
        Command::Null => println!("command: null"),
        Command::Schedule { splice_count } => {
            println!("command: schedule\n  splice_count {splice_count}");
            print_events(section)?;
        }
        Command::Insert(insert) => print_insert(section, insert)?,
        Command::CancelledInsert { splice_event_id } => {
            println!(
                "command: insert, cancelled\n  splice_event_id {}",
                splice_event_id.0
            );
        }
        Command::TimeSignal(splice_time) => {
            println!("command: time signal\n  {}", time(splice_time));
        }
        Command::BandwidthReservation => println!("command: bandwidth reservation"),
        Command::Private { identifier, .. } => {
            println!("command: private\n  identifier 0x{identifier:08x}");
            println!("  private_byte{}", spaced(private_bytes(section)?));
        }
        Command::Unread => println!("command: unread"),
    }
    Ok(())
}

fn print_insert(section: &[u8], insert: Insert) -> Result<(), Refusal> {
    println!("command: insert");
    println!("  splice_event_id {}", insert.splice_event_id.0);
    println!(
        "  out_of_network_indicator {}",
        insert.out_of_network_indicator as u8
    );
    println!("  {}", time(insert.time));
    match insert.mode {
        Mode::Program => println!("  program"),
        Mode::Components { component_count } => println!("  component_count {component_count}"),
    }
    print_avails(insert.avails);
    for component in insert_components(section)? {
        println!(
            "  component_tag {}, {}",
            component.component_tag,
            time(component.time)
        );
    }
    Ok(())
}

fn print_events(section: &[u8]) -> Result<(), Refusal> {
    for (n, event) in schedule_events(section)?.enumerate() {
        match event {
            Event::Scheduled(event) => print_event(section, n, event)?,
            Event::Cancelled { splice_event_id } => {
                println!(
                    " event {n}: cancelled\n  splice_event_id {}",
                    splice_event_id.0
                );
            }
        }
    }
    Ok(())
}

fn print_event(section: &[u8], n: usize, event: ScheduledEvent) -> Result<(), Refusal> {
    println!(" event {n}: scheduled");
    println!("  splice_event_id {}", event.splice_event_id.0);
    println!(
        "  out_of_network_indicator {}",
        event.out_of_network_indicator as u8
    );
    match event.time {
        EventTime::Program { utc_splice_time } => println!("  utc_splice_time {utc_splice_time}"),
        EventTime::Components { component_count } => {
            println!("  component_count {component_count}");
        }
    }
    print_avails(event.avails);
    for component in event_components(section, n)? {
        let EventComponent {
            component_tag,
            utc_splice_time,
        } = component;
        println!("  component_tag {component_tag}, utc_splice_time {utc_splice_time}");
    }
    Ok(())
}

fn print_avails(avails: Avails) {
    match avails.break_duration {
        BreakDuration::Absent => println!("  duration absent"),
        BreakDuration::Present {
            auto_return,
            duration,
        } => {
            println!("  auto_return {}", auto_return as u8);
            println!("  duration {}", measured(duration));
        }
    }
    println!("  unique_program_id {}", avails.unique_program_id);
    println!("  avail_num {}", avails.avail_num);
    println!("  avails_expected {}", avails.avails_expected);
}

fn time(time: SpliceTime) -> String {
    match time {
        SpliceTime::Immediate => "time immediate".to_string(),
        SpliceTime::NotGiven => "time not given".to_string(),
        SpliceTime::Given(Ticks(pts_time)) => format!("pts_time {pts_time}"),
    }
}
