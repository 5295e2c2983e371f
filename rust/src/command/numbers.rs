//! A command and its parts out of the numbers of an answer.

use super::answers::*;
use crate::numbers::{no_case, Numbers, Read};

impl Read for Command {
    fn read(numbers: &mut Numbers) -> Command {
        match numbers.case() {
            0 => Command::Null,
            1 => Command::Schedule {
                splice_count: numbers.read(),
            },
            2 => Command::Insert(numbers.read()),
            3 => Command::CancelledInsert {
                splice_event_id: numbers.read(),
            },
            4 => Command::TimeSignal(numbers.read()),
            5 => Command::BandwidthReservation,
            6 => Command::Private {
                identifier: numbers.read(),
                byte_count: numbers.read(),
            },
            7 => Command::Unread,
            case => no_case("command", case),
        }
    }
}

impl Read for Insert {
    fn read(numbers: &mut Numbers) -> Insert {
        Insert {
            splice_event_id: numbers.read(),
            out_of_network_indicator: numbers.read(),
            time: numbers.read(),
            mode: numbers.read(),
            avails: numbers.read(),
        }
    }
}

impl Read for SpliceTime {
    fn read(numbers: &mut Numbers) -> SpliceTime {
        match numbers.case() {
            0 => SpliceTime::Immediate,
            1 => SpliceTime::NotGiven,
            2 => SpliceTime::Given(numbers.read()),
            case => no_case("time", case),
        }
    }
}

impl Read for Mode {
    fn read(numbers: &mut Numbers) -> Mode {
        match numbers.case() {
            0 => Mode::Program,
            1 => Mode::Components {
                component_count: numbers.read(),
            },
            case => no_case("mode", case),
        }
    }
}

impl Read for BreakDuration {
    fn read(numbers: &mut Numbers) -> BreakDuration {
        match numbers.case() {
            0 => BreakDuration::Absent,
            1 => BreakDuration::Present {
                auto_return: numbers.read(),
                duration: numbers.read(),
            },
            case => no_case("break_duration", case),
        }
    }
}

impl Read for Avails {
    fn read(numbers: &mut Numbers) -> Avails {
        Avails {
            break_duration: numbers.read(),
            unique_program_id: numbers.read(),
            avail_num: numbers.read(),
            avails_expected: numbers.read(),
        }
    }
}

impl Read for InsertComponent {
    fn read(numbers: &mut Numbers) -> InsertComponent {
        InsertComponent {
            component_tag: numbers.read(),
            time: numbers.read(),
        }
    }
}

impl Read for Event {
    fn read(numbers: &mut Numbers) -> Event {
        match numbers.case() {
            0 => Event::Scheduled(numbers.read()),
            1 => Event::Cancelled {
                splice_event_id: numbers.read(),
            },
            case => no_case("event", case),
        }
    }
}

impl Read for ScheduledEvent {
    fn read(numbers: &mut Numbers) -> ScheduledEvent {
        ScheduledEvent {
            splice_event_id: numbers.read(),
            out_of_network_indicator: numbers.read(),
            time: numbers.read(),
            avails: numbers.read(),
        }
    }
}

impl Read for EventTime {
    fn read(numbers: &mut Numbers) -> EventTime {
        match numbers.case() {
            0 => EventTime::Program {
                utc_splice_time: numbers.read(),
            },
            1 => EventTime::Components {
                component_count: numbers.read(),
            },
            case => no_case("event time", case),
        }
    }
}

impl Read for EventComponent {
    fn read(numbers: &mut Numbers) -> EventComponent {
        EventComponent {
            component_tag: numbers.read(),
            utc_splice_time: numbers.read(),
        }
    }
}
