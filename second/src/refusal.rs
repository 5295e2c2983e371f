//! The numbers for refusals, rows 1 to 17 of paper 01's table, each with its name.

pub const SHORT: u8 = 1;
pub const TABLE: u8 = 2;
pub const SYNTAX: u8 = 3;
pub const SIZE: u8 = 4;
pub const CRC: u8 = 5;
pub const VERSION: u8 = 6;
pub const CRYPT: u8 = 7;
pub const COMMAND: u8 = 8;
pub const LOOP: u8 = 9;
pub const DESCRIPTOR: u8 = 10;
pub const ROOM: u8 = 11;
pub const TEXTLEN: u8 = 12;
pub const TEXTCHAR: u8 = 13;
pub const TEXTBITS: u8 = 14;
pub const SHEET: u8 = 15;
pub const NOTHERE: u8 = 16;
pub const SEALED: u8 = 17;

/// The name that stands beside a number in the table, if the number has a row.
pub fn name(number: u8) -> Option<&'static str> {
    match number {
        SHORT => Some("SHORT"),
        TABLE => Some("TABLE"),
        SYNTAX => Some("SYNTAX"),
        SIZE => Some("SIZE"),
        CRC => Some("CRC"),
        VERSION => Some("VERSION"),
        CRYPT => Some("CRYPT"),
        COMMAND => Some("COMMAND"),
        LOOP => Some("LOOP"),
        DESCRIPTOR => Some("DESCRIPTOR"),
        ROOM => Some("ROOM"),
        TEXTLEN => Some("TEXTLEN"),
        TEXTCHAR => Some("TEXTCHAR"),
        TEXTBITS => Some("TEXTBITS"),
        SHEET => Some("SHEET"),
        NOTHERE => Some("NOTHERE"),
        SEALED => Some("SEALED"),
        _ => None,
    }
}

/// A refusal as it is shown to people: `R 13 TEXTCHAR`.
pub fn shown(number: u8) -> String {
    match name(number) {
        Some(name) => format!("R {number} {name}"),
        None => format!("R {number}"),
    }
}

#[cfg(test)]
mod tests {
    use super::*;

    #[test]
    fn the_table_has_seventeen_rows() {
        assert!((1..=17).all(|number| name(number).is_some()));
        assert_eq!(name(0), None);
        assert!((18..=255).all(|number| name(number).is_none()));
    }

    #[test]
    fn a_refusal_shows_its_number_and_name() {
        assert_eq!(shown(4), "R 4 SIZE");
        assert_eq!(shown(11), "R 11 ROOM");
        assert_eq!(shown(12), "R 12 TEXTLEN");
        assert_eq!(shown(13), "R 13 TEXTCHAR");
        assert_eq!(shown(14), "R 14 TEXTBITS");
        assert_eq!(shown(200), "R 200");
    }
}
