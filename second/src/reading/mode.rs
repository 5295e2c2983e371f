//! What an insert splices, or a segmentation descriptor marks: the program, or its components.

use super::count;
use super::entries::{Entries, Reading};

#[derive(Clone, Copy, Debug, PartialEq, Eq)]
pub enum Mode {
    Program,
    Components { component_count: u64 },
}

impl Mode {
    /// Where there is a list of components, even an empty one, it is not of the program.
    pub fn of<T>(components: &Option<Vec<T>>) -> Mode {
        match components {
            None => Mode::Program,
            Some(components) => Mode::Components {
                component_count: count(components),
            },
        }
    }
}

impl Reading for Mode {
    fn list(&self, to: &mut Entries) {
        match self {
            Mode::Program => to.case("mode", "program", 0),
            Mode::Components { component_count } => {
                to.case("mode", "components", 1);
                to.value("component_count", *component_count);
            }
        }
    }
}
