//! The rooms in which a question is put, and what is answered in each.

use super::Random;
use second::refusal::ROOM;

/// What is accepted is asked for in the room that it needs, in more, in none, in one less and in
/// some that is too little; what is refused, in none and in plenty.
pub fn rooms<T>(random: &mut Random, answer: &Result<Vec<T>, u8>, plenty: usize) -> Vec<usize> {
    let Ok(written) = answer else {
        return vec![0, plenty];
    };
    let needed = written.len();
    let mut rooms = vec![needed, needed + random.within(1..=9), 0];
    if needed > 1 {
        rooms.extend([needed - 1, random.within(1..=needed - 1)]);
    }
    rooms
}

/// The answer where the lent output has this many places.
pub fn in_room<T: Clone>(answer: &Result<Vec<T>, u8>, room: usize) -> Result<Vec<T>, u8> {
    match answer {
        Ok(written) if written.len() > room => Err(ROOM),
        _ => answer.clone(),
    }
}
