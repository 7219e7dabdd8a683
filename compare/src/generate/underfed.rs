//! Logs by the first line that underfeeds a place from activity 2 to activity 3.

use super::logs::{frame, random_count, random_most_cases, random_step};
use super::Random;
use crate::model::{Frame, Place};

/// The activity bound of these logs and places.
pub const UNDERFED_BOUND: u8 = 5;

/// A place with input 2 and output 3. Activity 4 may be one as well, or both, and the start and the
/// end may be inputs.
pub fn place_from_2_to_3(random: &mut Random) -> Place {
    Place {
        inputs: 0b00100 | random.pick(&[0b00000, 0b00001, 0b10000, 0b10011]),
        outputs: 0b01000 | random.pick(&[0b00000, 0b10000]),
    }
}

/// A log of so many frames of which this line is the first that underfeeds such a place. With no
/// such line no frame does.
pub fn log_underfed_from(
    random: &mut Random,
    place: Place,
    frames: usize,
    line: usize,
) -> Vec<Frame> {
    let most_cases = random_most_cases(random);
    let of_index = |index| {
        let underfed = index == line || index > line && random.chance(30);
        let (mut steps, tokens) = fed_steps(random, place);
        if underfed {
            steps.extend(underfed_steps(random, place, tokens));
        }
        frame(random_count(random, most_cases), steps)
    };
    (0..frames).map(of_index).collect()
}

/// Activities behind the start that have the tokens they take, and how many are left then.
fn fed_steps(random: &mut Random, place: Place) -> (Vec<u8>, usize) {
    let holds = |set: u16, code: u8| usize::from(set >> code & 1);
    let mut tokens = holds(place.inputs, 0);
    let mut steps = Vec::new();
    for _ in 0..random.up_to_one_of(&[3, 10, 60]) {
        let code = random_step(random, UNDERFED_BOUND);
        if tokens >= holds(place.outputs, code) {
            tokens = tokens - holds(place.outputs, code) + holds(place.inputs, code);
            steps.push(code);
        }
    }
    (steps, tokens)
}

/// Activities that take all these tokens, one that lacks its token, and some more.
fn underfed_steps(random: &mut Random, place: Place, tokens: usize) -> Vec<u8> {
    let mut steps = vec![3; tokens];
    let takes_too = place.outputs >> 4 & 1 == 1;
    steps.push(if takes_too && random.chance(50) { 4 } else { 3 });
    let more = random.up_to_one_of(&[0, 5, 60]);
    steps.extend((0..more).map(|_| random_step(random, UNDERFED_BOUND)));
    steps
}
