//! Changes that make a good file a nearly good one.

use crate::common::Random;

/// Makes one to three changes of one byte each: set, stepped by 1, dropped, added; or cuts the file.
pub fn edit(random: &mut Random, file: &mut Vec<u8>, header: usize) {
    let changes = 1 + random.below(8) / 6 + random.below(8) / 7;
    for _ in 0..changes {
        edit_once(random, file, header);
    }
}

fn edit_once(random: &mut Random, file: &mut Vec<u8>, header: usize) {
    if file.is_empty() {
        file.push(random.below(256) as u8);
        return;
    }
    // Every third change is in the header.
    let reach = if random.once_in(3) {
        header.min(file.len())
    } else {
        file.len()
    };
    let at = random.below(reach);
    match random.below(16) {
        0 => {
            file.remove(at);
        }
        1 => file.insert(at, random.below(256) as u8),
        2 => file.push(random.below(256) as u8),
        3 => file.truncate(at),
        4..=6 => file[at] = file[at].wrapping_add(1),
        7 => file[at] = file[at].wrapping_sub(1),
        8..=10 => file[at] = 0,
        11 => file[at] = 255,
        12 => file[at] ^= 1 << random.below(8),
        _ => file[at] = random.below(256) as u8,
    }
}

/// Bytes without sense, at most 64.
pub fn noise(random: &mut Random) -> Vec<u8> {
    let length = random.below(65);
    let most = if random.once_in(2) { 256 } else { 8 };
    (0..length).map(|_| random.below(most) as u8).collect()
}
