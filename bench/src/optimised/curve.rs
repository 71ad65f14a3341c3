//! Document 02, A4: the tone curve as one writes it for speed: a table, and one pass without a branch that tells whether every number is
//! clamped.

use reference::calls::{refused, Refusal};

const NUMBERS: usize = 1024;
const ENTRIES: [i32; NUMBERS] = entries();

/// Each entry is looked for from the one before it on.
const fn entries() -> [i32; NUMBERS] {
    let mut entries = [0; NUMBERS];
    let (mut v, mut t) = (0, 0);
    while v < NUMBERS {
        while (2 * t + 1) * (2 * t + 1) < 4_092 * v as i32 {
            t += 1;
        }
        entries[v] = t;
        v += 1;
    }
    entries
}

/// Fills `curved` with the entry of each number of `plane`, or refuses by 4 or 13.
pub fn curve(plane: &[i32], curved: &mut [i32]) -> Result<(), Refusal> {
    if curved.len() != plane.len() {
        return refused(4, 0);
    }
    // a number that is not clamped has a bit that no clamped one has
    let bits = plane.iter().fold(0, |bits, number| bits | number);
    let unclamped = |&number: &i32| number as u32 as usize >= NUMBERS;
    if unclamped(&bits) {
        if let Some(place) = plane.iter().position(unclamped) {
            return refused(13, place);
        }
    }
    for (entry, &number) in curved.iter_mut().zip(plane) {
        *entry = ENTRIES[number as usize % NUMBERS];
    }
    Ok(())
}
