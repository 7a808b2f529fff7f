//! The oracle's mix of beams, of which those are left out that are refused: by our limits, which the Rust does
//! not test, or where the Rust panics, since catching a panic takes long.

use crate::draw::{Beam, Place};
use std::path::Path;
use std::str::Split;
use std::sync::Arc;

/// A beam, and at how many parts of the piece the Rust looks as the oracle counts it.
pub struct Counted {
    pub beam: Beam,
    pub looked: u32,
}

/// From the lines of `oracle intersect`: piece object_to_world world_to_object reverse ray, then status
/// [looked [..]].
pub fn read(lines: &Path) -> Vec<Counted> {
    let text = std::fs::read_to_string(lines)
        .unwrap_or_else(|error| panic!("{}: {error}", lines.display()));

    text.lines().filter_map(counted).collect()
}

fn counted(line: &str) -> Option<Counted> {
    let mut words = line.split(' ');
    let beam = Beam {
        piece: floats(&mut words),
        place: Arc::new(Place {
            object_to_world: floats(&mut words),
            world_to_object: floats(&mut words),
        }),
        reverse: word(&mut words) == 1,
        ray: floats(&mut words),
    };
    let status = word(&mut words);
    if status > 1 {
        return None;
    }
    let looked = word(&mut words);

    Some(Counted { beam, looked })
}

fn word(words: &mut Split<char>) -> u32 {
    let word = words.next().map(|word| u32::from_str_radix(word, 16));

    word.and_then(Result::ok).expect("a line of the oracle")
}

fn floats<const N: usize>(words: &mut Split<char>) -> [f32; N] {
    std::array::from_fn(|_| f32::from_bits(word(words)))
}
