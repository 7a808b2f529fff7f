//! How a call ends, and when two ends are the same.

use oracle::words::{same_word, text, Words};

/// The number that a call answers, and its outputs as they stand after it.
pub struct Answer {
    pub number: u32,
    pub outputs: Vec<Output>,
}

/// The words that a call may write, and a margin on either side that it may not. Before the call each word
/// is the mark of its place. No mark is a NaN or a zero, so by 01's rules too a mark is equal to itself alone.
pub struct Output {
    name: &'static str,
    words: Words,
}

const MARGIN: usize = 16;

/// An output up to this long is shown whole, of a longer one so many words about the difference.
const SHOWN_WHOLE: usize = 32;
const SHOWN: usize = 16;

impl Output {
    pub fn new(name: &'static str, len: usize) -> Output {
        let mark = |i: usize| 0x2000_0000 | (i as u32).wrapping_mul(2_654_435_761) >> 4;

        Output {
            name,
            words: (0..MARGIN + len + MARGIN).map(mark).collect(),
        }
    }

    pub fn slice(&mut self) -> &mut [u32] {
        let end = self.words.len() - MARGIN;

        &mut self.words[MARGIN..end]
    }

    pub fn array<const N: usize>(&mut self) -> &mut [u32; N] {
        self.slice()
            .try_into()
            .expect("an output of another length")
    }

    pub fn write(&mut self, at: usize, words: &[u32]) {
        self.slice()[at..at + words.len()].copy_from_slice(words);
    }

    fn first_difference(&self, other: &Output, in_boxes: bool) -> Option<usize> {
        if self.words == other.words {
            return None;
        }
        let mut pairs = self.words.iter().zip(&other.words);

        pairs.position(|(a, b)| !same_word(*a, *b, in_boxes))
    }

    fn shown(&self, at: usize) -> &[u32] {
        let len = self.words.len() - 2 * MARGIN;
        let in_margin = at < MARGIN || at >= MARGIN + len;
        if len <= SHOWN_WHOLE && !in_margin {
            return &self.words[MARGIN..MARGIN + len];
        }
        let from = at / SHOWN * SHOWN;

        &self.words[from..self.words.len().min(from + SHOWN)]
    }
}

/// What differs, if anything: the numbers, and each output that is not the same.
pub fn difference(rust: &Answer, library: &Answer, in_boxes: bool) -> Option<String> {
    let mut told = String::new();
    for (a, b) in rust.outputs.iter().zip(&library.outputs) {
        if let Some(at) = a.first_difference(b, in_boxes) {
            let place = at as i64 - MARGIN as i64;
            told += &format!(
                "  {}, first at word {place}\n    Rust    {}\n    library {}\n",
                a.name,
                text(a.shown(at)),
                text(b.shown(at)),
            );
        }
    }
    if told.is_empty() && rust.number == library.number {
        return None;
    }

    Some(format!(
        "  answered: Rust {}, library {}\n{told}",
        rust.number, library.number
    ))
}
