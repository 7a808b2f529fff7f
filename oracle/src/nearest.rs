//! The kind `nearest`, 02's P1: the nearest crossing of a beam with a list of pieces, told twice. Once by the
//! Rust's own walk with the changes of oracle/changed, and once by the flat reading.

use crate::beam::{self, Beam, Cast};
use crate::flat;
use crate::layout::RECORD_T;
use crate::limits;
use crate::piece::Piece;
use crate::record::{record, Record};
use crate::words::{put, text, Reader, Words};
use pbrt::core::interaction::SurfaceInteraction;
use pbrt::core::shape::Shapes;
use pbrt::shapes::nearest::{changed, set_tap};
use std::cell::RefCell;
use std::sync::Arc;

pub struct ListBeam {
    pub list: Vec<f32>,
    pub cast: Cast,
}

/// With a hit goes the number of its piece. There is no count.
pub enum Reply {
    Hit(u32, Record),
    Miss,
    Refused(u32),
}

impl ListBeam {
    pub fn read(line: &mut Reader) -> ListBeam {
        ListBeam {
            list: line.counted_floats(),
            cast: Cast::read(line),
        }
    }

    pub fn put(&self, words: &mut Words) {
        words.push(self.list.len() as u32);
        put(words, &self.list);
        self.cast.put(words);
    }

    pub fn limits(&self) -> Result<(), u32> {
        limits::list(&self.list)?;
        self.cast.limits()
    }

    pub fn pieces(&self) -> &[Piece] {
        self.list.as_chunks().0
    }

    /// The beam at one of the pieces.
    pub fn at(&self, piece: &Piece) -> Beam {
        Beam {
            piece: *piece,
            cast: self.cast,
        }
    }
}

impl Reply {
    pub fn words(&self) -> Words {
        let mut words = Words::new();
        match self {
            Reply::Hit(piece, record) => {
                words.extend([0, *piece]);
                put(&mut words, record);
            }
            Reply::Miss => words.push(1),
            Reply::Refused(number) => words.push(*number),
        }

        words
    }
}

/// Stops the program where the two differ.
pub fn checked(beam: &ListBeam) -> Reply {
    if let Err(refusal) = beam.limits() {
        return Reply::Refused(refusal);
    }
    let reply = walked(beam).unwrap_or_else(Reply::Refused);
    let flat = flat::nearest(beam).words();
    if reply.words() != flat {
        let mut line = Words::new();
        beam.put(&mut line);
        panic!(
            "the flat reading differs\nline {}\nrust {}\nflat {}",
            text(&line),
            text(&reply.words()),
            text(&flat),
        );
    }

    reply
}

/// Of the records that the changed walk writes, the least so far is kept, piece by piece.
fn walked(beam: &ListBeam) -> Result<Reply, u32> {
    let mut reply = Reply::Miss;
    for (number, piece) in beam.pieces().iter().enumerate() {
        limits::piece(piece)?;
        for record in records(&beam.at(piece))? {
            let nearer = match reply {
                Reply::Hit(_, kept) => record[RECORD_T] < kept[RECORD_T],
                _ => true,
            };
            if nearer {
                reply = Reply::Hit(number as u32, record);
            }
        }
    }

    Ok(reply)
}

thread_local! {
    static WRITTEN: RefCell<Vec<Record>> = const { RefCell::new(Vec::new()) };
}

/// The records that the changed walk writes for one piece, in order, or where it panics.
fn records(beam: &Beam) -> Result<Vec<Record>, u32> {
    let curve = beam.curve();
    let walked = changed(&curve);
    set_tap(keep);
    WRITTEN.take();
    beam::call(&walked, &beam.cast, Arc::new(Shapes::from(curve)))?;

    Ok(WRITTEN.take())
}

fn keep(t: f32, isect: &SurfaceInteraction) {
    WRITTEN.with_borrow_mut(|written| written.push(record(t, isect)));
}
