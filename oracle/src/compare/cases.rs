//! A case of each operation: its inputs, what the Rust says to them, and what the library says. The inputs
//! are those of the oracle's lines and sheets, and now and then what only a call can be given: a piece that
//! is too short or too long, a reverse flag above 1, another NaN, another list.

use crate::answer::{Answer, Output};
use crate::calls::{self, USIZE_WORDS};
use crate::tally::Reply;
use oracle::beam::Cast;
use oracle::inputs::Matrix;
use oracle::kinds::{self, Kind};
use oracle::layout::{
    BEAMS_FLOATS, BOX_FLOATS, CURVE_FLOATS, RECORD_FLOATS, SHEET_LINE, SHEET_NUMBERS,
};
use oracle::limits::ShapeParams;
use oracle::nearest::{self, ListBeam};
use oracle::piece::Piece;
use oracle::rng::Rng;
use oracle::sheet::{self, Refused, LIST_LEN};
use oracle::sheet_inputs;
use oracle::words::{put, text, Reader, Words};

pub trait Case {
    const NAME: &'static str;
    /// Whose stream of numbers its inputs come from.
    const KIND: &'static str = Self::NAME;
    /// Whether it answers a box, where -0 equals 0.
    const IN_BOXES: bool = false;

    /// The second stream is for what only a call can be given: the first stays that of the lines.
    fn new(rng: &mut Rng, call: &mut Rng) -> Self;

    /// Each input by its name.
    fn inputs(&self) -> Vec<(&'static str, String)>;

    fn rust(&self) -> Answer;

    fn library(&self) -> Answer;

    fn reply(number: u32) -> Reply {
        match number {
            0 => Reply::Accepted,
            _ => Reply::Refused(number),
        }
    }
}

/// 01's refusal of a piece off limits, and of one that is too short or too long.
const OFF_LIMITS: u32 = 9;

/// A NaN in a line.
const NAN: u32 = 0x7fc0_0000;

fn floats_text(floats: &[f32]) -> String {
    let words: Words = floats.iter().map(|x| x.to_bits()).collect();

    text(&words)
}

fn kind_of<C: Case>() -> &'static Kind {
    kinds::find(C::KIND).expect("the name of a kind")
}

/// The inputs of a line, half of its NaNs with other bits.
fn line(kind: &Kind, rng: &mut Rng, call: &mut Rng) -> Words {
    let mut words = Words::new();
    (kind.inputs)(rng, &mut words);
    for word in words.iter_mut().filter(|word| **word == NAN) {
        if call.one_in(2) {
            *word = call.nan().to_bits();
        }
    }

    words
}

pub struct Create(ShapeParams);

impl Case for Create {
    const NAME: &'static str = "create";
    const KIND: &'static str = "create_curve_shape";

    fn new(rng: &mut Rng, call: &mut Rng) -> Create {
        let line = line(kind_of::<Self>(), rng, call);

        Create(kinds::shape_params(&mut Reader(&line)))
    }

    fn inputs(&self) -> Vec<(&'static str, String)> {
        let params = &self.0;

        vec![
            ("degree", params.degree.to_string()),
            ("basis", params.basis.to_string()),
            ("type", params.ty.to_string()),
            ("widths", floats_text(&params.widths)),
            ("splitdepth", params.split.to_string()),
            ("list_len", params.list_len.to_string()),
            ("points", floats_text(&params.floats)),
        ]
    }

    fn rust(&self) -> Answer {
        let [mut list, mut pieces] = self.outputs();
        let number = match kinds::laid(&self.0) {
            Ok(laid) => {
                write_pieces(&mut list, &laid);
                pieces.write(0, &[laid.len() as u32]);
                0
            }
            Err(number) => number,
        };

        Answer {
            number,
            outputs: vec![list, pieces],
        }
    }

    fn library(&self) -> Answer {
        let [mut list, mut pieces] = self.outputs();

        Answer {
            number: calls::create(&self.0, &mut list, &mut pieces),
            outputs: vec![list, pieces],
        }
    }
}

impl Create {
    fn outputs(&self) -> [Output; 2] {
        let len = self.0.list_len as usize;

        [Output::new("list", len), Output::new("pieces", 1)]
    }
}

fn write_pieces(list: &mut Output, pieces: &[Piece]) {
    let mut words = Words::new();
    put(&mut words, pieces.as_flattened());
    list.write(0, &words);
}

/// The line of a kind that takes a piece first, and how many floats are handed over as the piece.
struct PieceLine {
    kind: &'static Kind,
    words: Words,
    len: usize,
}

impl PieceLine {
    fn new<C: Case>(rng: &mut Rng, call: &mut Rng) -> PieceLine {
        let kind = kind_of::<C>();
        let words = line(kind, rng, call);
        let len = if call.one_in(16) {
            call.pick(&[0, CURVE_FLOATS - 1, CURVE_FLOATS + 1, 2 * CURVE_FLOATS])
        } else {
            CURVE_FLOATS
        };

        PieceLine { kind, words, len }
    }

    /// In one that is too long the first floats come again.
    fn piece(&self) -> Vec<f32> {
        let again = self.words[..CURVE_FLOATS].iter().cycle().take(self.len);

        again.map(|word| f32::from_bits(*word)).collect()
    }

    fn behind_piece(&self) -> Reader<'_> {
        Reader(&self.words[CURVE_FLOATS..])
    }

    fn piece_input(&self) -> (&'static str, String) {
        ("piece", floats_text(&self.piece()))
    }

    /// The Rust's answer as it stands in a line: the number, then what goes with it.
    fn answer(&self) -> Words {
        if self.len != CURVE_FLOATS {
            return vec![OFF_LIMITS];
        }
        let mut answer = Words::new();
        (self.kind.answer)(&mut Reader(&self.words), &mut answer);

        answer
    }

    /// The same, of a kind with one output.
    fn answer_in(&self, mut out: Output) -> Answer {
        let answer = self.answer();
        out.write(0, &answer[1..]);

        Answer {
            number: answer[0],
            outputs: vec![out],
        }
    }
}

fn new_box() -> Output {
    Output::new("out", BOX_FLOATS)
}

pub struct ObjectBound(PieceLine);

impl Case for ObjectBound {
    const NAME: &'static str = "object_bound";
    const IN_BOXES: bool = true;

    fn new(rng: &mut Rng, call: &mut Rng) -> ObjectBound {
        ObjectBound(PieceLine::new::<Self>(rng, call))
    }

    fn inputs(&self) -> Vec<(&'static str, String)> {
        vec![self.0.piece_input()]
    }

    fn rust(&self) -> Answer {
        self.0.answer_in(new_box())
    }

    fn library(&self) -> Answer {
        let mut out = new_box();

        Answer {
            number: calls::object_bound(&self.0.piece(), &mut out),
            outputs: vec![out],
        }
    }
}

pub struct WorldBound(PieceLine);

impl Case for WorldBound {
    const NAME: &'static str = "world_bound";
    const IN_BOXES: bool = true;

    fn new(rng: &mut Rng, call: &mut Rng) -> WorldBound {
        WorldBound(PieceLine::new::<Self>(rng, call))
    }

    fn inputs(&self) -> Vec<(&'static str, String)> {
        vec![
            self.0.piece_input(),
            ("object_to_world", floats_text(&self.object_to_world())),
        ]
    }

    fn rust(&self) -> Answer {
        self.0.answer_in(new_box())
    }

    fn library(&self) -> Answer {
        let mut out = new_box();

        Answer {
            number: calls::world_bound(&self.0.piece(), &self.object_to_world(), &mut out),
            outputs: vec![out],
        }
    }
}

impl WorldBound {
    fn object_to_world(&self) -> Matrix {
        self.0.behind_piece().floats()
    }
}

pub struct Area(PieceLine);

impl Case for Area {
    const NAME: &'static str = "area";

    fn new(rng: &mut Rng, call: &mut Rng) -> Area {
        Area(PieceLine::new::<Self>(rng, call))
    }

    fn inputs(&self) -> Vec<(&'static str, String)> {
        vec![self.0.piece_input()]
    }

    fn rust(&self) -> Answer {
        self.0.answer_in(Output::new("out", 1))
    }

    fn library(&self) -> Answer {
        let mut out = Output::new("out", 1);

        Answer {
            number: calls::area(&self.0.piece(), &mut out),
            outputs: vec![out],
        }
    }
}

pub struct Price(PieceLine);

impl Case for Price {
    const NAME: &'static str = "price";

    fn new(rng: &mut Rng, call: &mut Rng) -> Price {
        Price(PieceLine::new::<Self>(rng, call))
    }

    fn inputs(&self) -> Vec<(&'static str, String)> {
        vec![self.0.piece_input(), ("rate", self.rate().to_string())]
    }

    fn rust(&self) -> Answer {
        self.0.answer_in(Output::new("cents", 1))
    }

    fn library(&self) -> Answer {
        let mut cents = Output::new("cents", 1);

        Answer {
            number: calls::price(&self.0.piece(), self.rate(), &mut cents),
            outputs: vec![cents],
        }
    }
}

impl Price {
    fn rate(&self) -> u32 {
        self.0.behind_piece().word()
    }
}

/// A reverse flag above 1 counts as 1.
fn reverse_flag(call: &mut Rng, reverse: bool) -> u32 {
    if reverse {
        call.pick(&[1, 1, 2, 3, 0x100, 1 << 31, u32::MAX])
    } else {
        0
    }
}

fn cast_inputs(cast: &Cast, reverse: u32) -> [(&'static str, String); 4] {
    [
        ("object_to_world", floats_text(&cast.object_to_world)),
        ("world_to_object", floats_text(&cast.world_to_object)),
        ("reverse", reverse.to_string()),
        ("ray", floats_text(&cast.ray)),
    ]
}

/// What the number of a beam's answer means.
fn met(number: u32) -> Reply {
    match number {
        0 => Reply::Hit,
        1 => Reply::Miss,
        _ => Reply::Refused(number),
    }
}

pub struct Intersect {
    line: PieceLine,
    cast: Cast,
    reverse: u32,
}

impl Case for Intersect {
    const NAME: &'static str = "intersect";

    fn new(rng: &mut Rng, call: &mut Rng) -> Intersect {
        let line = PieceLine::new::<Self>(rng, call);
        let cast = Cast::read(&mut line.behind_piece());
        let reverse = reverse_flag(call, cast.reverse);

        Intersect {
            line,
            cast,
            reverse,
        }
    }

    fn inputs(&self) -> Vec<(&'static str, String)> {
        let mut inputs = vec![self.line.piece_input()];
        inputs.extend(cast_inputs(&self.cast, self.reverse));

        inputs
    }

    /// With a hit go the count and the record, with a miss the count.
    fn rust(&self) -> Answer {
        let [mut record, mut looked] = Intersect::outputs();
        let answer = self.line.answer();
        if let [_, count, hit @ ..] = &answer[..] {
            looked.write(0, &[*count]);
            record.write(0, hit);
        }

        Answer {
            number: answer[0],
            outputs: vec![record, looked],
        }
    }

    fn library(&self) -> Answer {
        let [mut record, mut looked] = Intersect::outputs();

        Answer {
            number: calls::intersect(
                &self.line.piece(),
                &self.cast,
                self.reverse,
                &mut record,
                &mut looked,
            ),
            outputs: vec![record, looked],
        }
    }

    fn reply(number: u32) -> Reply {
        met(number)
    }
}

impl Intersect {
    fn outputs() -> [Output; 2] {
        [
            Output::new("record", RECORD_FLOATS),
            Output::new("looked", 1),
        ]
    }
}

pub struct Nearest {
    beam: ListBeam,
    reverse: u32,
}

impl Case for Nearest {
    const NAME: &'static str = "nearest";

    fn new(rng: &mut Rng, call: &mut Rng) -> Nearest {
        let words = line(kind_of::<Self>(), rng, call);
        let mut beam = ListBeam::read(&mut Reader(&words));
        if call.one_in(16) {
            // Where it gets longer the first floats come again.
            let len = call.pick(&LENGTHS);
            beam.list = beam.list.iter().copied().cycle().take(len).collect();
        }
        let reverse = reverse_flag(call, beam.cast.reverse);

        Nearest { beam, reverse }
    }

    fn inputs(&self) -> Vec<(&'static str, String)> {
        let mut inputs = vec![("list", floats_text(&self.beam.list))];
        inputs.extend(cast_inputs(&self.beam.cast, self.reverse));

        inputs
    }

    /// With a hit go its piece and the record.
    fn rust(&self) -> Answer {
        let [mut record, mut piece] = Nearest::outputs();
        let answer = nearest::checked(&self.beam).words();
        if let [_, number, hit @ ..] = &answer[..] {
            piece.write(0, &[*number, 0]);
            record.write(0, hit);
        }

        Answer {
            number: answer[0],
            outputs: vec![record, piece],
        }
    }

    fn library(&self) -> Answer {
        let [mut record, mut piece] = Nearest::outputs();

        Answer {
            number: calls::nearest(
                &self.beam.list,
                &self.beam.cast,
                self.reverse,
                &mut record,
                &mut piece,
            ),
            outputs: vec![record, piece],
        }
    }

    fn reply(number: u32) -> Reply {
        met(number)
    }
}

impl Nearest {
    fn outputs() -> [Output; 2] {
        [
            Output::new("record", RECORD_FLOATS),
            Output::new("piece", USIZE_WORDS),
        ]
    }
}

/// Of a list that no line has: no whole number of pieces, or many pieces.
const LENGTHS: [usize; 12] = [0, 1, 8, 15, 17, 31, 33, 47, 127, 129, 16 * 9, 16 * 40];

pub struct Sheet {
    bytes: Vec<u8>,
    list_len: u32,
}

impl Case for Sheet {
    const NAME: &'static str = "sheet";
    const KIND: &'static str = "sheets";

    fn new(rng: &mut Rng, call: &mut Rng) -> Sheet {
        let bytes = sheet_inputs::sheet(rng).bytes;
        let list_len = if call.one_in(8) {
            list_len(call, &bytes)
        } else {
            LIST_LEN
        };

        Sheet { bytes, list_len }
    }

    fn inputs(&self) -> Vec<(&'static str, String)> {
        let bytes = self.bytes.iter().map(|byte| format!("{byte:02x}"));

        vec![
            ("bytes", bytes.collect()),
            ("list_len", self.list_len.to_string()),
        ]
    }

    fn rust(&self) -> Answer {
        let [mut list, mut beams, mut out] = self.outputs();
        let number = match sheet::laid(&self.bytes, self.list_len) {
            Ok((sheet, pieces)) => {
                write_pieces(&mut list, &pieces);
                let mut words = Words::new();
                put(&mut words, sheet.beams.as_flattened());
                words.resize(BEAMS_FLOATS, 0);
                beams.write(0, &words);
                let counts = [pieces.len(), sheet.reverse as usize, sheet.beams.len(), 0];
                out.write(0, &counts.map(|count| count as u32));
                0
            }
            Err(Refused { number, line }) => {
                out.write(SHEET_LINE, &[line as u32]);
                number
            }
        };

        Answer {
            number,
            outputs: vec![list, beams, out],
        }
    }

    fn library(&self) -> Answer {
        let [mut list, mut beams, mut out] = self.outputs();

        Answer {
            number: calls::sheet(&self.bytes, &mut list, &mut beams, &mut out),
            outputs: vec![list, beams, out],
        }
    }
}

impl Sheet {
    fn outputs(&self) -> [Output; 3] {
        [
            Output::new("list", self.list_len as usize),
            Output::new("beams", BEAMS_FLOATS),
            Output::new("out", SHEET_NUMBERS),
        ]
    }
}

/// Too short for the sheet's pieces, just long enough, or longer than any sheet's.
fn list_len(call: &mut Rng, bytes: &[u8]) -> u32 {
    let needed = match sheet::laid(bytes, LIST_LEN) {
        Ok((_, pieces)) => (CURVE_FLOATS * pieces.len()) as u32,
        Err(_) => 0,
    };

    call.pick(&[
        0,
        needed / 2,
        needed.saturating_sub(CURVE_FLOATS as u32),
        needed.saturating_sub(1),
        needed,
        needed + 1,
        LIST_LEN + 100,
    ])
}
