//! A belt sheet as 01 has it, and what `beltbeam` prints for it. The grammar is read here once more,
//! independently of the library's reader: the sheet is split into lines, and each line into its values.

use crate::beam::{self, Beam, Cast, Reply};
use crate::kinds;
use crate::layout::{
    CURVE_FLOATS, MOST_BEAMS, MOST_CURVES, RAY_FLOATS, RECORD_T, RECORD_U, RECORD_V,
};
use crate::limits::ShapeParams;
use crate::piece::Piece;
use crate::words::{put, text, Words};

pub struct Sheet {
    pub belt: ShapeParams,
    pub reverse: bool,
    pub beams: Vec<[f32; RAY_FLOATS]>,
}

/// 01's number, and the line, which is 0 with every number but 17.
pub struct Refused {
    pub number: u32,
    pub line: usize,
}

pub const MOST_BYTES: usize = 65_536;

/// The list that `beltbeam` fills holds as many pieces as 01 allows.
pub const LIST_LEN: u32 = (CURVE_FLOATS * MOST_CURVES) as u32;

pub const BASES: [&str; 2] = ["bezier", "bspline"];
pub const TYPES: [&str; 3] = ["flat", "ribbon", "cylinder"];

pub fn output(sheet: &[u8]) -> String {
    answered(sheet)
        .unwrap_or_else(|Refused { number, line }| format!("refused={number} line={line}\n"))
}

fn answered(sheet: &[u8]) -> Result<String, Refused> {
    let (sheet, pieces) = laid(sheet, LIST_LEN)?;
    let mut text = format!("pieces={}\n", pieces.len());
    for (b, ray) in sheet.beams.iter().enumerate() {
        for (p, piece) in pieces.iter().enumerate() {
            let answer = answer(piece, sheet.reverse, ray);
            text += &format!("beam={b} piece={p} {answer}\n");
        }
    }

    Ok(text)
}

/// The sheet, and the pieces that the Rust lays of it into a list of that length.
pub fn laid(sheet: &[u8], list_len: u32) -> Result<(Sheet, Vec<Piece>), Refused> {
    let sheet = read(sheet, list_len)?;
    let pieces = kinds::laid(&sheet.belt).map_err(|number| Refused { number, line: 0 })?;

    Ok((sheet, pieces))
}

fn answer(piece: &Piece, reverse: bool, ray: &[f32; RAY_FLOATS]) -> String {
    let mut line = Words::new();
    let beam = Beam {
        piece: *piece,
        cast: Cast::plain(reverse, *ray),
    };
    beam.put(&mut line);
    match beam::checked(&line).0 {
        Reply::Hit(looked, record) => {
            let [t, u, v] = [RECORD_T, RECORD_U, RECORD_V].map(|place| float(record[place]));
            format!("looked={looked} hit=1 t={t} u={u} v={v}")
        }
        Reply::Miss(looked) => format!("looked={looked} hit=0"),
        Reply::Refused(number) => format!("refused={number}"),
    }
}

/// Eight digits; a NaN is 7fc00000.
fn float(x: f32) -> String {
    let mut word = Words::new();
    put(&mut word, &[x]);

    text(&word)
}

fn read(sheet: &[u8], list_len: u32) -> Result<Sheet, Refused> {
    if sheet.len() > MOST_BYTES {
        return Err(Refused {
            number: 18,
            line: 0,
        });
    }
    let mut lines = Lines::of(sheet);
    let degree = lines.take(|line| decimal(value(line, "degree")?))?;
    let basis = lines.take(|line| place(value(line, "basis")?, &BASES))?;
    let ty = lines.take(|line| place(value(line, "type")?, &TYPES))?;
    let [width0] = lines.take(|line| floats(value(line, "width0")?))?;
    let [width1] = lines.take(|line| floats(value(line, "width1")?))?;
    let split = lines.take(|line| decimal(value(line, "splitdepth")?))?;
    let reverse = lines.take(|line| place(value(line, "reverse")?, &["0", "1"]))?;
    let mut points: Vec<[f32; 3]> = Vec::new();
    while points.is_empty() || lines.next_is("point") {
        points.push(lines.take(|line| floats(value(line, "point")?))?);
    }
    let mut beams = Vec::new();
    while !lines.at_end() {
        let room = beams.len() < MOST_BEAMS;
        beams.push(lines.take(|line| floats(value(line, "beam")?).filter(|_| room))?);
    }

    Ok(Sheet {
        belt: ShapeParams {
            degree,
            basis,
            ty,
            widths: [width0, width1],
            split,
            list_len,
            floats: points.concat(),
        },
        reverse: reverse == 1,
        beams,
    })
}

/// The lines of a sheet, and how many are taken.
struct Lines<'a> {
    /// None where no LF ends the line or its bytes are no text: no such line is right.
    all: Vec<Option<&'a str>>,
    taken: usize,
}

impl<'a> Lines<'a> {
    fn of(sheet: &'a [u8]) -> Lines<'a> {
        let line = |bytes| std::str::from_utf8(bytes).ok()?.strip_suffix('\n');

        Lines {
            all: sheet.split_inclusive(|b| *b == b'\n').map(line).collect(),
            taken: 0,
        }
    }

    fn next(&self) -> Option<&str> {
        *self.all.get(self.taken)?
    }

    fn next_is(&self, key: &str) -> bool {
        self.next().is_some_and(|line| value(line, key).is_some())
    }

    fn at_end(&self) -> bool {
        self.taken == self.all.len()
    }

    /// A missing line has the number one past the last, which is the next one's too.
    fn take<T>(&mut self, meaning: impl Fn(&str) -> Option<T>) -> Result<T, Refused> {
        let meant = self.next().and_then(meaning);
        self.taken += 1;

        meant.ok_or(Refused {
            number: 17,
            line: self.taken,
        })
    }
}

fn value<'a>(line: &'a str, key: &str) -> Option<&'a str> {
    line.strip_prefix(key)?.strip_prefix('=')
}

fn decimal(value: &str) -> Option<u32> {
    let digits = value.bytes().all(|b| b.is_ascii_digit());
    if !digits || value.len() > 2 {
        return None;
    }

    value.parse().ok()
}

fn place(value: &str, names: &[&str]) -> Option<u32> {
    names.iter().position(|n| *n == value).map(|i| i as u32)
}

fn floats<const N: usize>(value: &str) -> Option<[f32; N]> {
    let all: Option<Vec<f32>> = value.split(',').map(float_of).collect();

    all?.try_into().ok()
}

fn float_of(digits: &str) -> Option<f32> {
    let lower = |b: u8| matches!(b, b'0'..=b'9' | b'a'..=b'f');
    if digits.len() != 8 || !digits.bytes().all(lower) {
        return None;
    }

    u32::from_str_radix(digits, 16).ok().map(f32::from_bits)
}
