//! Belt sheets: right ones, ones that laying refuses, damaged ones, ones cut short, long ones, and bytes
//! that are no sheet at all.

use crate::beam::{Beam, Cast};
use crate::beam_inputs::{end_at_hit, ray_at, shape, without_matrices};
use crate::curve_inputs::{self, mostly_parted, points_of, widths, ENTRY, LAID};
use crate::inputs::Triple;
use crate::kinds;
use crate::layout::{MOST_BEAMS, POINTS, RAY_D, RAY_FLOATS, RAY_O, RAY_T_MAX, WIDTH0, WIDTH1};
use crate::limits::ShapeParams;
use crate::piece::{self, Piece};
use crate::rng::{neighbour, pow2, Rng};
use crate::sheet::{Sheet, BASES, LIST_LEN, MOST_BYTES, TYPES};

pub struct Made {
    pub sort: &'static str,
    pub bytes: Vec<u8>,
}

/// Bounds what one sheet costs, and how long its output gets.
const MOST_ANSWERS: usize = 2048;

pub fn sheet(rng: &mut Rng) -> Made {
    let (sort, bytes) = match rng.below(200) {
        0..=99 => ("right", right(rng)),
        100..=129 => ("laying refuses", misfit(rng)),
        130..=172 => ("damaged", damaged(rng)),
        173..=187 => ("cut short", cut(rng)),
        188..=190 => ("long", long(rng)),
        191..=198 => ("bytes", any_bytes(rng)),
        _ => ("empty", Vec::new()),
    };

    Made { sort, bytes }
}

fn right(rng: &mut Rng) -> Vec<u8> {
    let size = size(rng);
    let sheet = valid(rng, size);

    text(rng, &sheet)
}

fn misfit(rng: &mut Rng) -> Vec<u8> {
    let mut sheet = small(rng);
    let faults = rng.pick(&[1, 1, 1, 1, 2, 3]);
    (0..faults).for_each(|_| misfits(rng, &mut sheet));

    text(rng, &sheet)
}

fn damaged(rng: &mut Rng) -> Vec<u8> {
    let mut sheet = small(rng);
    if rng.one_in(4) {
        misfits(rng, &mut sheet);
    }
    let text = text(rng, &sheet);
    let mut lines: Vec<Vec<u8>> = text
        .split_inclusive(|b| *b == b'\n')
        .map(<[u8]>::to_vec)
        .collect();
    let faults = rng.pick(&[1, 1, 1, 1, 1, 2, 3]);
    for _ in 0..faults {
        damage(rng, &mut lines);
    }

    lines.concat()
}

/// At any byte, or behind a line.
fn cut(rng: &mut Rng) -> Vec<u8> {
    let sheet = small(rng);
    let mut bytes = text(rng, &sheet);
    let mut at = rng.below(bytes.len() as u32 + 1) as usize;
    if rng.one_in(3) {
        while at > 0 && bytes[at - 1] != b'\n' {
            at -= 1;
        }
    }
    bytes.truncate(at);

    bytes
}

// A right sheet.

/// How many segments, and the split depth.
type Size = (u32, u32);

/// Mostly few pieces; now and then as many pieces, or about as many points, as 01 allows.
fn size(rng: &mut Rng) -> Size {
    match rng.below(64) {
        0 => {
            let split = rng.between(3, 10) as u32;
            (1024 >> split, split)
        }
        1 => (rng.pick(&[84, 85, 126, 127, 252, 253, 254]), rng.below(3)),
        2 => (0, rng.below(11)),
        3 | 4 => (1, rng.between(4, 9) as u32),
        5 | 6 => (rng.between(5, 16) as u32, rng.below(2)),
        _ => few(rng),
    }
}

fn few(rng: &mut Rng) -> Size {
    (1 + rng.below(4), rng.pick(&[0, 0, 0, 1, 1, 2, 3]))
}

fn small(rng: &mut Rng) -> Sheet {
    let size = few(rng);

    valid(rng, size)
}

fn valid(rng: &mut Rng, size: Size) -> Sheet {
    let mut sheet = if rng.one_in(4) {
        for_a_branch(rng)
    } else {
        Sheet {
            belt: belt(rng, size),
            reverse: rng.one_in(2),
            beams: Vec::new(),
        }
    };
    // Nothing to aim at where a limit is passed after all.
    let pieces = kinds::laid(&sheet.belt).unwrap_or_default();
    let wanted = match rng.below(64) {
        0 => MOST_BEAMS,
        1 => MOST_BEAMS - 1,
        2..=5 => rng.between(5, 20) as usize,
        6..=9 => 0,
        _ => 1 + rng.below(4) as usize,
    };
    let most = (MOST_ANSWERS / pieces.len().max(1)).max(1);
    for _ in sheet.beams.len()..wanted.min(most) {
        let ray = ray(rng, &pieces, sheet.reverse);
        sheet.beams.push(ray);
    }

    sheet
}

/// The belt of a beam that is built for one branch, and that beam.
fn for_a_branch(rng: &mut Rng) -> Sheet {
    let beam = without_matrices(rng);
    let most = LAID.coordinate;
    let points = beam.piece[POINTS].iter().map(|x| x.clamp(-most, most));
    let floats = mostly_parted(rng, points.collect());
    let widths = [beam.piece[WIDTH0], beam.piece[WIDTH1]];

    Sheet {
        belt: ShapeParams {
            degree: 3,
            basis: 0,
            ty: 0,
            widths: widths.map(|w| w.clamp(1.0 / LAID.width, LAID.width)),
            split: rng.pick(&[0, 0, 0, 1, 1, 2]),
            list_len: LIST_LEN,
            floats,
        },
        reverse: beam.cast.reverse,
        beams: vec![beam.cast.ray],
    }
}

fn belt(rng: &mut Rng, (segments, split): Size) -> ShapeParams {
    let degree = 2 + rng.below(2);
    let basis = rng.below(2);
    let n = points_of(degree, basis, segments);
    let sort = rng.below(8);
    let scale = pow2(rng.between(-3, 10));
    let points = match sort {
        0 | 1 => curve_inputs::points(rng, n, &LAID),
        2 | 3 => spiral(rng, basis == 0 && degree == 3, n, scale),
        4 | 5 => shapes(rng, n, scale),
        _ => steps(rng, n, scale),
    };
    let points = mostly_parted(rng, points);
    let width = scale * pow2(-rng.between(-1, 9)) * (1.0 + rng.unit().abs());
    let other = width * rng.pick(&[1.0, 1.0, 0.25, 0.75, 1.5, 4.0]);

    ShapeParams {
        degree,
        basis,
        ty: 0,
        widths: match sort {
            0 | 1 => widths(rng, &LAID),
            _ => [width, other].map(|w| w.clamp(1.0 / LAID.width, LAID.width)),
        },
        split,
        list_len: LIST_LEN,
        floats: points,
    }
}

/// Round and round while z rises: quarters of a circle, or the corners and sides of a square.
fn spiral(rng: &mut Rng, quarters: bool, n: u32, scale: f32) -> Vec<f32> {
    let rise = scale * rng.pick(&[0.0, 0.0625, 0.25, 1.0]);
    let corners: &[[f32; 2]] = if quarters {
        &[[1.0, 0.0], [1.0, 0.5523], [0.5523, 1.0]]
    } else {
        &[[1.0, 0.0], [1.0, 1.0]]
    };
    let mut floats = Vec::new();
    for i in 0..n as usize {
        let [mut x, mut y] = corners[i % corners.len()];
        for _ in 0..i / corners.len() % 4 {
            (x, y) = (-y, x);
        }
        floats.extend([x * scale, y * scale, i as f32 * rise]);
    }

    floats
}

/// One shape joined to the other, or only all their points.
fn shapes(rng: &mut Rng, n: u32, scale: f32) -> Vec<f32> {
    let joined = rng.one_in(2);
    let mut points: Vec<Triple> = Vec::new();
    while points.len() < n as usize {
        let shape = shape(rng);
        match points.last().copied() {
            Some(last) if joined => points.extend(
                shape[1..]
                    .iter()
                    .map(|p| std::array::from_fn::<f32, 3, _>(|k| last[k] + p[k] - shape[0][k])),
            ),
            _ => points.extend(shape),
        }
    }
    points.truncate(n as usize);

    points.concat().iter().map(|x| x * scale).collect()
}

/// From point to point, in a plane or not.
fn steps(rng: &mut Rng, n: u32, scale: f32) -> Vec<f32> {
    let whole = rng.one_in(2);
    let flat = rng.below(4) as usize;
    let mut at: Triple = rng.integers(4);
    let mut floats = Vec::new();
    for _ in 0..n {
        for k in (0..3).filter(|k| *k != flat) {
            at[k] += if whole { rng.integer(2) } else { rng.unit() };
        }
        floats.extend(at.map(|x| x * scale));
    }

    floats
}

fn ray(rng: &mut Rng, pieces: &[Piece], reverse: bool) -> [f32; RAY_FLOATS] {
    if pieces.is_empty() {
        return rng.floats();
    }
    let piece = rng.pick(pieces);
    let mut ray = ray_at(rng, &piece);
    match rng.below(24) {
        0..=3 => upright(rng, pieces, &mut ray),
        4 => spoil(rng, &mut ray),
        5 => ray = rng.floats(),
        6 => ray[RAY_D].copy_from_slice(&rng.zeros::<3>()),
        // It begins at an end of the belt.
        7 => {
            let [first, .., last] = piece::points(&piece);
            ray[RAY_O].copy_from_slice(&rng.pick(&[first, last]));
        }
        8 | 9 => {
            let mut beam = Beam {
                piece,
                cast: Cast::plain(reverse, ray),
            };
            end_at_hit(rng, &mut beam);
            ray = beam.cast.ray;
        }
        _ => {}
    }

    ray
}

/// Along z from below all pieces, through each deck above where it is aimed.
fn upright(rng: &mut Rng, pieces: &[Piece], ray: &mut [f32; RAY_FLOATS]) {
    let z = |piece: &Piece| {
        let [first, .., last] = piece::points(piece);
        first[2].min(last[2])
    };
    let lowest = pieces.iter().map(z).fold(f32::INFINITY, f32::min);
    let piece = rng.pick(pieces);
    let [x, y, _] = piece::points(&piece)[0];
    let aside = piece[WIDTH0] * 0.5;
    ray[RAY_O].copy_from_slice(&[
        x + aside * rng.unit(),
        y + aside * rng.unit(),
        lowest - rng.pick(&[0.0, 1.0, 16.0]),
    ]);
    ray[RAY_D].copy_from_slice(&[0.0, 0.0, rng.pick(&[1.0, 1.0, 0.5, 3.0])]);
    ray[RAY_T_MAX] = f32::INFINITY;
}

/// One number at 01's limit, beyond it, or anything.
fn spoil(rng: &mut Rng, ray: &mut [f32; RAY_FLOATS]) {
    let limit = rng.signed(ENTRY);
    *rng.one_of(ray) = match rng.below(8) {
        0 => limit,
        1 | 2 => neighbour(limit, 1),
        3 => rng.nan(),
        4 => rng.any(),
        _ => rng.special(),
    };
    if rng.one_in(4) {
        let ends = [-pow2(-149), -1.0, f32::NEG_INFINITY, f32::NAN, -0.0];
        ray[RAY_T_MAX] = rng.pick(&ends);
    }
}

// Sheets that laying refuses.

fn misfits(rng: &mut Rng, sheet: &mut Sheet) {
    let belt = &mut sheet.belt;
    match rng.below(11) {
        0 => belt.degree = rng.pick(&[0, 1, 4, 5, 9, 10, 12, 23, 30, 32, 99]),
        1 => {
            let (len, few) = (belt.floats.len(), 3 * (1 + rng.below(3)) as usize);
            let more = rng.one_in(2);
            let len = if more {
                len + few
            } else {
                len.saturating_sub(few).max(3)
            };
            belt.floats.resize(len, 1.5);
        }
        2 => belt.ty = 1 + rng.below(2),
        3 => {
            let split = rng.between(11, 99) as u32;
            belt.split = rng.pick(&[11, 12, 20, 31, 32, 33, 63, 64, 99, split]);
        }
        // Too many points, or nearly.
        4 => {
            let n = match rng.below(8) {
                0 => rng.between(301, 1500) as u32,
                1 | 2 => rng.between(258, 300) as u32,
                _ => rng.between(254, 259) as u32,
            };
            belt.floats = curve_inputs::laid_points(rng, n);
            belt.split = 0;
            sheet.beams.truncate(2);
        }
        // Too many pieces from few points.
        5 => {
            belt.split = rng.between(8, 10) as u32;
            let segments = (1024 >> belt.split) + 1 + rng.below(3);
            let n = points_of(belt.degree, belt.basis, segments);
            belt.floats = curve_inputs::laid_points(rng, n);
            sheet.beams.truncate(2);
        }
        6 => {
            let at = rng.below(belt.floats.len() as u32) as usize;
            belt.floats[at] = rng.nan();
        }
        7 | 8 => curve_inputs::double(rng, &mut belt.floats),
        _ => curve_inputs::spoil(rng, belt),
    }
}

// Damage.

const KEYS: [&str; 10] = [
    "degree",
    "basis",
    "type",
    "width0",
    "width1",
    "splitdepth",
    "reverse",
    "point",
    "beam",
    "beams",
];

/// What may stray in before a key, between it and its value, and behind that.
const STRAYS: [(&str, &str, &str); 6] = [
    (" ", "=", ""),
    ("", " =", ""),
    ("", "= ", ""),
    ("", "=", " "),
    ("", "==", ""),
    ("\u{feff}", "=", ""),
];

/// What a wrong sheet is likely to have in a wrong place.
const BYTES: &[u8] = b"0123456789abcdefABCDEFgGxXpbt=,;:.-+ \t\r\n\0_\x7f\x80\xff";

fn any_byte(rng: &mut Rng) -> u8 {
    if rng.one_in(4) {
        rng.next() as u8
    } else {
        rng.pick(BYTES)
    }
}

fn damage(rng: &mut Rng, lines: &mut Vec<Vec<u8>>) {
    // An earlier fault may have left nothing.
    if lines.iter().all(|line| line.is_empty()) {
        return lines.push(vec![any_byte(rng)]);
    }
    match rng.below(26) {
        0..=7 => damage_byte(rng, lines),
        8..=13 => damage_lines(rng, lines),
        _ => damage_value(rng, lines),
    }
}

/// A line that is not empty.
fn some_line(rng: &mut Rng, lines: &[Vec<u8>]) -> usize {
    loop {
        let at = rng.below(lines.len() as u32) as usize;
        if !lines[at].is_empty() {
            return at;
        }
    }
}

fn damage_byte(rng: &mut Rng, lines: &mut Vec<Vec<u8>>) {
    let at = some_line(rng, lines);
    let line = &mut lines[at];
    let place = rng.below(line.len() as u32) as usize;
    match rng.below(8) {
        0 | 1 => line[place] = any_byte(rng),
        2 => line[place] ^= 1 << rng.below(8),
        3 => {
            line.remove(place);
        }
        4 => line.insert(place, any_byte(rng)),
        5 => line.make_ascii_uppercase(),
        // A letter of the other case, where there is one.
        6 => {
            let letter = line[place..].iter_mut().find(|b| b.is_ascii_alphabetic());
            letter.into_iter().for_each(|b| *b ^= 0x20);
        }
        _ => lines
            .iter_mut()
            .filter(|line| line.starts_with(b"point") || line.starts_with(b"beam"))
            .for_each(|line| line.make_ascii_uppercase()),
    }
}

fn damage_lines(rng: &mut Rng, lines: &mut Vec<Vec<u8>>) {
    let count = lines.len();
    let at = rng.below(count as u32) as usize;
    let other = rng.below(count as u32) as usize;
    let first = |lines: &[Vec<u8>], key: &[u8]| lines.iter().position(|l| l.starts_with(key));
    match rng.below(13) {
        0 => {
            lines.remove(at);
        }
        1 => lines.insert(at, lines[at].clone()),
        2 => lines.swap(at, other),
        3 => {
            let line = lines.remove(at);
            lines.insert(other.min(lines.len()), line);
        }
        4 => lines.push(vec![b'\n']),
        5 => lines.insert(at, vec![b'\n']),
        6 => {
            lines[count - 1].pop();
        }
        7 => lines.iter_mut().for_each(with_cr),
        8 => with_cr(&mut lines[at]),
        // A beam before the points, and a point behind a beam.
        9 | 10 => {
            if let (Some(point), Some(beam)) = (first(lines, b"point"), first(lines, b"beam")) {
                if rng.one_in(2) {
                    lines.insert(point, lines[beam].clone());
                } else {
                    lines.insert(beam + 1, lines[point].clone());
                }
            }
        }
        // As many beams as there may be, or one too many, or two.
        11 => {
            if let Some(beam) = first(lines, b"beam") {
                let line = lines[beam].clone();
                let wanted = MOST_BEAMS + rng.below(3) as usize;
                lines.resize(count.max(beam + wanted), line);
            }
        }
        _ => {
            let len = 1 + rng.below(8);
            lines.push((0..len).map(|_| any_byte(rng)).collect());
        }
    }
}

fn with_cr(line: &mut Vec<u8>) {
    if line.pop().is_some() {
        line.extend(b"\r\n");
    }
}

fn damage_value(rng: &mut Rng, lines: &mut [Vec<u8>]) {
    let at = some_line(rng, lines);
    let line = String::from_utf8_lossy(&lines[at]).into_owned();
    let (key, value) = line.split_once('=').unwrap_or(("", &line));
    let value = value.trim_end_matches('\n');
    let mut items: Vec<String> = value.split(',').map(str::to_string).collect();
    let item = rng.below(items.len() as u32) as usize;
    let damaged = match rng.below(14) {
        0 => format!("{key}="),
        1 => key.to_string(),
        2 => format!("{}={value}", rng.pick(&KEYS)),
        3 => format!("{key}={value},"),
        4 => format!("{key}=,{value}"),
        5 => format!("{key}={}", value.replacen(',', ",,", 1)),
        6 => format!("{key}={}", value.replace(',', " ")),
        // Seven digits and nine.
        7 => {
            items[item].pop();
            format!("{key}={}", items.join(","))
        }
        8 => {
            items[item].push(rng.pick(b"0f") as char);
            format!("{key}={}", items.join(","))
        }
        // A number too few and one too many.
        9 => {
            items.remove(item);
            format!("{key}={}", items.join(","))
        }
        10 => {
            items.insert(item, items[item].clone());
            format!("{key}={}", items.join(","))
        }
        11 => {
            let (before, between, behind) = rng.pick(&STRAYS);
            format!("{before}{key}{between}{value}{behind}")
        }
        _ => return wrong_word(rng, lines),
    };
    lines[at] = (damaged + "\n").into_bytes();
}

/// A value that one of the first lines does not have.
fn wrong_word(rng: &mut Rng, lines: &mut [Vec<u8>]) {
    let at = rng.pick(&[0, 0, 1, 2, 5, 5, 6]).min(lines.len() - 1);
    let words: &[&str] = match at {
        0 | 5 => &[
            "003", "000", "100", "010", "256", "-3", "+3", "3.", "0x", "a", "3a", " 3", "3 ", "",
            "-", "\u{663}",
        ],
        1 => &[
            "Bezier", "BEZIER", "bezie", "beziers", "b-spline", "0", "bspline,", "spline", "",
        ],
        2 => &[
            "Flat", "flats", "fla", "ribbons", "culinder", "cylinde", "0", "",
        ],
        _ => &["2", "00", "01", "10", "true", "-0", "", "0,", "a"],
    };
    lines[at] = format!("{}={}\n", KEYS[at], rng.pick(words)).into_bytes();
}

// Long sheets, and no sheets.

/// The bytes of a point's line, and of a beam's.
const POINT_BYTES: usize = 33;
const BEAM_BYTES: usize = 77;

/// At 01's limit of bytes, or far past it. No right sheet has 65,535 or 65,536 bytes, so those end in a
/// piece of a line; the longest right one has 65,533, the next 65,537.
fn long(rng: &mut Rng) -> Vec<u8> {
    let wanted = match rng.below(8) {
        0 | 1 => MOST_BYTES - 1,
        2 | 3 => MOST_BYTES,
        4 => MOST_BYTES + 1,
        5 => 100_000,
        _ => return long_and_right(rng),
    };
    let mut sheet = small(rng);
    let n = (wanted / POINT_BYTES) as u32;
    sheet.belt.floats = curve_inputs::laid_points(rng, n);
    let mut bytes = text(rng, &sheet);
    bytes.truncate(wanted);
    if rng.one_in(4) {
        let at = rng.below(wanted as u32) as usize;
        bytes[at] = any_byte(rng);
    }

    bytes
}

/// As near to the limit as points and beams bring it, on either side.
fn long_and_right(rng: &mut Rng) -> Vec<u8> {
    let mut sheet = small(rng);
    if rng.one_in(2) {
        // The longest first lines, or the shortest.
        let long = rng.one_in(2);
        sheet.belt.basis = long as u32;
        sheet.belt.ty = 2 * long as u32;
        sheet.belt.degree = if long { 12 } else { 3 };
        sheet.belt.split = if long { 10 } else { 0 };
    }
    let mut bytes = first_lines(rng, &sheet);
    let room = MOST_BYTES - bytes.len();
    let left = |beams: usize| (room - beams * BEAM_BYTES) % POINT_BYTES;
    let over = rng.one_in(2);
    let from = rng.below(MOST_BEAMS as u32) as usize;
    let beams = (0..=MOST_BEAMS)
        .map(|i| (from + i) % (MOST_BEAMS + 1))
        .min_by_key(|beams| left(*beams).abs_diff(if over { POINT_BYTES } else { 0 }))
        .unwrap_or_default();
    let n = (room - beams * BEAM_BYTES) / POINT_BYTES + over as usize;
    sheet.belt.floats = curve_inputs::laid_points(rng, n as u32);
    sheet.beams = (0..beams).map(|_| rng.floats()).collect();
    other_lines(&sheet, &mut bytes);

    bytes
}

fn any_bytes(rng: &mut Rng) -> Vec<u8> {
    let len = rng.pick(&[1, 2, 9, 40, 200]);
    match rng.below(4) {
        0 => (0..len).map(|_| rng.next() as u8).collect(),
        1 => (0..len).map(|_| any_byte(rng)).collect(),
        2 => vec![any_byte(rng); len],
        // A sheet with such bytes in a place of it.
        _ => {
            let sheet = small(rng);
            let mut bytes = text(rng, &sheet);
            let at = rng.below(bytes.len() as u32 + 1) as usize;
            let some: Vec<u8> = (0..len).map(|_| rng.next() as u8).collect();
            bytes.splice(at..at, some);

            bytes
        }
    }
}

// As text.

fn text(rng: &mut Rng, sheet: &Sheet) -> Vec<u8> {
    let mut bytes = first_lines(rng, sheet);
    other_lines(sheet, &mut bytes);

    bytes
}

/// Up to reverse.
fn first_lines(rng: &mut Rng, sheet: &Sheet) -> Vec<u8> {
    let belt = &sheet.belt;
    let lines = [
        format!("degree={}\n", decimal(rng, belt.degree)),
        format!("basis={}\n", BASES[belt.basis as usize]),
        format!("type={}\n", TYPES[belt.ty as usize]),
        format!("width0={}\n", floats(&belt.widths[..1])),
        format!("width1={}\n", floats(&belt.widths[1..])),
        format!("splitdepth={}\n", decimal(rng, belt.split)),
        format!("reverse={}\n", sheet.reverse as u32),
    ];

    lines.concat().into_bytes()
}

fn other_lines(sheet: &Sheet, bytes: &mut Vec<u8>) {
    for point in sheet.belt.floats.chunks(3) {
        bytes.extend(format!("point={}\n", floats(point)).bytes());
    }
    for beam in &sheet.beams {
        bytes.extend(format!("beam={}\n", floats(beam)).bytes());
    }
}

/// Now and then with a leading zero, or two digits anyway.
fn decimal(rng: &mut Rng, n: u32) -> String {
    if rng.one_in(4) {
        format!("{n:02}")
    } else {
        n.to_string()
    }
}

/// The patterns as they are, a NaN's too.
fn floats(floats: &[f32]) -> String {
    let words: Vec<String> = floats
        .iter()
        .map(|x| format!("{:08x}", x.to_bits()))
        .collect();

    words.join(",")
}
