//! Belt sheets: 01's whole case, and what is refused.

use crate::common::{marked_list, straight, MARK, UP};
use curve::{
    intersect, read_sheet, Intersection, Refusal, Sheet, SheetRefusal, CURVE_FLOATS, IDENTITY,
};

const WHOLE_CASE: &str = include_str!("../../../../examples/straight.sheet");

/// Refused, and the list is as it was.
fn assert_refused(sheet: &str, refusal: Refusal, line: u32) {
    let mut list = marked_list();
    let answer = read_sheet(sheet.as_bytes(), &mut list);
    assert_eq!(answer, Err(SheetRefusal { refusal, line }));
    assert!(list.iter().all(|x| *x == MARK));
}

#[test]
fn the_whole_case_is_read_and_answered() {
    let mut list = marked_list();
    let expected = Sheet {
        curves: 1,
        reverse: false,
        beams: vec![UP],
    };
    let sheet = read_sheet(WHOLE_CASE.as_bytes(), &mut list);
    assert_eq!(sheet, Ok(expected));
    let (curve, behind) = list.split_at(CURVE_FLOATS);
    assert_eq!(curve, straight());
    assert!(behind.iter().all(|x| *x == MARK));

    let answer = intersect(curve, &IDENTITY, &IDENTITY, false, &UP);
    let Ok(Intersection::Hit(hit, looked)) = answer else {
        panic!("no hit: {answer:?}");
    };
    let bits = [hit.t_hit, hit.u, hit.v].map(f32::to_bits);
    assert_eq!(bits, [0x4080_0000, 0x3f00_0000, 0x3f00_0000]);
    assert_eq!(looked, 1);
}

#[test]
fn the_flag_and_every_beam_are_read() {
    let beam = "beam=3f800000,40000000,40400000,00000000,00000000,bf800000,41200000,3f000000\n";
    let reversed = WHOLE_CASE.replace("reverse=0", "reverse=1");
    let sheet = read_sheet((reversed + &beam.repeat(63)).as_bytes(), &mut marked_list());
    let sheet = sheet.expect("a right sheet");
    assert!(sheet.reverse);
    assert_eq!(sheet.beams.len(), 64);
    assert_eq!(sheet.beams[0], UP);
    let last = sheet.beams[63];
    assert_eq!((last.o, last.d), ([1.0, 2.0, 3.0], [0.0, 0.0, -1.0]));
    assert_eq!((last.t_max, last.time), (10.0, 0.5));
    assert_refused(
        &(WHOLE_CASE.to_string() + &beam.repeat(64)),
        Refusal::WrongLine,
        76,
    );
}

#[test]
fn the_split_depth_of_the_whole_case() {
    let split = |depth: &str| WHOLE_CASE.replace("splitdepth=0", &format!("splitdepth={depth}"));
    let sheet = read_sheet(split("10").as_bytes(), &mut marked_list());
    assert_eq!(sheet.map(|sheet| sheet.curves), Ok(1024));
    assert_refused(&split("11"), Refusal::SplitDepth, 0);
}

#[test]
fn a_wrong_line_is_told_by_its_number() {
    assert_refused("", Refusal::WrongLine, 1);
    assert_refused(&WHOLE_CASE.replace("flat", "round"), Refusal::WrongLine, 3);
    assert_refused(&WHOLE_CASE.replace("point", "spot"), Refusal::WrongLine, 8);
    assert_refused(WHOLE_CASE.trim_end(), Refusal::WrongLine, 12);
}

#[test]
fn a_long_sheet_is_refused() {
    assert_refused(&"x".repeat(65_537), Refusal::SheetTooLong, 0);
    assert_refused(&"x".repeat(65_536), Refusal::WrongLine, 1);
}

#[test]
fn laying_refuses_without_a_line() {
    assert_refused(
        &WHOLE_CASE.replace("degree=3", "degree=4"),
        Refusal::Degree,
        0,
    );
    assert_refused(&WHOLE_CASE.replace("flat", "ribbon"), Refusal::Type, 0);
    let doubled = WHOLE_CASE.replace("point=3f8", "point=bf8");
    assert_refused(&doubled, Refusal::EqualNeighbours, 0);
    let mut short = [MARK; CURVE_FLOATS - 1];
    let answer = read_sheet(WHOLE_CASE.as_bytes(), &mut short);
    assert_eq!(answer.map_err(|told| told.refusal.number()), Err(8));
    assert!(short.iter().all(|x| *x == MARK));
}
