//! That the wrapper's numbers are those of include/curve.h.

use crate::{layout::*, Basis, CurveType, Refusal};
use std::collections::BTreeMap;

const HEADER: &str = include_str!("../../../include/curve.h");

/// Each constant of the header, without its CURVE_, and its value.
fn constants() -> BTreeMap<String, usize> {
    let mut values = BTreeMap::new();
    for line in HEADER.lines() {
        let Some((name, rest)) = line.trim().split_once(" = ") else {
            continue;
        };
        let name = name.strip_prefix("CURVE_").expect("a constant");
        let product = rest.split([',', '/']).next().expect("a value");
        let value = product.split('*').map(|factor| value_of(factor, &values));
        let value = value.product();
        assert_eq!(values.insert(name.to_string(), value), None);
    }

    values
}

/// A number, or a constant that came before.
fn value_of(factor: &str, values: &BTreeMap<String, usize>) -> usize {
    let factor = factor.trim();
    match factor.strip_prefix("CURVE_") {
        Some(name) => values[name],
        None => factor.parse().expect("a number"),
    }
}

/// The header's name of one of the wrapper's: WrongLine is WRONG_LINE.
fn upper(name: &str) -> String {
    let mut upper = String::new();
    for letter in name.chars() {
        if letter.is_uppercase() && !upper.is_empty() {
            upper.push('_');
        }
        upper.push(letter.to_ascii_uppercase());
    }

    upper
}

fn places() -> Vec<(&'static str, usize)> {
    vec![
        ("MOST_PIECES", MOST_CURVES),
        ("MOST_BEAMS", MOST_BEAMS),
        ("MOST_RATE", MOST_RATE as usize),
        ("MOST_CENTS", MOST_CENTS as usize),
        ("POINTS", POINTS.start),
        ("WIDTH0", WIDTH0),
        ("WIDTH1", WIDTH1),
        ("UMIN", UMIN),
        ("UMAX", UMAX),
        ("FLOATS", CURVE_FLOATS),
        ("MATRIX_FLOATS", MATRIX_FLOATS),
        ("BOX_FLOATS", BOX_FLOATS),
        ("RAY_O", RAY_O.start),
        ("RAY_D", RAY_D.start),
        ("RAY_T_MAX", RAY_T_MAX),
        ("RAY_TIME", RAY_TIME),
        ("RAY_FLOATS", RAY_FLOATS),
        ("BEAMS_FLOATS", BEAMS_FLOATS),
        ("RECORD_T", RECORD_T),
        ("RECORD_U", RECORD_U),
        ("RECORD_V", RECORD_V),
        ("RECORD_P", RECORD_P.start),
        ("RECORD_ERROR", RECORD_ERROR.start),
        ("RECORD_TIME", RECORD_TIME),
        ("RECORD_WO", RECORD_WO.start),
        ("RECORD_N", RECORD_N.start),
        ("RECORD_DPDU", RECORD_DPDU.start),
        ("RECORD_DPDV", RECORD_DPDV.start),
        ("RECORD_FLOATS", RECORD_FLOATS),
        ("SHEET_PIECES", SHEET_PIECES),
        ("SHEET_REVERSE", SHEET_REVERSE),
        ("SHEET_BEAMS", SHEET_BEAMS),
        ("SHEET_LINE", SHEET_LINE),
        ("SHEET_NUMBERS", SHEET_NUMBERS),
        ("BASIS_BEZIER", Basis::Bezier as usize),
        ("BASIS_BSPLINE", Basis::BSpline as usize),
        ("TYPE_FLAT", CurveType::Flat as usize),
        ("TYPE_RIBBON", CurveType::Ribbon as usize),
        ("TYPE_CYLINDER", CurveType::Cylinder as usize),
    ]
}

/// All but the answers of a call that is not refused, which the examples hold, and what only C needs.
#[test]
fn the_numbers_are_the_headers() {
    let mut header = constants();
    for name in ["DONE", "HIT", "MISS"] {
        assert!(header.remove(name).is_some());
    }
    header.retain(|name, _| !name.starts_with("STACK_"));

    let places = places().into_iter();
    let mut wrapper: BTreeMap<_, _> = places.map(|(name, at)| (name.to_string(), at)).collect();
    for refusal in (1..).map_while(Refusal::from_number) {
        let name = format!("REFUSED_{}", upper(&format!("{refusal:?}")));
        wrapper.insert(name, refusal.number() as usize);
    }

    assert_eq!(wrapper, header);
}
