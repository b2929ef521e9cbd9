//! The crate's numbers are those of the C header, which the gate holds against the archive.

use olavinthu::{CostKind, Measure, SliceKind};

const HEADER: &str = include_str!("../../include/olavinthu.h");

/// The number that the header gives a name.
fn header(name: &str) -> u32 {
    let define = format!("#define OLV_{name} ");
    let line = HEADER.lines().find_map(|line| line.strip_prefix(&define)).expect(name);
    let (number, _) =
        line.strip_prefix("UINT32_C(").and_then(|rest| rest.split_once(')')).expect(name);
    number.parse().expect(name)
}

#[test]
fn limits_are_those_of_the_header() {
    assert_eq!(olavinthu::MARK, header("MARK"));
    assert_eq!(olavinthu::SIDE_LIMIT, header("SIDE_LIMIT"));
    assert_eq!(olavinthu::COST_LIMIT, header("COST_LIMIT"));
    assert_eq!(olavinthu::WEIGHT_LIMIT, header("WEIGHT_LIMIT"));
    assert_eq!(olavinthu::COLUMN_LIMIT, header("COLUMN_LIMIT"));
    assert_eq!(olavinthu::VALUE_LIMIT, header("VALUE_LIMIT"));
    assert_eq!(olavinthu::KNOB_LIMIT, header("KNOB_LIMIT"));
    assert_eq!(olavinthu::CLEAR_LIMIT, header("CLEAR_LIMIT") as usize);
    assert_eq!(olavinthu::TEXT_BYTES, header("TEXT_BYTES") as usize);
}

#[test]
fn kinds_are_those_of_the_header() {
    assert_eq!(Measure::EUCLID.kind, header("EUCLID"));
    assert_eq!(Measure::MANHATTAN.kind, header("MANHATTAN"));
    assert_eq!(Measure::CHESSBOARD.kind, header("CHESSBOARD"));
    assert_eq!(Measure::chamfer(3, 4).kind, header("CHAMFER"));
    assert_eq!(CostKind::Euclid as u32, header("EUCLID"));
    assert_eq!(CostKind::Manhattan as u32, header("MANHATTAN"));
    assert_eq!(SliceKind::Euclid as u32, header("EUCLID"));
    assert_eq!(SliceKind::Manhattan as u32, header("MANHATTAN"));
    assert_eq!(SliceKind::Chessboard as u32, header("CHESSBOARD"));
}
