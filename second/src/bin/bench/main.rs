//! Times every entry of the archive against a plain program, the parts of a map, and maps in slices
//! against maps in one go. A report, not a test; but programs that do not give the same answer are
//! not timed, and end it with the exit status 1.
//!
//! usage: bench
//!
//! Prints the tables of docs/BENCH.md.

#![forbid(unsafe_code)]

mod boards;
mod contest;
mod longest_slice;
mod off_board;
mod on_boards;
mod parts;
mod plain;
mod slices;
mod table;

use boards::{square, Drawing, SIDES, TURN};
use contest::{times, Timed};
use off_board::{millimetres, Changeovers, Openings, Texts, Values};
use olavinthu::{Board, CostKind, Measure};
use on_boards::{ClearMaps, Lanes, Maps};
use std::process::ExitCode;
use std::time::{Duration, Instant};
use table::{compared, head, Report, Row, Table};

/// How often all figures are timed, at the least; the best time of each counts.
const PASSES: u32 = 3;

/// Until when a further pass is begun, so that the report takes less than three minutes.
const FURTHER: Duration = Duration::from_secs(120);

/// An entry on boards, and how it is timed on one drawing.
type OnBoards = (&'static str, fn(Board, Drawing) -> Timed<2>);

const ENTRIES: [OnBoards; 7] = [
    ("`olv_map` 0 Euclid", |board, drawing| maps(board, drawing, Measure::EUCLID)),
    ("`olv_map` 1 Manhattan", |board, drawing| maps(board, drawing, Measure::MANHATTAN)),
    ("`olv_map` 2 chessboard", |board, drawing| maps(board, drawing, Measure::CHESSBOARD)),
    ("`olv_map` 3 chamfer 3, 4", |board, drawing| maps(board, drawing, Measure::chamfer(3, 4))),
    ("`olv_cost_map` 0 Euclid", |board, drawing| cost_maps(board, drawing, CostKind::Euclid)),
    ("`olv_cost_map` 1 Manhattan", |board, drawing| cost_maps(board, drawing, CostKind::Manhattan)),
    ("`olv_clear`", clear_maps),
];

/// Lanes have a table of their own, for the wall.
const LANES: [OnBoards; 1] = [("`olv_lane`", lanes)];

fn maps(board: Board, drawing: Drawing, measure: Measure) -> Timed<2> {
    times(&mut Maps::of_pictures(board, measure), &drawing.pictures(board), board.cells())
}

fn cost_maps(board: Board, drawing: Drawing, kind: CostKind) -> Timed<2> {
    times(&mut Maps::of_costs(board, kind), &drawing.costs(board), board.cells())
}

fn clear_maps(board: Board, drawing: Drawing) -> Timed<2> {
    let pictures = drawing.pictures(board);
    let squares = pictures.iter().map(|picture| ClearMaps::squares(board, picture));
    times(&mut ClearMaps::new(board), &squares.collect::<Vec<_>>(), board.cells())
}

fn lanes(board: Board, drawing: Drawing) -> Timed<2> {
    times(&mut Lanes::new(board), &drawing.pictures(board), board.cells())
}

/// The times of entries on boards, by entry, side and drawing.
fn on_boards(title: &'static str, entries: &[OnBoards], drawings: &[Drawing]) -> Table<2> {
    let rows = entries.iter().flat_map(|&entry| SIDES.map(|side| (entry, side)));
    let row = |((name, timed), side): (OnBoards, u32)| {
        let names = vec![name.to_string(), side.to_string()];
        Row::of_drawings(names, square(side), drawings, timed)
    };
    Table {
        title,
        head: head(&["entry", "side"], drawings),
        rows: rows.map(row).collect(),
        text: compared,
    }
}

/// The times of the entries that have no board.
fn off_board() -> Table<2> {
    let openings = || times(&mut Openings::default(), &Openings::inputs(TURN), 1);
    let changeovers = || times(&mut Changeovers::default(), &Changeovers::inputs(TURN), 1);
    let values = || times(&mut Values::default(), &millimetres(TURN), 1);
    let texts = || times(&mut Texts::new(), &millimetres(TURN), 1);
    Table {
        title: "Nanoseconds of a call, ours/plain = ratio:",
        head: vec!["entry", "a call"],
        rows: vec![
            Row::of_one("`olv_open`", openings),
            Row::of_one("`olv_changeover`", changeovers),
            Row::of_one("`olv_millimetres`", values),
            Row::of_one("`olv_millimetres_text`", texts),
        ],
        text: compared,
    }
}

/// Times and prints all tables, or says where two programs differ.
fn report() -> Result<(), String> {
    let mut tables: [Box<dyn Report>; 7] = [
        Box::new(on_boards("Nanoseconds a cell, ours/plain = ratio:", &ENTRIES, &Drawing::ALL)),
        Box::new(on_boards("The same of lanes:", &LANES, &Drawing::OF_LANES)),
        Box::new(off_board()),
        Box::new(parts::table()),
        Box::new(slices::long_calls()),
        Box::new(slices::short_calls()),
        Box::new(longest_slice::table()),
    ];
    let (start, mut passes) = (Instant::now(), 0);
    while passes < PASSES || start.elapsed() < FURTHER {
        passes += 1;
        for table in &mut tables {
            table.pass()?;
        }
    }
    tables.iter().for_each(|table| table.print());
    Ok(())
}

fn main() -> ExitCode {
    match report() {
        Ok(()) => ExitCode::SUCCESS,
        Err(difference) => {
            eprintln!("{difference}");
            ExitCode::FAILURE
        }
    }
}
