//! Where the time of a map goes: its columns, its rows, and all that it takes in one go. What the
//! first two leave of the last is the test for 6 and the zeroing of the cells' scratch words, less
//! the test of the rows' words, which only a slice makes. Slices are compared with maps elsewhere.

use crate::boards::{square, Drawing, SIDES};
use crate::contest::{best_turns, nanos, turn, Timed};
use crate::on_boards::Lent;
use crate::slices::{Slicer, EUCLID};
use crate::table::{head, number, Row, Table};
use olavinthu::Board;
use std::slice::from_ref;
use std::time::{Duration, Instant};

/// Boards that are long one way only: what a long row costs shows on the first, what a long column
/// costs on the second, and what a large board costs on neither.
const STRIPS: [Board; 2] = [Board { width: 2_048, height: 64 }, Board { width: 64, height: 2_048 }];

/// Columns, rows, one go.
const PARTS: usize = 3;

/// One round. The rows of a picture follow its columns, so that they find in the caches what they
/// would find in a map.
fn round(pictures: &[Vec<u8>], one_go: &mut Lent, slicer: &mut Slicer) -> [Duration; PARTS] {
    let Board { width, height } = one_go.board;
    let [mut columns, mut rows] = [Duration::ZERO; 2];
    for picture in pictures {
        columns += turn(from_ref(picture), |picture| {
            slicer.slice(0, width, picture);
        });
        rows += turn(from_ref(picture), |picture| {
            slicer.slice(width, height, picture);
        });
    }
    [columns, rows, turn(pictures, |picture| one_go.map(EUCLID.2, picture))]
}

fn parts(board: Board, drawing: Drawing) -> Timed<PARTS> {
    let pictures = drawing.pictures(board);
    let (mut one_go, mut slicer) = (Lent::new(board), Slicer::new(board, EUCLID.1));
    let next = || round(&pictures, &mut one_go, &mut slicer);
    let best = best_turns(Instant::now(), None, next);
    Ok(best.map(|turn| nanos(turn, pictures.len() * board.cells())))
}

/// The parts of a map of kind 0, by board and drawing.
pub fn table() -> Table<PARTS> {
    let row = |board: Board| {
        let names = [board.width, board.height].map(|side| side.to_string());
        Row::of_drawings(names.into(), board, &Drawing::ALL, parts)
    };
    Table {
        title: "Where the time of a map of kind 0 goes, in nanoseconds a cell: the columns + the \
            rows, by two calls of `olv_slice`,\nand the whole map by `olv_map`:",
        head: head(&["width", "height"], &Drawing::ALL),
        rows: SIDES.map(square).into_iter().chain(STRIPS).map(row).collect(),
        text: |[columns, rows, map]| {
            format!("{} + {}, {}", number(columns), number(rows), number(map))
        },
    }
}
