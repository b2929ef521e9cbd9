//! The boards that maps and lanes are tried on, and how a board is drawn for a reader.

use crate::run::Run;
use olavinthu::Board;
use second::generator::Generator;
use second::pictures;
use second::rules::limits::SIDE;
use second::rules::BoardCall;
use std::fmt::Debug;

/// The largest board.
pub const LARGEST: Board = Board { width: SIDE, height: SIDE };

/// The largest board before document 02 let in longer ones. There is time for more cases on it.
pub const MIDDLE: Board = Board { width: 512, height: 512 };

/// Every board with sides of at most `side`.
pub fn up_to(side: u32) -> impl Iterator<Item = Board> {
    (1..=side).flat_map(move |height| (1..=side).map(move |width| Board { width, height }))
}

/// Long boards of a few rows or columns.
pub fn thin() -> impl Iterator<Item = Board> {
    let sides = [(1, SIDE), (2, 300), (3, 200), (7, 64)];
    let turned = sides.map(|(width, height)| (height, width));
    let both = sides.into_iter().chain(turned);
    both.map(|(width, height)| Board { width, height })
}

/// Boards with sides at the limits, and just outside them; but not with both sides too long, which
/// damaged calls have on smaller lists.
pub fn around_the_limits() -> impl Iterator<Item = Board> {
    let sides = [0, 1, SIDE, SIDE + 1];
    let pairs = sides.into_iter().flat_map(move |width| sides.map(|height| (width, height)));
    let boards = pairs.map(|(width, height)| Board { width, height });
    boards.filter(|board| board.width.min(board.height) <= SIDE)
}

/// Boards for calls that are damaged.
pub fn to_damage() -> impl Iterator<Item = Board> {
    let sides = [(1, 1), (2, 3), (9, 9), (1, SIDE), (SIDE, 1)];
    sides.into_iter().map(|(width, height)| Board { width, height })
}

/// A board with random sides.
pub fn random_board(least: u32, most: u32, generator: &mut Generator) -> Board {
    let mut side = || least + generator.below(most - least + 1);
    Board { width: side(), height: side() }
}

/// Every way to fill the cells of a small board with some values.
pub fn every_filling<T: Copy>(board: Board, values: &[T]) -> impl Iterator<Item = Vec<T>> + '_ {
    let cells = board.cells() as u32;
    let choices = values.len();
    // A filling is a number of as many digits as there are cells.
    let digits = move |number| (0..cells).map(move |at| number / choices.pow(at) % choices);
    (0..choices.pow(cells)).map(move |number| digits(number).map(|digit| values[digit]).collect())
}

/// A random picture of a random density, with one bore at least.
pub fn random_picture(board: Board, generator: &mut Generator) -> Vec<u8> {
    let many = generator.pick(&[2, 3, 5, 10, 30, 100]);
    let mut picture = pictures::random(board, many, generator);
    picture[generator.below(board.cells() as u32) as usize] = 1;
    picture
}

/// Drawn and random pictures on small boards and on long thin ones, and one bore on boards around
/// the limits. Each goes to `hold` with the name of its group.
pub fn pictures(run: &mut Run, mut hold: impl FnMut(&mut Run, &'static str, Board, &[u8])) {
    for board in up_to(9) {
        let groups = ["up to 9 by 9, drawn", "up to 9 by 9, random"];
        on_board(run, groups, board, 40, &mut hold);
    }
    for board in thin() {
        let groups = ["long and thin, drawn", "long and thin, random"];
        on_board(run, groups, board, 4, &mut hold);
    }
    for board in around_the_limits() {
        let picture = pictures::bored_where(board, |x, y| x + y == 0);
        hold(run, "sides around their limits", board, &picture);
    }
}

/// All drawn pictures on one board, and as many random ones as are asked for.
fn on_board(
    run: &mut Run,
    [drawn, random]: [&'static str; 2],
    board: Board,
    count: u32,
    hold: &mut impl FnMut(&mut Run, &'static str, Board, &[u8]),
) {
    for picture in pictures::drawn(board) {
        hold(run, drawn, board, &picture);
    }
    for _ in 0..count {
        let picture = random_picture(board, &mut run.generator);
        hold(run, random, board, &picture);
    }
}

/// The sides of a board and its cells, row by row.
pub fn drawn<T>(board: Board, cells: &[T], cell: impl Fn(&T) -> String) -> String {
    let width = (board.width as usize).max(1);
    let rows = cells.chunks(width).map(|row| row.iter().map(&cell));
    let lines: Vec<String> = rows.map(|row| row.collect()).collect();
    let Board { width, height } = board;
    let given = cells.len();
    format!("board {width} by {height}, {given} cells given\n{}", lines.join("\n"))
}

/// A board with its picture: `#` bored, `.` sound, `?` neither.
pub fn drawn_picture(board: Board, picture: &[u8]) -> String {
    let cell = |byte: &u8| match byte {
        0 => ".",
        1 => "#",
        _ => "?",
    };
    drawn(board, picture, |byte| cell(byte).to_string())
}

/// A call on a picture with its board.
pub fn drawn_call<A: Debug>(call: &BoardCall<u8, A>) -> String {
    let board = drawn_picture(call.board, &call.picture);
    format!("{:?}, {:?}, {board}", call.asked, call.lent)
}
