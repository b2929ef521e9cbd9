//! Pictures to try: drawn ones, in which ties and long stretches abound, and random ones.

use crate::generator::Generator;
use crate::rules::cells;
use olavinthu::Board;

/// The picture whose bored cells are those that a rule names by column and row.
pub fn bored_where(board: Board, rule: impl Fn(u32, u32) -> bool) -> Vec<u8> {
    cells(board).map(|(x, y)| u8::from(rule(x, y))).collect()
}

/// The picture whose bored cells are those listed.
pub fn bored_at(board: Board, bores: &[(u32, u32)]) -> Vec<u8> {
    bored_where(board, |x, y| bores.contains(&(x, y)))
}

/// Every other cell.
pub fn chequerboard(board: Board) -> Vec<u8> {
    bored_where(board, |x, y| (x + y) % 2 == 0)
}

/// From the upper left corner down to the right.
pub fn diagonal(board: Board) -> Vec<u8> {
    bored_where(board, |x, y| x == y)
}

/// All cells on the edge of the board.
fn frame(board: Board) -> Vec<u8> {
    bored_where(board, |x, y| x == 0 || y == 0 || x + 1 == board.width || y + 1 == board.height)
}

/// Pictures with a rule. Some of them are empty on some boards.
pub fn drawn(board: Board) -> Vec<Vec<u8>> {
    let last = (board.width - 1, board.height - 1);
    let middle = (board.width / 2, board.height / 2);
    vec![
        bored_where(board, |_, _| true),
        bored_where(board, |_, _| false),
        bored_at(board, &[(0, 0)]),
        bored_at(board, &[last]),
        bored_at(board, &[middle]),
        bored_at(board, &[(0, 0), last]),
        bored_at(board, &[(0, last.1), (last.0, 0)]),
        chequerboard(board),
        diagonal(board),
        bored_where(board, |x, y| x + y == last.0),
        frame(board),
        // Columns and rows with gaps, so that some columns are empty and others full of ties.
        bored_where(board, |x, _| x % 3 == 1),
        bored_where(board, |_, y| y % 3 == 1),
        bored_where(board, |x, y| x % 4 == 0 && y % 4 == 0),
    ]
}

/// A picture in which each cell is bored once in `many` times.
pub fn random(board: Board, many: u32, generator: &mut Generator) -> Vec<u8> {
    let byte = |_| u8::from(generator.once_in(many));
    (0..board.cells()).map(byte).collect()
}

/// A picture with at most `count` bores and at least one.
pub fn few(board: Board, count: u32, generator: &mut Generator) -> Vec<u8> {
    let mut picture = vec![0; board.cells()];
    for _ in 0..count {
        picture[generator.below(board.cells() as u32) as usize] = 1;
    }
    picture
}

/// A maze: rooms at the even columns and rows, bored walls between them. Each room opens to the left
/// or upwards, so that all hang together; one in four opens both ways, so that there are rounds, and
/// the first lane need not be among those with the fewest cells.
pub fn maze(board: Board, generator: &mut Generator) -> Vec<u8> {
    let mut picture = bored_where(board, |x, y| x % 2 == 1 || y % 2 == 1);
    for (x, y) in cells(board).filter(|(x, y)| x % 2 == 0 && y % 2 == 0) {
        let room = (y * board.width + x) as usize;
        let left = generator.once_in(2);
        let both = generator.once_in(4);
        if x > 0 && (y == 0 || left || both) {
            picture[room - 1] = 0;
        }
        if y > 0 && (x == 0 || !left || both) {
            picture[room - board.width as usize] = 0;
        }
    }
    picture
}
