//! A map in slices.

use crate::on_board::on_board;
use crate::{Board, Buffers, Refusal, MARK};

/// How a map in slices measures. There is no other way: the archive takes these three kinds.
#[derive(Clone, Copy, Debug, PartialEq, Eq)]
pub enum SliceKind {
    /// dx² + dy², never rooted.
    Euclid = 0,
    /// dx + dy.
    Manhattan = 1,
    /// The larger of dx and dy.
    Chessboard = 2,
}

/// What a slice has done.
#[derive(Clone, Copy, Debug, PartialEq, Eq)]
pub struct Slice {
    /// How many lines it finished.
    pub finished: u32,
    /// The next line: the one after those finished.
    pub next: u32,
    /// Why it stopped at that line though there was budget left for it. The lines finished before stay
    /// finished.
    pub stopped: Option<Refusal>,
}

/// Makes some lines of the map of a picture, so that other things can be tended between calls.
///
/// The lines of a board are its columns from the left, from 0 on, and then its rows from the top. A
/// call begins at `line` and finishes as many lines as `budget` and the rest allow; others are
/// untouched. A column line leaves in the scratch word of each of its cells the row of the nearest bore
/// in the column, of two the upper one, or [`MARK`]. A row line believes these words, whoever put them
/// there, and makes the distances and the sites of its row from the cells so named. The scratch words
/// after the cells' are zero after the call.
///
/// The start is refused for a side (1), a length (4) or a line past the last, width + height (12). A
/// line that cannot be done is not begun and stops the call: a column with a byte neither 0 nor 1 (5),
/// a row with a scratch word that is neither a row nor the mark (13), a row of marks alone (6). It is
/// looked at only while budget is left.
///
/// Calls on the same picture, each at the line that the one before named, make the whole map, where
/// the buffers are left alone in between:
///
/// ```
/// use olavinthu::{map, slice, Board, Buffers, Measure, SliceKind};
///
/// let board = Board { width: 4, height: 3 };
/// let picture = [0, 0, 0, 1, 0, 0, 0, 0, 0, 1, 0, 0];
/// let lists = || [board.cells(), board.cells(), board.scratch_words()].map(|count| vec![0; count]);
///
/// let mut sliced = lists();
/// let [distances, sites, scratch] = &mut sliced;
/// let mut buffers = Buffers { distances, sites, scratch };
/// let mut line = 0;
/// while line < board.width + board.height {
///     let done = slice(board, SliceKind::Euclid, line, 2, &picture, buffers.lend())?;
///     if let Some(reason) = done.stopped {
///         return Err(reason);
///     }
///     line = done.next;
///     // Here the node tends the wind.
/// }
///
/// let mut in_one_go = lists();
/// let [distances, sites, scratch] = &mut in_one_go;
/// map(board, Measure::EUCLID, &picture, Buffers { distances, sites, scratch })?;
/// assert_eq!(sliced[0], [5, 4, 1, 0, 2, 1, 2, 1, 1, 0, 1, 4][..]);
/// assert_eq!(sliced[..2], in_one_go[..2]);
/// # Ok::<(), olavinthu::Refusal>(())
/// ```
pub fn slice(
    board: Board,
    kind: SliceKind,
    line: u32,
    budget: u32,
    picture: &[u8],
    buffers: Buffers,
) -> Result<Slice, Refusal> {
    // A start that refuses keeps the out-words. Every other call writes them, and no board has so
    // many lines that one is the mark.
    let (mut finished, mut next) = (0, MARK);
    let answer = on_board!(olv_slice: board, kind as u32, line, budget; picture; buffers;
        &mut finished, &mut next);
    match answer {
        Err(refusal) if next == MARK => Err(refusal),
        _ => Ok(Slice { finished, next, stopped: answer.err() }),
    }
}
