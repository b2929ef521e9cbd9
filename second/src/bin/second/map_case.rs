//! How a call for a map, of a picture or of costs, is held against the rules.

use crate::lent::{roomy, unchanged, Lists};
use crate::run::{agreed, Call, Run};
use olavinthu::{Board, Buffers, Refusal};
use second::generator::Generator;
use second::rules::{cells, BoardCall, MapRule};

/// A call for a map that the archive can be asked.
pub trait Asked: MapRule {
    const NAME: &'static str;

    fn ask(&self, buffers: Buffers) -> Result<(), Refusal>;
    fn drawn(&self) -> String;
}

/// Which cells of a map are looked at: all, or about so many. On a large board that is full of
/// features all cells would take hours.
#[derive(Clone, Copy)]
pub enum Look {
    AtAll,
    AtAbout(usize),
}

impl Look {
    /// How far it is from one cell that is looked at to the next.
    fn step(self, board: Board) -> usize {
        match self {
            Look::AtAll => 1,
            // Odd, so that on a board whose width is even they are not all in one column.
            Look::AtAbout(count) => (board.cells() / count) | 1,
        }
    }
}

/// A call for a map, and which of its cells are looked at.
pub struct MapCase<P, A> {
    call: BoardCall<P, A>,
    look: Look,
}

impl<P, A> MapCase<P, A> {
    /// The call as it stands, every cell looked at.
    pub fn exact(call: BoardCall<P, A>) -> MapCase<P, A> {
        MapCase { call, look: Look::AtAll }
    }
}

/// Holds the maps of one picture, for each thing that can be asked, with some words more than the
/// least in their lists.
pub fn hold_each<P: Clone + PartialEq, A>(
    run: &mut Run,
    group: &'static str,
    (board, picture): (Board, &[P]),
    all_asked: impl IntoIterator<Item = A>,
    look: Look,
) where
    BoardCall<P, A>: Asked,
{
    for asked in all_asked {
        let mut call = BoardCall::new(board, picture.to_vec(), asked);
        call.lent = roomy(board, &mut run.generator);
        run.hold(group, &MapCase { call, look });
    }
}

impl<P: Clone + PartialEq, A> MapCase<P, A>
where
    BoardCall<P, A>: Asked,
{
    /// The lists must hold a map, and at each cell looked at the words of the rules.
    fn accepted(&self, lists: &Lists) -> Result<(), String> {
        let nearest = self.call.nearest();
        let mut map = lists.map(self.call.board);
        let step = self.look.step(self.call.board);
        for (cell, (x, y)) in cells(self.call.board).enumerate().step_by(step) {
            (map.distances[cell], map.sites[cell]) = nearest(x, y);
        }
        lists.hold(self.call.board, &map)
    }
}

impl<P: Clone + PartialEq, A> Call for MapCase<P, A>
where
    BoardCall<P, A>: Asked,
{
    fn name(&self) -> &'static str {
        BoardCall::<P, A>::NAME
    }

    fn compare(&self, generator: &mut Generator) -> Result<u32, String> {
        let before = self.call.picture.clone();
        let mut lists = Lists::filled(self.call.lent, generator);
        let answered = self.call.ask(lists.buffers());
        unchanged("picture", &before, &self.call.picture)?;
        let number = agreed(answered, self.call.refusal())?;
        match number {
            0 => self.accepted(&lists)?,
            _ => lists.untouched()?,
        }
        Ok(number)
    }

    fn drawn(&self) -> String {
        self.call.drawn()
    }
}
