//! Lanes.

use crate::bare;
use crate::boards::{self, LARGEST, MIDDLE};
use crate::damage::{self, Damage};
use crate::lent::{roomy, rubbish, unchanged, Lent, Lists};
use crate::run::{agreed, Call, Run};
use olavinthu::{Board, Lane, MARK};
use second::generator::Generator;
use second::pictures;
use second::rules::{BestLane, LaneAsked, LaneCall};

/// The first words of a path: the lane's cells, and then marks up to the number of cells.
fn path_words(board: Board, lane: BestLane) -> Vec<u32> {
    let mut words = lane.cells;
    words.resize(board.cells(), MARK);
    words
}

impl Call for LaneCall {
    fn name(&self) -> &'static str {
        "lane"
    }

    fn compare(&self, generator: &mut Generator) -> Result<u32, String> {
        let LaneAsked { from, to, path } = self.asked;
        let before = self.picture.clone();
        let mut lists = Lists::filled(self.lent, generator);
        let mut path = Lent::filled(path, || rubbish(generator));
        let (buffers, path_list) = (lists.buffers(), path.list_mut());
        let answered = olavinthu::lane(self.board, &self.picture, from, to, buffers, path_list);
        unchanged("picture", &before, &self.picture)?;
        match self.answer() {
            Ok((map, lane)) => {
                let (width, cells) = (lane.width, lane.cells.len() as u32);
                agreed(answered, Ok(Lane { width, cells }))?;
                lists.hold(self.board, &map)?;
                path.holds("path", &path_words(self.board, lane))?;
                Ok(0)
            }
            Err(number) => {
                agreed(answered, Err(number))?;
                bare::silent_lane(self, lists.buffers(), path.list_mut(), generator)?;
                lists.untouched()?;
                path.untouched("path")?;
                Ok(number)
            }
        }
    }

    fn drawn(&self) -> String {
        boards::drawn_call(self)
    }
}

pub fn compare(run: &mut Run) {
    small_pictures(run);
    boards::pictures(run, between_random_cells);
    mazes(run);
    large_boards(run);
    damaged(run);
}

/// Holds the lane between two cells, with some words more than the least in the lists.
fn hold(run: &mut Run, group: &'static str, board: Board, picture: &[u8], ends: [u32; 2]) {
    let [from, to] = ends;
    let mut call = LaneCall::between(board, picture.to_vec(), from, to);
    call.lent = roomy(board, &mut run.generator);
    call.asked.path += run.generator.below(4) as usize;
    run.hold(group, &call);
}

/// Two random cells; now and then the first or the last one, or twice the same.
fn random_ends(board: Board, generator: &mut Generator) -> [u32; 2] {
    let cells = board.cells() as u32;
    let last = cells.saturating_sub(1);
    let [from, to] = [(); 2].map(|()| match generator.below(8) {
        0 => 0,
        1 => last,
        _ => generator.below(cells),
    });
    match generator.once_in(16) {
        true => [from, from],
        false => [from, to],
    }
}

/// Holds a few lanes on one picture; on a board of millions of cells only one, which takes seconds.
fn between_random_cells(run: &mut Run, group: &'static str, board: Board, picture: &[u8]) {
    let lanes = if board.cells() < 1_000_000 { 3 } else { 1 };
    for _ in 0..lanes {
        let ends = random_ends(board, &mut run.generator);
        hold(run, group, board, picture, ends);
    }
}

fn small_pictures(run: &mut Run) {
    for board in boards::up_to(8).filter(|board| board.cells() <= 8) {
        let cells = board.cells() as u32;
        for picture in boards::every_filling(board, &[0, 1]) {
            for ends in (0..cells * cells).map(|pair| [pair / cells, pair % cells]) {
                hold(run, "every picture of at most 8 cells", board, &picture, ends);
            }
        }
    }
}

fn mazes(run: &mut Run) {
    for side in [3, 5, 9, 15, 31] {
        for _ in 0..60 {
            let board = boards::random_board(2, side, &mut run.generator);
            let picture = pictures::maze(board, &mut run.generator);
            between_random_cells(run, "mazes", board, &picture);
        }
    }
}

fn large_boards(run: &mut Run) {
    few_bores(run, "512 by 512", MIDDLE, &[1, 3, 12, 25]);
    few_bores(run, "2,048 by 2,048", LARGEST, &[12]);
}

/// Pictures of so many bores.
fn few_bores(run: &mut Run, group: &'static str, board: Board, counts: &[u32]) {
    for &count in counts {
        let picture = pictures::few(board, count, &mut run.generator);
        between_random_cells(run, group, board, &picture);
    }
}

/// A call on a picture with a bore or two, with lists of the least lengths.
fn sound(board: Board, generator: &mut Generator) -> LaneCall {
    let picture = pictures::few(board, 2, generator);
    let [from, to] = random_ends(board, generator);
    LaneCall::between(board, picture, from, to)
}

fn damaged(run: &mut Run) {
    let short: Damage<u8, LaneAsked> = |least, call| call.asked.path = least.distances - 1;
    let own: &[Damage<u8, LaneAsked>] = &[
        short,
        |_, call| call.asked.path = 0,
        |least, call| call.asked.from = least.distances as u32,
        |least, call| call.asked.to = least.distances as u32,
        |_, call| call.asked.from = u32::MAX,
        |_, call| call.asked.to = u32::MAX,
    ];
    let damages = [damage::on_board(), damage::of_bytes(), own.to_vec()].concat();
    for board in boards::to_damage() {
        let sound = sound(board, &mut run.generator);
        damage::hold(run, &sound, &damages, |call| call);
    }
    let largest = sound(LARGEST, &mut run.generator);
    damage::hold_short(run, &largest, &[short], |call| call);
}
