//! Picture maps.

use crate::boards::{self, LARGEST, MIDDLE};
use crate::damage::{self, Damage};
use crate::map_case::{hold_each, Asked, Look, MapCase};
use crate::run::Run;
use olavinthu::{Board, Buffers, Measure, Refusal};
use second::generator::Generator;
use second::pictures;
use second::rules::limits::WEIGHT;
use second::rules::PictureCall;

impl Asked for PictureCall {
    const NAME: &'static str = "map";

    fn ask(&self, buffers: Buffers) -> Result<(), Refusal> {
        olavinthu::map(self.board, self.asked, &self.picture, buffers)
    }

    fn drawn(&self) -> String {
        boards::drawn_call(self)
    }
}

pub fn compare(run: &mut Run) {
    small_pictures(run);
    boards::pictures(run, every_kind);
    random_boards(run);
    large_boards(run);
    weights(run);
    damaged(run);
}

/// One measure of each kind. The weights are good for kind 3, often at an edge of the rule; the
/// other kinds do not read theirs, so they are anything.
fn measures(generator: &mut Generator) -> [Measure; 4] {
    let d1 = match generator.below(3) {
        0 => generator.pick(&[1, 2, 3, WEIGHT - 1, WEIGHT]),
        _ => 1 + generator.below(WEIGHT),
    };
    let anywhere = generator.below(d1 + 1);
    let d2 = d1 + generator.pick(&[0, d1, d1 / 3, anywhere]);
    let (any1, any2) = (generator.word(), generator.word());
    [0, 1, 2, 3].map(|kind| match kind {
        3 => Measure { kind, d1, d2 },
        _ => Measure { kind, d1: any1, d2: any2 },
    })
}

/// Holds the maps of all four kinds of one picture.
fn every_kind(run: &mut Run, group: &'static str, board: Board, picture: &[u8]) {
    let measures = measures(&mut run.generator);
    hold_each(run, group, (board, picture), measures, Look::AtAll);
}

fn small_pictures(run: &mut Run) {
    for board in boards::up_to(12).filter(|board| board.cells() <= 12) {
        for picture in boards::every_filling(board, &[0, 1]) {
            every_kind(run, "every picture of at most 12 cells", board, &picture);
        }
    }
}

fn random_boards(run: &mut Run) {
    for _ in 0..200 {
        let board = boards::random_board(1, 24, &mut run.generator);
        let picture = boards::random_picture(board, &mut run.generator);
        every_kind(run, "up to 24 by 24, random", board, &picture);
    }
}

fn large_boards(run: &mut Run) {
    few_bores(run, "512 by 512, few bores", MIDDLE, &[1, 1, 2, 5, 20]);
    many_bores(run, "512 by 512, many bores, some cells", MIDDLE, &[2, 50], 130);
    few_bores(run, "2,048 by 2,048, few bores", LARGEST, &[9]);
    many_bores(run, "2,048 by 2,048, many bores, some cells", LARGEST, &[50], 30);
}

/// Pictures of so many bores.
fn few_bores(run: &mut Run, group: &'static str, board: Board, counts: &[u32]) {
    for &count in counts {
        let picture = pictures::few(board, count, &mut run.generator);
        every_kind(run, group, board, &picture);
    }
}

/// Drawn pictures, and random ones in which one cell in so many is bored. About so many cells of
/// each are looked at.
fn many_bores(run: &mut Run, group: &'static str, board: Board, one_in: &[u32], cells: usize) {
    let drawn = [pictures::chequerboard(board), pictures::diagonal(board)];
    let random = one_in.iter().map(|&many| pictures::random(board, many, &mut run.generator));
    let dense: Vec<Vec<u8>> = drawn.into_iter().chain(random).collect();
    for picture in dense {
        let measures = measures(&mut run.generator);
        hold_each(run, group, (board, &picture), measures, Look::AtAbout(cells));
    }
}

/// Every two weights up to a little over what is good, and words far beyond.
fn weights(run: &mut Run) {
    let board = Board { width: 3, height: 2 };
    let near = (0..=WEIGHT + 2).flat_map(|d1| (0..=2 * WEIGHT + 2).map(move |d2| (d1, d2)));
    let far = [0, 1, WEIGHT, 1 << 31, u32::MAX];
    let far = far.into_iter().flat_map(|d1| far.map(|d2| (d1, d2)));
    for (d1, d2) in near.chain(far) {
        let picture = vec![0, 0, 0, 1, 0, 0];
        let call = PictureCall::new(board, picture, Measure::chamfer(d1, d2));
        run.hold("weights", &MapCase::exact(call));
    }
}

fn damaged(run: &mut Run) {
    let own: &[Damage<u8, Measure>] = &[
        |_, call| call.asked.kind = 4,
        |_, call| call.asked.kind = u32::MAX,
        |_, call| (call.asked.d1, call.asked.d2) = (0, 0),
        |_, call| (call.asked.d1, call.asked.d2) = (3, 7),
        |_, call| (call.asked.d1, call.asked.d2) = (3, 2),
    ];
    let damages = [damage::on_board(), damage::of_bytes(), own.to_vec()].concat();
    for board in boards::to_damage() {
        for measure in measures(&mut run.generator) {
            let picture = pictures::few(board, 2, &mut run.generator);
            let sound = PictureCall::new(board, picture, measure);
            damage::hold(run, &sound, &damages, MapCase::exact);
        }
    }
    let picture = pictures::few(LARGEST, 2, &mut run.generator);
    let largest = PictureCall::new(LARGEST, picture, Measure::EUCLID);
    damage::hold_short(run, &largest, &[], MapCase::exact);
}
