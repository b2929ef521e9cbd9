//! Cost maps.

use crate::bare;
use crate::boards::{self, LARGEST, MIDDLE};
use crate::damage::{self, put, Damage};
use crate::map_case::{hold_each, Asked, Look, MapCase};
use crate::run::Run;
use olavinthu::{Board, Buffers, Refusal, MARK};
use second::generator::Generator;
use second::rules::limits::COST;
use second::rules::{CostCall, CostKind};

impl Asked for CostCall {
    const NAME: &'static str = "cost map";

    fn ask(&self, buffers: Buffers) -> Result<(), Refusal> {
        let kind = match self.asked.0 {
            0 => olavinthu::CostKind::Euclid,
            1 => olavinthu::CostKind::Manhattan,
            _ => return bare::cost_map(self, buffers),
        };
        olavinthu::cost_map(self.board, kind, &self.picture, buffers)
    }

    fn drawn(&self) -> String {
        let cell = |&cost: &u32| match cost {
            MARK => " -".to_string(),
            cost => format!(" {cost}"),
        };
        let board = boards::drawn(self.board, &self.picture, cell);
        format!("kind {}, {:?}, {board}", self.asked.0, self.lent)
    }
}

pub fn compare(run: &mut Run) {
    small_boards(run);
    thin_boards(run);
    large_boards(run);
    sides(run);
    damaged(run);
}

/// One cost of a style.
fn cost(style: u32, reach: u32, generator: &mut Generator) -> u32 {
    match style {
        // all equal
        0 => reach,
        1 => 0,
        2 => COST,
        // few values, many ties
        3 => generator.below(3),
        4 => generator.pick(&[0, COST]),
        // differing about as much as distances do, so that many cells win somewhere
        5 => generator.below(reach + 1),
        6 => generator.below(reach + 1).pow(2).min(COST),
        7 => COST - generator.below(reach + 1),
        // anything
        _ => generator.below(COST + 1),
    }
}

/// How many styles there are.
const STYLES: u32 = 9;

/// How many cells there are to one that is unmarked: all unmarked, some, all but one marked.
const MARKED: [u32; 4] = [1, 2, 6, u32::MAX];

/// A cost picture of one style, with at least one cell unmarked.
fn styled(board: Board, style: u32, marked: u32, generator: &mut Generator) -> Vec<u32> {
    let reach = generator.below(board.width + board.height);
    let always = generator.below(board.cells() as u32);
    let unmarked = |cell, generator: &mut Generator| cell == always || generator.once_in(marked);
    (0..board.cells() as u32)
        .map(|cell| match unmarked(cell, generator) {
            true => cost(style, reach, generator),
            false => MARK,
        })
        .collect()
}

/// Both kinds of a cost map.
const KINDS: [CostKind; 2] = [CostKind(0), CostKind(1)];

/// Holds the maps of both kinds of one cost picture.
fn both_kinds(run: &mut Run, group: &'static str, board: Board, costs: &[u32]) {
    hold_each(run, group, (board, costs), KINDS, Look::AtAll);
}

/// Holds cost pictures of every style on one board.
fn every_style(run: &mut Run, group: &'static str, board: Board) {
    for style in 0..STYLES {
        for marked in MARKED {
            let costs = styled(board, style, marked, &mut run.generator);
            both_kinds(run, group, board, &costs);
        }
    }
}

fn small_boards(run: &mut Run) {
    let values = [0, 1, 3, MARK];
    for board in boards::up_to(6).filter(|board| board.cells() <= 6) {
        for costs in boards::every_filling(board, &values) {
            both_kinds(run, "every 0, 1, 3 or mark in 6 cells", board, &costs);
        }
    }
    for board in boards::up_to(9) {
        every_style(run, "up to 9 by 9", board);
    }
    for _ in 0..10 {
        let board = boards::random_board(1, 24, &mut run.generator);
        every_style(run, "up to 24 by 24", board);
    }
}

fn thin_boards(run: &mut Run) {
    for board in boards::thin() {
        every_style(run, "long and thin", board);
    }
}

fn large_boards(run: &mut Run) {
    few_costs(run, "512 by 512, few costs", MIDDLE, &[(5, 0), (6, 4), (8, 13)]);
    many_costs(run, "512 by 512, many costs, some cells", MIDDLE, &[3, 6, 8], 130);
    few_costs(run, "2,048 by 2,048, few costs", LARGEST, &[(8, 13)]);
    many_costs(run, "2,048 by 2,048, many costs, some cells", LARGEST, &[3, 6], 20);
}

/// Pictures of a style, each with one cost and about so many more.
fn few_costs(run: &mut Run, group: &'static str, board: Board, pictures: &[(u32, u32)]) {
    for &(style, more) in pictures {
        let marked = (board.cells() as u32).checked_div(more).unwrap_or(u32::MAX);
        let costs = styled(board, style, marked, &mut run.generator);
        both_kinds(run, group, board, &costs);
    }
}

/// Pictures of some styles without a mark. About so many cells of each are looked at.
fn many_costs(run: &mut Run, group: &'static str, board: Board, styles: &[u32], cells: usize) {
    for &style in styles {
        let costs = styled(board, style, 1, &mut run.generator);
        hold_each(run, group, (board, &costs), KINDS, Look::AtAbout(cells));
    }
}

/// Sides at their limits and just outside them, with lists that fit.
fn sides(run: &mut Run) {
    for board in boards::around_the_limits() {
        let mut costs = vec![MARK; board.cells()];
        put(costs.first_mut(), 7);
        both_kinds(run, "sides around their limits", board, &costs);
    }
}

fn damaged(run: &mut Run) {
    let own: &[Damage<u32, CostKind>] = &[
        |_, call| call.asked.0 = 2,
        |_, call| call.asked.0 = u32::MAX,
        |_, call| put(call.picture.first_mut(), COST + 1),
        |_, call| put(call.picture.last_mut(), MARK - 1),
        |_, call| call.picture.fill(MARK),
    ];
    let damages = [damage::on_board(), own.to_vec()].concat();
    for board in boards::to_damage() {
        for kind in KINDS {
            let costs = styled(board, 5, 2, &mut run.generator);
            let sound = CostCall::new(board, costs, kind);
            damage::hold(run, &sound, &damages, MapCase::exact);
        }
    }
    let costs = styled(LARGEST, 5, u32::MAX, &mut run.generator);
    let largest = CostCall::new(LARGEST, costs, CostKind(0));
    damage::hold_short(run, &largest, &[], MapCase::exact);
}
