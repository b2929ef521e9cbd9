//! What of a slice's answer is a refusal of its start, and what a stop on its way.

use olavinthu::{slice, Board, Buffers, Slice, SliceKind, MARK};

const BOARD: Board = Board { width: 2, height: 3 };

struct Lists {
    distances: Vec<u32>,
    sites: Vec<u32>,
    scratch: Vec<u32>,
}

impl Lists {
    /// Lists of sevens, with a column of 0s and a column of marks in the cells' scratch words.
    fn new() -> Lists {
        let words = |count| vec![7; count];
        let mut scratch = words(BOARD.scratch_words());
        scratch[..BOARD.cells()].copy_from_slice(&[0, MARK, 0, MARK, 0, MARK]);
        Lists { distances: words(BOARD.cells()), sites: words(BOARD.cells()), scratch }
    }

    /// A slice on these lists, or the number that its start is refused with.
    fn slice(&mut self, line: u32, budget: u32, picture: &[u8]) -> Result<Slice, u32> {
        let Lists { distances, sites, scratch } = self;
        let buffers = Buffers { distances, sites, scratch };
        let made = slice(BOARD, SliceKind::Euclid, line, budget, picture, buffers);
        made.map_err(|refusal| refusal.number())
    }
}

/// The number that stopped a slice, 0 for none, with the lines finished and the next line.
fn stopped(slice: Result<Slice, u32>) -> (u32, u32, u32) {
    let Slice { finished, next, stopped } = slice.expect("the start refuses nothing");
    (stopped.map_or(0, |refusal| refusal.number()), finished, next)
}

#[test]
fn the_start_refuses_and_changes_nothing() {
    let mut lists = Lists::new();
    assert_eq!(lists.slice(6, 1, &[0; 6]), Err(12));
    assert_eq!(lists.slice(0, 1, &[0; 5]), Err(4));
    lists.scratch.pop();
    assert_eq!(lists.slice(0, 1, &[0; 6]), Err(4));
    assert_eq!(lists.distances, [7; 6]);
    assert_eq!(lists.sites, [7; 6]);
    assert_eq!(lists.scratch, [0, MARK, 0, MARK, 0, MARK, 7, 7, 7, 7, 7, 7, 7, 7, 7]);
}

#[test]
fn a_stop_tells_its_line_and_keeps_what_was_finished() {
    let mut lists = Lists::new();
    assert_eq!(stopped(lists.slice(0, 5, &[0, 2, 1, 0, 0, 0])), (5, 1, 1));
    assert_eq!(lists.scratch, [1, MARK, 1, MARK, 1, MARK, 0, 0, 0, 0, 0, 0, 0, 0, 0, 0]);
    lists.scratch[2] = 3;
    assert_eq!(stopped(lists.slice(2, 3, &[2; 6])), (13, 1, 3));
    lists.scratch[2] = MARK;
    assert_eq!(stopped(lists.slice(2, 3, &[2; 6])), (6, 1, 3));
    lists.scratch[2] = 2;
    assert_eq!(stopped(lists.slice(2, 2, &[2; 6])), (0, 2, 4));
    assert_eq!(lists.distances, [1, 2, 1, 2, 7, 7]);
    assert_eq!(lists.sites, [2, 2, 4, 4, 7, 7]);
}

#[test]
fn no_budget_and_no_line_left_finish_nothing() {
    let mut lists = Lists::new();
    assert_eq!(stopped(lists.slice(1, 0, &[2; 6])), (0, 0, 1));
    assert_eq!(stopped(lists.slice(5, u32::MAX, &[2; 6])), (0, 0, 5));
    assert_eq!(lists.scratch[6..], [0; 10]);
}
