//! The archive at its limits, in figures: the longest sides, the longest clear map, and the greatest
//! columns and values of a changeover.

use olavinthu::{changeover, clear, map, Board, Buffers, Measure, Refusal, Setting};

/// The Euclidean map of a board whose first cell alone is bored: its distances and its sites.
fn one_bore(width: u32, height: u32) -> Result<[Vec<u32>; 2], u32> {
    let board = Board { width, height };
    let mut picture = vec![0; board.cells()];
    picture[0] = 1;
    let [mut distances, mut sites] = [(); 2].map(|()| vec![7; board.cells()]);
    let mut scratch = vec![7; board.scratch_words()];
    let buffers = Buffers { distances: &mut distances, sites: &mut sites, scratch: &mut scratch };
    map(board, Measure::EUCLID, &picture, buffers).map_err(Refusal::number)?;
    assert!(scratch.iter().all(|&word| word == 0));
    Ok([distances, sites])
}

#[test]
fn the_farthest_word() {
    let [distances, _] = one_bore(512, 512).unwrap();
    assert_eq!(distances.last(), Some(&522_242));
    let [distances, sites] = one_bore(2_048, 2_048).unwrap();
    assert_eq!(distances.last(), Some(&8_380_418));
    assert_eq!(distances.iter().max(), Some(&8_380_418));
    assert!(sites.iter().all(|&site| site == 0));
}

#[test]
fn sides() {
    let [row, _] = one_bore(2_048, 1).unwrap();
    assert_eq!(row.last(), Some(&4_190_209));
    let [column, _] = one_bore(1, 2_048).unwrap();
    assert_eq!(column, row);
    for (width, height) in [(2_049, 1), (1, 2_049), (2_049, 2_048), (2_048, 2_049)] {
        assert_eq!(one_bore(width, height), Err(1));
    }
}

#[test]
fn the_longest_clear_map() {
    let setting = Setting { pitch: 0.5, radius: 2.0 };
    let mut bytes = vec![7; 4_194_305];
    let mut squares = vec![15; 4_194_305];
    squares[4_194_303] = 16;
    let refused = clear(setting, &squares, &mut bytes).map_err(Refusal::number);
    assert_eq!(refused, Err(4));
    assert!(bytes.iter().all(|&byte| byte == 7));
    assert_eq!(clear(setting, &squares[..4_194_304], &mut bytes[..4_194_304]), Ok(()));
    assert!(bytes[..4_194_303].iter().all(|&byte| byte == 0));
    assert_eq!(bytes[4_194_303..], [1, 7]);
}

#[test]
fn changeovers() {
    let asked = |i, u, a, b| changeover(i, u, a, b).map_err(Refusal::number);
    assert_eq!(asked(0, 1, 2_000_000, 0), Ok(-1_000_000));
    assert_eq!(asked(510, 511, 0, 2_000_000), Ok(1_000_510));
    assert_eq!(asked(0, 1, 17_000_000, 0), Ok(-8_500_000));
    assert_eq!(asked(2_046, 2_047, 0, 17_000_000), Ok(8_502_046));
    assert_eq!(asked(2_046, 2_048, 0, 0), Err(9));
    assert_eq!(asked(0, 1, 17_000_001, 0), Err(9));
    assert_eq!(asked(0, 1, 0, 17_000_001), Err(9));
}
