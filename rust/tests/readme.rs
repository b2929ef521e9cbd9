//! The picture at the head of README.md, and its millimetres: every word, every star and every digit is
//! the archive's answer.

use olavinthu::{lane, millimetres_text, Board, Buffers, Lane, Refusal, TEXT_BYTES};

const README: &str = include_str!("../../README.md");

#[test]
fn the_picture_of_the_readme_is_what_the_archive_answers() -> Result<(), Refusal> {
    let board = Board { width: 13, height: 5 };
    let mut picture = vec![0; board.cells()];
    for bore in [16, 22, 58] {
        picture[bore] = 1;
    }
    let mut distances = vec![0; board.cells()];
    let mut sites = vec![0; board.cells()];
    let mut scratch = vec![0; board.scratch_words()];
    let buffers = Buffers { distances: &mut distances, sites: &mut sites, scratch: &mut scratch };
    let mut path = vec![0; board.cells()];
    let found = lane(board, &picture, 26, 38, buffers, &mut path)?;

    assert_eq!(found, Lane { width: 2, cells: 17 });
    let on_lane = &path[..17];
    let drawn = |cell: usize| match (picture[cell], on_lane.contains(&(cell as u32))) {
        (1, _) => " o",
        (_, true) => " *",
        (_, false) => " .",
    };
    for row in 0..5 {
        let cells = row * 13..(row + 1) * 13;
        let words: String = cells.clone().map(|cell| format!("{:>3}", distances[cell])).collect();
        let lane: String = cells.map(drawn).collect();
        let line = format!("   {words}     {lane}");
        assert!(README.lines().any(|printed| printed == line), "README.md lacks\n{line}");
    }
    Ok(())
}

#[test]
fn the_millimetres_of_the_readme_are_what_the_archive_answers() -> Result<(), Refusal> {
    for (d, pitch) in [(1, 8.0), (2, 8.0), (169, 0.5), (0, 8.0)] {
        let mut text = [0; TEXT_BYTES];
        let length = millimetres_text(d, pitch, &mut text)?;
        let digits = String::from_utf8_lossy(&text[..length]);
        let line = format!("    d = {d:<4} pitch {pitch:<3} mm {digits:>15} mm");
        assert!(README.lines().any(|printed| printed == line), "README.md lacks\n{line}");
    }
    Ok(())
}
