//! Maps in slices.

use crate::boards::{self, LARGEST, MIDDLE};
use crate::damage::{self, put, Damage};
use crate::lent::{roomy, rubbish};
use crate::run::Run;
use crate::slice_case::{OneGo, SliceCase};
use olavinthu::{Board, MARK};
use second::generator::Generator;
use second::pictures;
use second::rules::limits::SLICE_KIND;
use second::rules::{cells, BoardCall, Lengths, Map, SliceAsked, SliceCall, Words};

pub fn compare(run: &mut Run) {
    small_pictures(run);
    boards::pictures(run, one_way);
    random_boards(run);
    thin_boards(run);
    large_boards(run);
    largest_board(run);
    single_calls(run);
    damaged(run);
}

/// How the budget of the next call is chosen.
type Budgets = fn(Board, &mut Generator) -> u32;

/// Numbers past every line. Of the first two the lower 16 and the lower 31 bits are 0.
const FAR: [u32; 3] = [1 << 16, 1 << 31, u32::MAX];

const SINGLE: Budgets = |_, _| 1;
const SIXTY_FOUR: Budgets = |_, _| 64;
const ALL: Budgets = |board, _| board.width + board.height;
const MORE: Budgets = |_, generator| generator.pick(&FAR);
const FEW: Budgets = |_, generator| generator.pick(&[0, 1, 2, 3]);
const ANY: Budgets = |board, generator| generator.below(board.width + board.height);

/// The lists of budgets that a map is made with. The last two have a 0 now and then.
const BUDGETS: [Budgets; 6] = [SINGLE, SIXTY_FOUR, ALL, MORE, FEW, ANY];

/// Makes a map by slices, in lists full of rubbish and a little longer than they must be. Each call is
/// held against the rules, and what they have made against the map in one go.
fn chain(
    run: &mut Run,
    group: &'static str,
    (board, picture): (Board, &[u8]),
    kind: u32,
    budgets: Budgets,
) {
    let lent = roomy(board, &mut run.generator);
    let before = Words::filled(lent, || rubbish(&mut run.generator));
    let asked = SliceAsked { kind, line: 0, budget: 0, before };
    let mut call = SliceCall { board, picture: picture.to_vec(), lent, asked };
    let sliced = loop {
        call.asked.budget = budgets(board, &mut run.generator);
        let case = SliceCase::new(call);
        run.hold(group, &case);
        call = case.call;
        match case.expected {
            Ok((answer, after)) if answer.number == 0 => {
                (call.asked.line, call.asked.before) = (answer.next, after);
            }
            Ok((answer, _)) => break Err(answer.number),
            Err(number) => break Err(number),
        }
        if call.asked.line == board.width + board.height {
            break Ok(map_in(board, &call.asked.before));
        }
    };
    run.hold("all lines, held against one go", &OneGo { call, sliced });
}

/// The map that stands in the buffers.
fn map_in(board: Board, words: &Words) -> Map {
    Map {
        distances: words.distances[..board.cells()].to_vec(),
        sites: words.sites[..board.cells()].to_vec(),
    }
}

/// Makes the maps of all kinds of one picture with every list of budgets.
fn every_way(run: &mut Run, group: &'static str, board: Board, picture: &[u8]) {
    for kind in 0..=SLICE_KIND {
        for budgets in BUDGETS {
            chain(run, group, (board, picture), kind, budgets);
        }
    }
}

/// Makes the map of one kind of one picture with one list of budgets; on a large board in one call,
/// as single lines would take minutes.
fn one_way(run: &mut Run, group: &'static str, board: Board, picture: &[u8]) {
    let kind = run.generator.below(SLICE_KIND + 1);
    let budgets = match board.cells() {
        0..=5_000 => run.generator.pick(&BUDGETS),
        _ => ALL,
    };
    chain(run, group, (board, picture), kind, budgets);
}

fn small_pictures(run: &mut Run) {
    for board in boards::up_to(8).filter(|board| board.cells() <= 8) {
        for picture in boards::every_filling(board, &[0, 1]) {
            every_way(run, "every picture of at most 8 cells", board, &picture);
        }
    }
    // With a bad byte the map in one go is refused, and the slices stop at its column.
    for board in boards::up_to(6).filter(|board| board.cells() <= 6) {
        for picture in boards::every_filling(board, &[0, 1, 2]) {
            one_way(run, "every 0, 1 or 2 in 6 cells", board, &picture);
        }
    }
}

fn random_boards(run: &mut Run) {
    for _ in 0..30 {
        let board = boards::random_board(1, 24, &mut run.generator);
        let picture = boards::random_picture(board, &mut run.generator);
        every_way(run, "up to 24 by 24, random", board, &picture);
    }
}

/// Long thin boards line by line.
fn thin_boards(run: &mut Run) {
    for board in boards::thin() {
        let kind = run.generator.below(SLICE_KIND + 1);
        let picture = boards::random_picture(board, &mut run.generator);
        for budgets in BUDGETS {
            chain(run, "long and thin, every budget", (board, &picture), kind, budgets);
        }
    }
}

fn large_boards(run: &mut Run) {
    for kind in 0..=SLICE_KIND {
        let few = pictures::few(MIDDLE, 9, &mut run.generator);
        for budgets in [SIXTY_FOUR, ALL, ANY] {
            chain(run, "512 by 512, few bores", (MIDDLE, &few), kind, budgets);
        }
    }
    let many = pictures::random(MIDDLE, 50, &mut run.generator);
    let kind = run.generator.below(SLICE_KIND + 1);
    chain(run, "512 by 512, many bores", (MIDDLE, &many), kind, ANY);
}

/// The largest board, with one bore in a corner, for the greatest words that there are, and with a
/// few. Then two lines at a time, where half the cells are bored and every word of a row names a
/// cell; all lines of these would take minutes.
fn largest_board(run: &mut Run) {
    let corner = pictures::bored_at(LARGEST, &[(0, 0)]);
    for kind in 0..=SLICE_KIND {
        chain(run, "2,048 by 2,048, one bore", (LARGEST, &corner), kind, ALL);
    }
    let few = pictures::few(LARGEST, 9, &mut run.generator);
    let kind = run.generator.below(SLICE_KIND + 1);
    chain(run, "2,048 by 2,048, few bores", (LARGEST, &few), kind, ANY);
    for line in turns(LARGEST) {
        let generator = &mut run.generator;
        let mut call = sound(LARGEST, line, 2, generator);
        call.picture = pictures::random(LARGEST, 2, generator);
        call.asked.before.scratch[..LARGEST.cells()].fill_with(|| generator.below(LARGEST.height));
        run.hold("2,048 by 2,048, many bores, some lines", &SliceCase::new(call));
    }
}

/// How many bytes or words there are to one that is bad: none is, a few are, many are.
const BAD: [u32; 3] = [u32::MAX, 40, 6];

/// How many cells there are to one that is bored or named: all are, some, nearly none.
const GOOD: [u32; 4] = [1, 2, 8, 200];

/// A picture that may have bad bytes.
fn any_picture(board: Board, generator: &mut Generator) -> Vec<u8> {
    let (bad, bored) = (generator.pick(&BAD), generator.pick(&GOOD));
    let byte = |_| match generator.once_in(bad) {
        true => generator.pick(&[2, 3, 128, 255]),
        false => u8::from(generator.once_in(bored)),
    };
    (0..board.cells()).map(byte).collect()
}

/// Buffers full of rubbish, with words in the scratch that rows may believe, and that may be bad.
fn any_words(board: Board, lent: Lengths, generator: &mut Generator) -> Words {
    let (bad, named) = (generator.pick(&BAD), generator.pick(&GOOD));
    let height = board.height;
    let mut words = Words::filled(lent, || rubbish(generator));
    for word in &mut words.scratch[..board.cells()] {
        let any = generator.word();
        *word = match (generator.once_in(bad), generator.once_in(named)) {
            (true, _) => generator.pick(&[height, height + 1, MARK - 1, any]),
            (_, true) => generator.below(height),
            _ => MARK,
        };
    }
    words
}

/// Single calls at any line with any budget.
fn single_calls(run: &mut Run) {
    for count in 0..60_000 {
        let generator = &mut run.generator;
        let most = if count % 20 == 0 { 24 } else { 5 };
        let board = boards::random_board(1, most, generator);
        let lines = board.width + board.height;
        let lent = roomy(board, generator);
        let any = generator.below(lines + 2);
        let far = generator.pick(&FAR);
        let asked = SliceAsked {
            kind: generator.below(SLICE_KIND + 1),
            line: generator.below(lines + 2),
            budget: generator.pick(&[0, 1, 2, any, any, far]),
            before: any_words(board, lent, generator),
        };
        let call = SliceCall { board, picture: any_picture(board, generator), lent, asked };
        run.hold("single calls on any words", &SliceCase::new(call));
    }
}

/// Puts a bad byte in a line that is a column, or a bad word in one that is a row, so many lines after
/// the one that the call begins at. Where that is no line of the board, nothing is spoiled.
fn spoil(call: &mut SliceCall, ahead: i64, byte: u8, word: u32) {
    let [w, h, line] = [call.board.width, call.board.height, call.asked.line].map(i64::from);
    let (line, cell) = (line + ahead, |x: i64, y: i64| usize::try_from(y * w + x).ok());
    if line < w {
        let at = cell(line, h / 2).and_then(|at| call.picture.get_mut(at));
        put(at, byte);
    } else {
        let at = cell(w - 1, line - w).and_then(|at| call.asked.before.scratch.get_mut(at));
        put(at, word);
    }
}

/// Puts the mark in all words of a row, so many lines after the one that the call begins at.
fn mark_row(call: &mut SliceCall, ahead: u32) {
    let [w, line] = [call.board.width, call.asked.line].map(|number| number as usize);
    let Some(y) = (line + ahead as usize).checked_sub(w) else { return };
    let row = y * w..(y + 1) * w;
    if let Some(row) = call.asked.before.scratch.get_mut(row) {
        row.fill(MARK);
    }
}

/// The damages of the start that only a slice can have, and those of single lines: of the first three
/// that the call may come to, and of the one before it.
fn damages() -> Vec<Damage<u8, SliceAsked>> {
    let own: &[Damage<u8, SliceAsked>] = &[
        |_, call| call.asked.kind = 3,
        |_, call| call.asked.kind = 1 << 16,
        |_, call| call.asked.kind = u32::MAX,
        |_, call| {
            call.asked.line = call.board.width.saturating_add(call.board.height).saturating_add(1)
        },
        |_, call| call.asked.line = 1 << 16,
        |_, call| call.asked.line = u32::MAX,
        |_, call| call.asked.budget = 0,
        |_, call| spoil(call, 0, 2, call.board.height),
        |_, call| spoil(call, 1, 255, MARK - 1),
        |_, call| spoil(call, 2, 3, call.board.height),
        |_, call| spoil(call, -1, 2, MARK - 1),
        |_, call| mark_row(call, 0),
        |_, call| mark_row(call, 1),
        |_, call| mark_row(call, 2),
    ];
    [damage::on_board(), damage::of_bytes(), own.to_vec()].concat()
}

/// A call on a picture with a bore or two, and on words that every row can believe. In a wide row
/// most words are marks: the rules hold each cell against every cell that is named.
fn sound(board: Board, line: u32, budget: u32, generator: &mut Generator) -> SliceCall {
    let mut before = Words::filled(Lengths::least(board), || rubbish(generator));
    for (word, (x, _)) in before.scratch.iter_mut().zip(cells(board)) {
        *word = match x == 0 || generator.once_in(1 + board.width / 64) {
            true => generator.below(board.height),
            false => MARK,
        };
    }
    let kind = generator.below(SLICE_KIND + 1);
    let picture = pictures::few(board, 2, generator);
    BoardCall::new(board, picture, SliceAsked { kind, line, budget, before })
}

/// Lines to begin at: the first column, the last column, from which it goes into the rows, the
/// first row, and the last row but one, which on a small board may be a column.
fn turns(Board { width, height }: Board) -> [u32; 4] {
    [0, width - 1, width, width + height - 2]
}

fn damaged(run: &mut Run) {
    let damages = damages();
    for board in boards::to_damage() {
        for line in turns(board) {
            for budget in [2, u32::MAX] {
                let call = sound(board, line, budget, &mut run.generator);
                damage::hold(run, &call, &damages, SliceCase::new);
            }
        }
    }
    let largest = sound(LARGEST, 0, 2, &mut run.generator);
    damage::hold_short(run, &largest, &[], SliceCase::new);
}
