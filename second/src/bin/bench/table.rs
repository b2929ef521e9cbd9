//! The tables, as Markdown, and the passes in which their figures are timed.

use crate::boards::Drawing;
use crate::contest::Timed;
use olavinthu::Board;
use std::array::from_fn;

/// A part of the report. It is timed in several passes and printed when they are over. A machine
/// with other work on it has slow moments of some seconds; a pass goes over the whole report, so
/// that no figure falls into one with all its turns.
pub trait Report {
    /// Times all figures once more, or says where two programs differ.
    fn pass(&mut self) -> Result<(), String>;

    fn print(&self);
}

/// A figure: how it is timed, and the best times so far.
struct Figure<const PROGRAMS: usize> {
    timed: Box<dyn Fn() -> Timed<PROGRAMS>>,
    best: [f64; PROGRAMS],
}

/// A row: the cells that name it, and a figure for each of the other columns.
pub struct Row<const PROGRAMS: usize> {
    names: Vec<String>,
    figures: Vec<Figure<PROGRAMS>>,
}

impl<const PROGRAMS: usize> Row<PROGRAMS> {
    /// A row of one figure.
    pub fn of_one(name: &str, timed: impl Fn() -> Timed<PROGRAMS> + 'static) -> Row<PROGRAMS> {
        Row { names: vec![name.into()], figures: vec![Figure::new(timed)] }
    }

    /// A row of a figure for each drawing on a board.
    pub fn of_drawings(
        names: Vec<String>,
        board: Board,
        drawings: &[Drawing],
        timed: impl Fn(Board, Drawing) -> Timed<PROGRAMS> + Copy + 'static,
    ) -> Row<PROGRAMS> {
        let figure = |&drawing| Figure::new(move || timed(board, drawing));
        Row { names, figures: drawings.iter().map(figure).collect() }
    }
}

impl<const PROGRAMS: usize> Figure<PROGRAMS> {
    fn new(timed: impl Fn() -> Timed<PROGRAMS> + 'static) -> Figure<PROGRAMS> {
        Figure { timed: Box::new(timed), best: [f64::INFINITY; PROGRAMS] }
    }
}

pub struct Table<const PROGRAMS: usize> {
    /// What stands above the table.
    pub title: &'static str,
    pub head: Vec<&'static str>,
    pub rows: Vec<Row<PROGRAMS>>,
    /// The text of a figure.
    pub text: fn([f64; PROGRAMS]) -> String,
}

impl<const PROGRAMS: usize> Report for Table<PROGRAMS> {
    fn pass(&mut self) -> Result<(), String> {
        for row in &mut self.rows {
            for (figure, column) in row.figures.iter_mut().zip(&self.head[row.names.len()..]) {
                let names = row.names.join(", ");
                let differs = |at| format!("{names}, {column}: answer {at} differs");
                let times = (figure.timed)().map_err(differs)?;
                figure.best = from_fn(|program| figure.best[program].min(times[program]));
            }
        }
        Ok(())
    }

    fn print(&self) {
        print_head(self.title, &self.head);
        for row in &self.rows {
            let texts = row.figures.iter().map(|figure| (self.text)(figure.best));
            print_row(row.names.iter().cloned().chain(texts));
        }
    }
}

/// The head of a table: its first columns, and then one for each drawing.
pub fn head(first: &[&'static str], drawings: &[Drawing]) -> Vec<&'static str> {
    first.iter().copied().chain(drawings.iter().map(|drawing| drawing.name())).collect()
}

/// Prints what stands above a table, and its head.
pub fn print_head(title: &str, head: &[&str]) {
    println!("\n{title}\n");
    print_row(head.iter().map(|name| name.to_string()));
    print_row(head.iter().map(|_| "---".to_string()));
}

pub fn print_row(cells: impl IntoIterator<Item = String>) {
    println!("| {} |", cells.into_iter().collect::<Vec<_>>().join(" | "));
}

/// A number with three digits or so.
pub fn number(value: f64) -> String {
    let digits = match value {
        100.0.. => 0,
        10.0.. => 1,
        _ => 2,
    };
    format!("{value:.digits$}")
}

/// The times of two programs, and their ratio.
pub fn compared([ours, plain]: [f64; 2]) -> String {
    format!("{}/{} = {:.2}", number(ours), number(plain), ours / plain)
}

/// The ratios of all times to the first of them.
pub fn to_the_first<const PROGRAMS: usize>(times: [f64; PROGRAMS]) -> String {
    let ratio = |time: &f64| format!("{:.2}", time / times[0]);
    times[1..].iter().map(ratio).collect::<Vec<_>>().join(", ")
}
