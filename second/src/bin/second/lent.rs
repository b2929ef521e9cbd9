//! Lists lent to a call: full of rubbish, with a margin on both sides that is not lent.

use olavinthu::{Board, Buffers};
use second::generator::Generator;
use second::rules::{Lengths, Map, Words};
use std::fmt::Display;

/// How many elements before and after a list are watched besides it.
const MARGIN: usize = 4;

/// A list of its own, what it holds now and what it held before the call.
pub struct Lent<T> {
    now: Vec<T>,
    before: Vec<T>,
}

impl<T: Copy + PartialEq + Display> Lent<T> {
    pub fn filled(length: usize, mut rubbish: impl FnMut() -> T) -> Lent<T> {
        let now: Vec<T> = (0..length + 2 * MARGIN).map(|_| rubbish()).collect();
        let before = now.clone();
        Lent { now, before }
    }

    /// A list that holds these elements, with rubbish around them.
    pub fn holding(elements: &[T], mut rubbish: impl FnMut() -> T) -> Lent<T> {
        let [left, right] = [(); 2].map(|()| [(); MARGIN].map(|()| rubbish()));
        let now = [&left, elements, &right].concat();
        let before = now.clone();
        Lent { now, before }
    }

    pub fn list(&self) -> &[T] {
        &self.now[MARGIN..self.now.len() - MARGIN]
    }

    pub fn list_mut(&mut self) -> &mut [T] {
        let end = self.now.len() - MARGIN;
        &mut self.now[MARGIN..end]
    }

    /// The list must begin with these elements, and all others must be as they were.
    pub fn holds(&self, name: &str, first: &[T]) -> Result<(), String> {
        let end = MARGIN + first.len();
        let (left, rest) = (&self.before[..MARGIN], &self.before[end..]);
        for (from, expected) in [(0, left), (MARGIN, first), (end, rest)] {
            let now = &self.now[from..][..expected.len()];
            if let Some(at) = (0..now.len()).find(|&at| now[at] != expected[at]) {
                let place = (from + at) as isize - MARGIN as isize;
                return Err(format!("{name}[{place}] is {}, not {}", now[at], expected[at]));
            }
        }
        Ok(())
    }

    /// Every element must be as it was.
    pub fn untouched(&self, name: &str) -> Result<(), String> {
        self.holds(name, &[])
    }
}

/// A list that a call may only read must be as it was.
pub fn unchanged<T: PartialEq>(name: &str, before: &[T], now: &[T]) -> Result<(), String> {
    match before == now {
        true => Ok(()),
        false => Err(format!("{name} has changed")),
    }
}

/// A word of rubbish. Half of them are small: a program that trusts what it finds in a buffer is
/// rather caught by a number that could be a column, a row or a distance.
pub fn rubbish(generator: &mut Generator) -> u32 {
    match generator.word_and_coin() {
        (word, true) => word >> 28,
        (word, false) => word,
    }
}

/// The least lengths on a board and up to three words more in each list.
pub fn roomy(board: Board, generator: &mut Generator) -> Lengths {
    let least = Lengths::least(board);
    let mut more = || generator.below(4) as usize;
    Lengths {
        distances: least.distances + more(),
        sites: least.sites + more(),
        scratch: least.scratch + more(),
    }
}

/// The three lists of a map call.
pub struct Lists {
    distances: Lent<u32>,
    sites: Lent<u32>,
    scratch: Lent<u32>,
}

impl Lists {
    pub fn filled(lengths: Lengths, generator: &mut Generator) -> Lists {
        let mut list = |length| Lent::filled(length, || rubbish(generator));
        Lists {
            distances: list(lengths.distances),
            sites: list(lengths.sites),
            scratch: list(lengths.scratch),
        }
    }

    /// Lists of these lengths that hold the first of the words.
    pub fn holding(words: &Words, lengths: Lengths, generator: &mut Generator) -> Lists {
        let mut list = |words: &[u32]| Lent::holding(words, || rubbish(generator));
        Lists {
            distances: list(&words.distances[..lengths.distances]),
            sites: list(&words.sites[..lengths.sites]),
            scratch: list(&words.scratch[..lengths.scratch]),
        }
    }

    pub fn buffers(&mut self) -> Buffers<'_> {
        Buffers {
            distances: self.distances.list_mut(),
            sites: self.sites.list_mut(),
            scratch: self.scratch.list_mut(),
        }
    }

    /// The map that the lists hold now.
    pub fn map(&self, board: Board) -> Map {
        Map {
            distances: self.distances.list()[..board.cells()].to_vec(),
            sites: self.sites.list()[..board.cells()].to_vec(),
        }
    }

    /// The lists must hold this map and a scratch of zeros, and nothing else may have changed.
    pub fn hold(&self, board: Board, map: &Map) -> Result<(), String> {
        self.distances.holds("distances", &map.distances)?;
        self.sites.holds("sites", &map.sites)?;
        let zeros = vec![0; board.scratch_words()];
        self.scratch.holds("scratch", &zeros)
    }

    /// The lists must hold the first of these words throughout, and nothing around them may have
    /// changed.
    pub fn hold_words(&self, words: &Words) -> Result<(), String> {
        let throughout =
            |lent: &Lent<u32>, name, words: &[u32]| lent.holds(name, &words[..lent.list().len()]);
        throughout(&self.distances, "distances", &words.distances)?;
        throughout(&self.sites, "sites", &words.sites)?;
        throughout(&self.scratch, "scratch", &words.scratch)
    }

    /// Every word must be as it was.
    pub fn untouched(&self) -> Result<(), String> {
        self.distances.untouched("distances")?;
        self.sites.untouched("sites")?;
        self.scratch.untouched("scratch")
    }
}
