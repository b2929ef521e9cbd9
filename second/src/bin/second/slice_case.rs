//! How a slice is held against the rules, and what slices have made against the map in one go.

use crate::bare;
use crate::boards;
use crate::lent::{rubbish, unchanged, Lists};
use crate::run::{agreed, Call};
use olavinthu::{Buffers, Measure, SliceKind, MARK};
use second::generator::Generator;
use second::rules::{Map, SliceAnswer, SliceAsked, SliceCall, Words};

/// A slice, with what the rules answer to it and leave in its buffers.
pub struct SliceCase {
    pub call: SliceCall,
    pub expected: Result<(SliceAnswer, Words), u32>,
}

impl SliceCase {
    pub fn new(call: SliceCall) -> SliceCase {
        let expected = call.answer();
        SliceCase { call, expected }
    }

    /// The answer of the rules: the whole triple, or the refusal of the start.
    fn answer(&self) -> Result<SliceAnswer, u32> {
        self.expected.as_ref().map(|(answer, _)| *answer).map_err(|number| *number)
    }

    /// The archive's answer through the wrapper.
    fn wrapped(&self, kind: SliceKind, buffers: Buffers) -> Result<SliceAnswer, u32> {
        let SliceAsked { line, budget, .. } = self.call.asked;
        let made =
            olavinthu::slice(self.call.board, kind, line, budget, &self.call.picture, buffers);
        let slice = made.map_err(|refusal| refusal.number())?;
        let number = slice.stopped.map_or(0, |refusal| refusal.number());
        Ok(SliceAnswer { number, finished: slice.finished, next: slice.next })
    }

    /// The bare answer, into out-words full of rubbish. Where the start refuses they must be kept, and
    /// otherwise written.
    fn bare(&self, buffers: Buffers, generator: &mut Generator) -> Result<SliceAnswer, u32> {
        let before = [rubbish(generator), rubbish(generator)];
        let mut out = before;
        let number = bare::slice(&self.call, buffers, &mut out);
        match self.expected {
            Err(_) if out == before => Err(number),
            _ => Ok(SliceAnswer { number, finished: out[0], next: out[1] }),
        }
    }

    /// The archive's answer, through the wrapper or bare.
    fn ask(&self, buffers: Buffers, generator: &mut Generator) -> Result<SliceAnswer, u32> {
        let wrapped = generator.once_in(2);
        match self.call.asked.kind {
            0 if wrapped => self.wrapped(SliceKind::Euclid, buffers),
            1 if wrapped => self.wrapped(SliceKind::Manhattan, buffers),
            2 if wrapped => self.wrapped(SliceKind::Chessboard, buffers),
            _ => self.bare(buffers, generator),
        }
    }
}

impl Call for SliceCase {
    fn name(&self) -> &'static str {
        "slice"
    }

    fn compare(&self, generator: &mut Generator) -> Result<u32, String> {
        let picture = self.call.picture.clone();
        let mut lists = Lists::holding(&self.call.asked.before, self.call.lent, generator);
        let answered = self.ask(lists.buffers(), generator);
        unchanged("picture", &picture, &self.call.picture)?;
        let expected = self.answer();
        if answered != expected {
            return Err(format!("answered {answered:?}, not {expected:?}"));
        }
        match &self.expected {
            Ok((answer, after)) => lists.hold_words(after).map(|()| answer.number),
            Err(number) => lists.untouched().map(|()| *number),
        }
    }

    fn outcome(&self) -> &'static str {
        match self.expected {
            Ok(_) => "stopped",
            Err(_) => "refused",
        }
    }

    fn drawn(&self) -> String {
        let SliceCall { board, picture, lent, asked } = &self.call;
        let SliceAsked { kind, line, budget, before } = asked;
        let word = |&word: &u32| match word {
            MARK => " -".to_string(),
            word => format!(" {word}"),
        };
        let cells = board.cells().min(lent.scratch);
        let scratch = boards::drawn(*board, &before.scratch[..cells], word);
        let picture = boards::drawn_picture(*board, picture);
        format!(
            "kind {kind}, line {line}, budget {budget}, {lent:?}, {picture}\nscratch of {scratch}"
        )
    }
}

/// The map of a picture in one go, and what slices of it came to: the map, or the number that ended
/// them.
pub struct OneGo {
    pub call: SliceCall,
    pub sliced: Result<Map, u32>,
}

impl Call for OneGo {
    fn name(&self) -> &'static str {
        "slice"
    }

    fn compare(&self, generator: &mut Generator) -> Result<u32, String> {
        let SliceCall { board, picture, lent, asked } = &self.call;
        let measure = Measure { kind: asked.kind, d1: rubbish(generator), d2: rubbish(generator) };
        let mut lists = Lists::filled(*lent, generator);
        let made = olavinthu::map(*board, measure, picture, lists.buffers());
        match &self.sliced {
            Ok(map) => {
                agreed(made, Ok(()))?;
                lists.hold(*board, map).map(|()| 0)
            }
            Err(number) => agreed(made, Err(*number)),
        }
    }

    fn drawn(&self) -> String {
        let picture = boards::drawn_picture(self.call.board, &self.call.picture);
        format!("kind {}, {picture}", self.call.asked.kind)
    }
}
