//! What only the bare C functions show: that a refusal leaves the out-words alone, and that a slice
//! writes them otherwise; that millimetres write nothing beside their own; that a null pointer with the
//! count 0 is taken; and what a kind that the wrapper's types rule out is answered.

use crate::lent::rubbish;
use crate::run::{Call, Run};
use olavinthu::{raw, Buffers, Refusal, Setting};
use second::generator::Generator;
use second::rules::{ChangeoverCall, CostCall, LaneCall, MillimetresCall, SliceCall};
use std::ptr::{null, null_mut};

/// Makes a call that is refused, with rubbish in its two out-words, which must stay.
fn silent(
    generator: &mut Generator,
    refused: impl FnOnce(*mut u32, *mut u32) -> u32,
) -> Result<(), String> {
    let before = [rubbish(generator), rubbish(generator)];
    let mut after = before;
    let [one, other] = &mut after;
    let number = refused(one, other);
    if after != before {
        return Err(format!("refusal {number} made {after:?} of the out-words {before:?}"));
    }
    Ok(())
}

pub fn silent_changeover(call: &ChangeoverCall, generator: &mut Generator) -> Result<(), String> {
    let ChangeoverCall { i, u, a, b } = *call;
    // SAFETY: the out-word is valid.
    silent(generator, |p, _| unsafe { raw::olv_changeover(i, u, a, b, p.cast()) })
}

pub fn silent_opening(setting: Setting, generator: &mut Generator) -> Result<(), String> {
    // SAFETY: the out-words are valid.
    silent(generator, |a, b| unsafe { raw::olv_open(setting, a, b) })
}

pub fn silent_lane(
    call: &LaneCall,
    buffers: Buffers,
    path: &mut [u32],
    generator: &mut Generator,
) -> Result<(), String> {
    // SAFETY: each pointer stands with the length of its own slice, and the out-words are valid.
    silent(generator, |width, cells| unsafe {
        raw::olv_lane(
            call.board.width,
            call.board.height,
            call.picture.as_ptr(),
            call.picture.len(),
            call.asked.from,
            call.asked.to,
            buffers.distances.as_mut_ptr(),
            buffers.distances.len(),
            buffers.sites.as_mut_ptr(),
            buffers.sites.len(),
            buffers.scratch.as_mut_ptr(),
            buffers.scratch.len(),
            path.as_mut_ptr(),
            path.len(),
            width,
            cells,
        )
    })
}

/// Asks for a slice of any kind, with out-words of the caller's: how many lines it finished, and the
/// next line.
pub fn slice(call: &SliceCall, buffers: Buffers, [finished, next]: &mut [u32; 2]) -> u32 {
    // SAFETY: each pointer stands with the length of its own slice, and the out-words are valid.
    unsafe {
        raw::olv_slice(
            call.board.width,
            call.board.height,
            call.asked.kind,
            call.asked.line,
            call.asked.budget,
            call.picture.as_ptr(),
            call.picture.len(),
            buffers.distances.as_mut_ptr(),
            buffers.distances.len(),
            buffers.sites.as_mut_ptr(),
            buffers.sites.len(),
            buffers.scratch.as_mut_ptr(),
            buffers.scratch.len(),
            finished,
            next,
        )
    }
}

/// Asks for a cost map of any kind, such as there is none of.
pub fn cost_map(call: &CostCall, buffers: Buffers) -> Result<(), Refusal> {
    // SAFETY: each pointer stands with the length of its own slice.
    let answer = unsafe {
        raw::olv_cost_map(
            call.board.width,
            call.board.height,
            call.asked.0,
            call.picture.as_ptr(),
            call.picture.len(),
            buffers.distances.as_mut_ptr(),
            buffers.distances.len(),
            buffers.sites.as_mut_ptr(),
            buffers.sites.len(),
            buffers.scratch.as_mut_ptr(),
            buffers.scratch.len(),
        )
    };
    Refusal::of(answer)
}

/// Asks for millimetres, with an out-word of the caller's: the word of the value.
pub fn millimetres(call: &MillimetresCall, word: &mut u64) -> Result<(), Refusal> {
    // SAFETY: the out-word is valid, and is as large as an f64.
    Refusal::of(unsafe { raw::olv_millimetres(call.d, call.pitch, (word as *mut u64).cast()) })
}

/// Asks for a text of millimetres, with an out-word of the caller's: its length.
pub fn millimetres_text(
    call: &MillimetresCall,
    text: &mut [u8],
    length: &mut u32,
) -> Result<(), Refusal> {
    let MillimetresCall { d, pitch } = *call;
    // SAFETY: the pointer stands with the length of its own slice, and the out-word is valid.
    let answer =
        unsafe { raw::olv_millimetres_text(d, pitch, text.as_mut_ptr(), text.len(), length) };
    Refusal::of(answer)
}

/// A call whose lists are all null, and so too short: its name, and the function that makes it.
struct NullLists(&'static str, fn() -> u32);

impl Call for NullLists {
    fn name(&self) -> &'static str {
        self.0
    }

    fn compare(&self, _: &mut Generator) -> Result<u32, String> {
        match (self.1)() {
            4 => Ok(4),
            number => Err(format!("answered {number}, not 4")),
        }
    }

    fn drawn(&self) -> String {
        "every list a null pointer with the count 0".to_string()
    }
}

fn null_map() -> u32 {
    let none = null_mut();
    // SAFETY: a list of no elements may be null.
    unsafe { raw::olv_map(1, 1, 0, 0, 0, null(), 0, none, 0, none, 0, none, 0) }
}

fn null_slice() -> u32 {
    let none = null_mut();
    let (mut f, mut n) = (0, 0);
    // SAFETY: a list of no elements may be null, and the out-words are two locals.
    unsafe { raw::olv_slice(1, 1, 0, 0, 1, null(), 0, none, 0, none, 0, none, 0, &mut f, &mut n) }
}

fn null_cost_map() -> u32 {
    let none = null_mut();
    // SAFETY: a list of no elements may be null.
    unsafe { raw::olv_cost_map(1, 1, 0, null(), 0, none, 0, none, 0, none, 0) }
}

fn null_clear() -> u32 {
    let setting = Setting { pitch: 1.0, radius: 1.0 };
    // SAFETY: a list of no elements may be null.
    unsafe { raw::olv_clear(setting, null(), 0, null_mut(), 0) }
}

fn null_text() -> u32 {
    let mut n = 0;
    // SAFETY: a list of no elements may be null, and the out-word is a local.
    unsafe { raw::olv_millimetres_text(2, 1.0, null_mut(), 0, &mut n) }
}

fn null_lane() -> u32 {
    let none = null_mut();
    let (mut w, mut n) = (0, 0);
    // SAFETY: a list of no elements may be null, and the out-words are two locals.
    unsafe {
        raw::olv_lane(1, 1, null(), 0, 0, 0, none, 0, none, 0, none, 0, none, 0, &mut w, &mut n)
    }
}

pub fn compare(run: &mut Run) {
    let calls = [
        NullLists("map", null_map),
        NullLists("slice", null_slice),
        NullLists("cost map", null_cost_map),
        NullLists("clear", null_clear),
        NullLists("text", null_text),
        NullLists("lane", null_lane),
    ];
    for call in calls {
        run.hold("null lists", &call);
    }
}
