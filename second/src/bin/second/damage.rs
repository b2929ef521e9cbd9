//! Spoiled calls. Each has one damage or two: the answer to two is the lesser number, so that the
//! order of the tests shows.

use crate::run::{Call, Run};
use olavinthu::Board;
use second::rules::limits::SIDE;
use second::rules::{BoardCall, Lengths};

/// A way to spoil a call. It is given the least lengths on the sound call's board.
pub type Damage<P, A> = fn(least: Lengths, call: &mut BoardCall<P, A>);

/// Holds a sound call with each damage by itself, and with every two.
pub fn hold<P: Clone, A: Clone, C: Call>(
    run: &mut Run,
    sound: &BoardCall<P, A>,
    damages: &[Damage<P, A>],
    case: fn(BoardCall<P, A>) -> C,
) {
    let least = Lengths::least(sound.board);
    for call in spoiled(sound, damages, |damage, call| damage(least, call)) {
        run.hold("one damage or two", &case(call));
    }
}

/// Holds a sound call on the largest board as it is, its lists just long enough, and then with each
/// list by itself one element too short.
pub fn hold_short<P: Clone, A: Clone, C: Call>(
    run: &mut Run,
    sound: &BoardCall<P, A>,
    own: &[Damage<P, A>],
    case: fn(BoardCall<P, A>) -> C,
) {
    let group = "2,048 by 2,048, least and short lists";
    run.hold(group, &case(sound.clone()));
    for damage in short().iter().chain(own) {
        let mut call = sound.clone();
        damage(Lengths::least(sound.board), &mut call);
        run.hold(group, &case(call));
    }
}

/// A sound call with each damage by itself, and with every two. A damage is done to a call as said.
pub fn spoiled<C: Clone, D>(sound: &C, damages: &[D], done: impl Fn(&D, &mut C)) -> Vec<C> {
    let mut calls = vec![];
    for (at, one) in damages.iter().enumerate() {
        let mut once = sound.clone();
        done(one, &mut once);
        for other in &damages[at + 1..] {
            let mut twice = once.clone();
            done(other, &mut twice);
            calls.push(twice);
        }
        calls.push(once);
    }
    calls
}

/// The damages that every call on a board can have.
pub fn on_board<P: Clone, A>() -> Vec<Damage<P, A>> {
    [sides(), short(), lengths()].concat()
}

fn sides<P, A>() -> Vec<Damage<P, A>> {
    let damages: &[Damage<P, A>] = &[
        |_, call| call.board.width = 0,
        |_, call| call.board.height = 0,
        |_, call| call.board.width = SIDE + 1,
        |_, call| call.board.height = SIDE + 1,
        // Sides whose product is 0 in a word of 32 bits, and sides of all that a word holds.
        |_, call| call.board = Board { width: 1 << 16, height: 1 << 16 },
        |_, call| call.board = Board { width: u32::MAX, height: u32::MAX },
    ];
    damages.to_vec()
}

/// A list that is one element too short.
fn short<P, A>() -> Vec<Damage<P, A>> {
    let damages: &[Damage<P, A>] = &[
        |least, call| call.lent.distances = least.distances - 1,
        |least, call| call.lent.sites = least.sites - 1,
        |least, call| call.lent.scratch = least.scratch - 1,
        |_, call| drop(call.picture.pop()),
    ];
    damages.to_vec()
}

/// A list of another wrong length.
fn lengths<P: Clone, A>() -> Vec<Damage<P, A>> {
    let damages: &[Damage<P, A>] = &[
        |_, call| call.lent.distances = 0,
        |_, call| call.lent.sites = 0,
        |_, call| call.lent.scratch = 0,
        |_, call| call.picture.clear(),
        |_, call| call.picture.extend(call.picture.first().cloned()),
    ];
    damages.to_vec()
}

/// The damages of a picture of bytes.
pub fn of_bytes<A>() -> Vec<Damage<u8, A>> {
    let damages: &[Damage<u8, A>] = &[
        |_, call| put(call.picture.first_mut(), 2),
        |_, call| put(call.picture.last_mut(), 255),
        |_, call| call.picture.fill(0),
    ];
    damages.to_vec()
}

/// Puts a value in a place that may not be there: an earlier damage can have emptied the list.
pub fn put<T>(place: Option<&mut T>, value: T) {
    if let Some(place) = place {
        *place = value;
    }
}
