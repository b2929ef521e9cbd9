//! The entries that have no board, and the clear map.
//!
//! A C function of an archive is called; so are those here that have no board, which would otherwise
//! melt into the loop that times them.

use olavinthu::{Opened, Setting};
use std::io::Write;

/// One value of a setting: 64 times it, where that is a whole number from 1 to 4,096.
fn whole(value: f32) -> Option<u32> {
    let scaled = value * 64.0;
    let k = scaled as u32;
    (k as f32 == scaled && (1..=4_096).contains(&k)).then_some(k)
}

#[inline(never)]
pub fn open(setting: Setting) -> Option<Opened> {
    let (a, b) = (whole(setting.pitch)?, whole(setting.radius)?);
    Some(Opened { a, b })
}

/// The divisor is positive, so that the Euclidean quotient is the floor.
#[inline(never)]
pub fn changeover(i: i64, u: i64, a: i64, b: i64) -> i64 {
    (u * u - i * i + b - a).div_euclid(2 * (u - i))
}

pub fn clear(setting: Setting, squares: &[u32], clear: &mut [u8]) {
    let Opened { a, b } = open(setting).expect("the setting is good");
    let (pitch, radius) = (u64::from(a * a), u64::from(b * b));
    for (byte, &square) in clear.iter_mut().zip(squares) {
        *byte = u8::from(u64::from(square) * pitch >= radius);
    }
}

/// The greatest whole number whose square is at most 16·d·a².
fn root(d: u32, pitch: f32) -> u64 {
    let a = u64::from(whole(pitch).expect("the pitch is good"));
    let bound = 16 * u64::from(d) * a * a;
    // Below 2^60 the root of the f64 next to a number is never too small, and too large by one at most.
    let near = (bound as f64).sqrt() as u64;
    near - u64::from(near * near > bound)
}

#[inline(never)]
pub fn millimetres(d: u32, pitch: f32) -> f64 {
    root(d, pitch) as f64 / 256.0
}

/// The length of the text, which is written to the front. A 256th has eight digits after the point.
#[inline(never)]
pub fn millimetres_text(d: u32, pitch: f32, text: &mut [u8]) -> usize {
    let n = root(d, pitch);
    let mut rest = &mut *text;
    write!(rest, "{}.{:08}", n / 256, n % 256 * 390_625).expect("there is room for the text");
    let after = rest.len();
    text.len() - after
}
