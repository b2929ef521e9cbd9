//! Distances in millimetres, for a screen.

use crate::{raw, Refusal};

/// The millimetres of a squared distance, such as a map of [`EUCLID`](crate::Measure::EUCLID) has, on
/// a board of this pitch: √d · pitch, cut down to a whole number of 1/256 mm. That number is given
/// exactly; 0 is the positive zero.
///
/// A pitch that is not a multiple of 1/64 mm from 1/64 mm to 64 mm is refused (8).
///
/// ```
/// assert_eq!(olavinthu::millimetres(2, 1.0)?, 1.4140625);
/// # Ok::<(), olavinthu::Refusal>(())
/// ```
pub fn millimetres(d: u32, pitch: f32) -> Result<f64, Refusal> {
    let mut out = 0.0;
    // SAFETY: the out-word is a local of its own.
    let answer = unsafe { raw::olv_millimetres(d, pitch, &mut out) };
    Refusal::of(answer).map(|()| out)
}

/// Writes what [`millimetres`] gives to the front of `text`, in ASCII: the digits of the whole part, a
/// point and eight digits. Answers the length of this text; the bytes after it are untouched.
///
/// Fewer bytes than [`TEXT_BYTES`](crate::TEXT_BYTES) are refused (4), and then a bad pitch (8).
///
/// ```
/// let mut text = [0; olavinthu::TEXT_BYTES];
/// let length = olavinthu::millimetres_text(2, 1.0, &mut text)?;
/// assert_eq!(&text[..length], b"1.41406250");
/// # Ok::<(), olavinthu::Refusal>(())
/// ```
pub fn millimetres_text(d: u32, pitch: f32, text: &mut [u8]) -> Result<usize, Refusal> {
    let mut length = 0;
    // SAFETY: the pointer stands with its own slice's length, and the out-word is a local.
    let answer =
        unsafe { raw::olv_millimetres_text(d, pitch, text.as_mut_ptr(), text.len(), &mut length) };
    Refusal::of(answer).map(|()| length as usize)
}
