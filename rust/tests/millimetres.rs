//! Distances in millimetres, in figures: the sample, the edges, and the bytes that a text is lent.

use olavinthu::{millimetres, millimetres_text, raw, Refusal, TEXT_BYTES};

/// A value in millimetres, or the number of the refusal.
fn value(d: u32, pitch: f32) -> Result<f64, u32> {
    millimetres(d, pitch).map_err(Refusal::number)
}

/// The text in a buffer of sevens; what stands after it must be sevens still. Or the number of the
/// refusal; then all must be.
fn text_in(bytes: usize, d: u32, pitch: f32) -> Result<String, u32> {
    let mut text = vec![7; bytes];
    let answered = millimetres_text(d, pitch, &mut text);
    let after = text.split_off(answered.unwrap_or(0));
    assert!(after.iter().all(|&byte| byte == 7), "{d}, {pitch}: {after:?} after the text");
    answered.map_err(Refusal::number)?;
    Ok(String::from_utf8(text).unwrap())
}

/// The text in a buffer of the fewest bytes.
fn text(d: u32, pitch: f32) -> Result<String, u32> {
    text_in(TEXT_BYTES, d, pitch)
}

#[test]
fn the_sample() {
    assert_eq!(value(2, 1.0), Ok(1.4140625));
    assert_eq!(text(2, 1.0).unwrap(), "1.41406250");
}

#[test]
fn none() {
    for pitch in [0.015625, 1.0, 64.0] {
        assert_eq!(value(0, pitch).map(f64::to_bits), Ok(0));
        assert_eq!(text(0, pitch).unwrap(), "0.00000000");
    }
}

#[test]
fn the_greatest() {
    assert_eq!(value(u32::MAX, 64.0), Ok(4194303.99609375));
    assert_eq!(text(u32::MAX, 64.0).unwrap(), "4194303.99609375");
    assert_eq!(text(u32::MAX, 64.0).unwrap().len(), 16);
}

#[test]
fn the_least_pitch() {
    assert_eq!(value(1, 0.015625), Ok(0.015625));
    assert_eq!(text(1, 0.015625).unwrap(), "0.01562500");
    assert_eq!(value(2, 0.015625), Ok(0.01953125));
    assert_eq!(text(2, 0.015625).unwrap(), "0.01953125");
    assert_eq!(text(u32::MAX, 0.015625).unwrap(), "1023.99609375");
}

#[test]
fn the_whole_part_grows_a_digit() {
    assert_eq!(text(99, 1.0).unwrap(), "9.94921875");
    assert_eq!(text(100, 1.0).unwrap(), "10.00000000");
    assert_eq!(text(399_999_999, 50.0).unwrap(), "999999.99609375");
    assert_eq!(text(400_000_000, 50.0).unwrap(), "1000000.00000000");
}

#[test]
fn lent_bytes() {
    for bytes in [0, 1, 19] {
        assert_eq!(text_in(bytes, 2, 1.0), Err(4));
    }
    for bytes in [20, 21, 40, 1_000] {
        assert_eq!(text_in(bytes, 2, 1.0).unwrap(), "1.41406250");
        assert_eq!(text_in(bytes, u32::MAX, 64.0).unwrap(), "4194303.99609375");
    }
}

#[test]
fn bad_pitches() {
    let next = f32::from_bits(1.0f32.to_bits() + 1);
    for pitch in [64.015625, 0.01, next, 0.0, -0.0, -1.0, f32::INFINITY, f32::NAN] {
        assert_eq!(value(2, pitch), Err(8));
        assert_eq!(value(0, pitch), Err(8));
        assert_eq!(text(2, pitch), Err(8));
        // The bytes are tested before the pitch.
        assert_eq!(text_in(19, 2, pitch), Err(4));
    }
}

/// What the safe functions hide: an out-word that a refusal would have written to.
#[test]
fn a_refusal_keeps_the_out_words() {
    let (mut out, mut length) = (7.0, 7);
    let mut text = [7; TEXT_BYTES];
    let bytes = text.as_mut_ptr();
    // SAFETY: the counts are at most the list's length, and the out-words are locals.
    unsafe {
        assert_eq!(raw::olv_millimetres(2, 0.01, &mut out), 8);
        assert_eq!(raw::olv_millimetres_text(2, 1.0, bytes, TEXT_BYTES - 1, &mut length), 4);
        assert_eq!(raw::olv_millimetres_text(2, 0.01, bytes, TEXT_BYTES, &mut length), 8);
    }
    assert_eq!((out, length, text), (7.0, 7, [7; TEXT_BYTES]));
}
