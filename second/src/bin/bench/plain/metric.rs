//! What the second phase of 002 asks of a measure.

pub trait Metric {
    /// f(x, i), with the value of column i.
    fn f(x: i32, i: i32, value: i32) -> i32;

    /// Sep(i, u), with the values of the two columns. Scan 3 asks only where the answer is not
    /// negative, so that rounding towards zero is the floor.
    fn sep(i: i32, u: i32, at_i: i32, at_u: i32) -> i32;
}

/// Kind 0 over the values as they are: 001's parabolas.
pub struct Parabola;

impl Metric for Parabola {
    fn f(x: i32, i: i32, value: i32) -> i32 {
        (x - i) * (x - i) + value
    }

    fn sep(i: i32, u: i32, at_i: i32, at_u: i32) -> i32 {
        (u * u - i * i + at_u - at_i) / (2 * (u - i))
    }
}

/// Kind 0 over G, squared wherever it is asked for, as 002 prints it.
pub struct Euclid;

impl Metric for Euclid {
    fn f(x: i32, i: i32, g: i32) -> i32 {
        Parabola::f(x, i, g * g)
    }

    fn sep(i: i32, u: i32, gi: i32, gu: i32) -> i32 {
        Parabola::sep(i, u, gi * gi, gu * gu)
    }
}

/// Kind 1, over G and over costs.
pub struct Manhattan;

/// 002's ∞, with room for the 1 that scan 3 adds.
const INFINITY: i32 = i32::MAX - 1;

impl Metric for Manhattan {
    fn f(x: i32, i: i32, value: i32) -> i32 {
        (x - i).abs() + value
    }

    fn sep(i: i32, u: i32, at_i: i32, at_u: i32) -> i32 {
        if at_u >= at_i + u - i {
            INFINITY
        } else if at_i > at_u + u - i {
            -INFINITY
        } else {
            // The printed h is u.
            (at_u - at_i + u + i) / 2
        }
    }
}

/// Kind 2, over G.
pub struct Chessboard;

impl Metric for Chessboard {
    fn f(x: i32, i: i32, g: i32) -> i32 {
        (x - i).abs().max(g)
    }

    fn sep(i: i32, u: i32, gi: i32, gu: i32) -> i32 {
        if gi <= gu {
            (i + gu).max((i + u) / 2)
        } else {
            (u - gi).min((i + u) / 2)
        }
    }
}
