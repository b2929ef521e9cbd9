//! 002's second phase on one line of values, which for costs is a column first and then a row.

use super::metric::Metric;

/// The arrays of the two scans: the index of each region's curve, and where the region begins.
pub struct Line {
    s: Vec<i32>,
    t: Vec<i32>,
}

impl Line {
    pub fn new(longest: usize) -> Line {
        Line { s: vec![0; longest], t: vec![0; longest] }
    }

    /// Hands out each place of the line with the index of the lowest curve there and its height.
    pub fn lowest<M: Metric>(&mut self, values: &[i32], put: impl FnMut(usize, usize, i32)) {
        let q = self.scan_3::<M>(values);
        self.scan_4::<M>(values, q, put);
    }

    fn scan_3<M: Metric>(&mut self, values: &[i32]) -> usize {
        let m = values.len() as i32;
        let f = |x: i32, i: i32| M::f(x, i, values[i as usize]);
        let (s, t) = (&mut self.s, &mut self.t);
        let mut q = 0;
        (s[0], t[0]) = (0, 0);
        for u in 1..m {
            while q >= 0 && f(t[q as usize], s[q as usize]) > f(t[q as usize], u) {
                q -= 1;
            }
            if q < 0 {
                q = 0;
                s[0] = u;
            } else {
                let i = s[q as usize];
                let w = 1 + M::sep(i, u, values[i as usize], values[u as usize]);
                if w < m {
                    q += 1;
                    (s[q as usize], t[q as usize]) = (u, w);
                }
            }
        }
        q as usize
    }

    fn scan_4<M: Metric>(
        &self,
        values: &[i32],
        mut q: usize,
        mut put: impl FnMut(usize, usize, i32),
    ) {
        for u in (0..values.len()).rev() {
            let i = self.s[q] as usize;
            put(u, i, M::f(u as i32, i as i32, values[i]));
            if u as i32 == self.t[q] {
                q = q.saturating_sub(1);
            }
        }
    }
}
