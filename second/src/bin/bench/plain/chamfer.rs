//! 003's two scans. Its indices run from 1, so that the neighbours of a cell on the edge lie in a
//! frame around the board, which stands at ∞.

/// 003's ∞, with room for a weight that a scan adds.
const INFINITY: u32 = u32::MAX / 2;

/// A board with its frame.
pub struct Framed {
    m: usize,
    n: usize,
    b: Vec<u32>,
}

impl Framed {
    pub fn new(m: usize, n: usize) -> Framed {
        Framed { m, n, b: vec![INFINITY; (m + 2) * (n + 2)] }
    }

    /// The chamfer map of a picture.
    pub fn map(&mut self, picture: &[u8], d1: u32, d2: u32, distances: &mut [u32]) {
        self.begin(picture);
        self.forward(d1, d2);
        self.backward(d1, d2);
        for (row, y) in distances.chunks_mut(self.m).zip(1..) {
            row.copy_from_slice(&self.b[y * (self.m + 2) + 1..][..self.m]);
        }
    }

    fn begin(&mut self, picture: &[u8]) {
        self.b.fill(INFINITY);
        for i in 1..=self.n {
            for j in 1..=self.m {
                if picture[(i - 1) * self.m + j - 1] == 1 {
                    self.b[i * (self.m + 2) + j] = 0;
                }
            }
        }
    }

    fn forward(&mut self, d1: u32, d2: u32) {
        let (wide, b) = (self.m + 2, &mut self.b);
        for i in 1..=self.n {
            for j in 1..=self.m {
                let at = i * wide + j;
                b[at] = (b[at - wide - 1] + d2)
                    .min(b[at - wide] + d1)
                    .min(b[at - wide + 1] + d2)
                    .min(b[at - 1] + d1)
                    .min(b[at]);
            }
        }
    }

    fn backward(&mut self, d1: u32, d2: u32) {
        let (wide, b) = (self.m + 2, &mut self.b);
        for i in (1..=self.n).rev() {
            for j in (1..=self.m).rev() {
                let at = i * wide + j;
                b[at] = b[at]
                    .min(b[at + 1] + d1)
                    .min(b[at + wide - 1] + d2)
                    .min(b[at + wide] + d1)
                    .min(b[at + wide + 1] + d2);
            }
        }
    }
}
