//! A small generator of pseudo-random numbers, so that every run makes the same cases.

pub struct Random(pub u64);

impl Random {
    pub fn next(&mut self) -> u64 {
        // splitmix64
        self.0 = self.0.wrapping_add(0x9e37_79b9_7f4a_7c15);
        let mut z = self.0;
        z = (z ^ (z >> 30)).wrapping_mul(0xbf58_476d_1ce4_e5b9);
        z = (z ^ (z >> 27)).wrapping_mul(0x94d0_49bb_1331_11eb);
        z ^ (z >> 31)
    }

    pub fn below(&mut self, n: usize) -> usize {
        (self.next() % n as u64) as usize
    }

    pub fn pick<'a, T>(&mut self, xs: &'a [T]) -> &'a T {
        &xs[self.below(xs.len())]
    }

    pub fn shuffle<T>(&mut self, xs: &mut [T]) {
        for i in (1..xs.len()).rev() {
            xs.swap(i, self.below(i + 1));
        }
    }

    /// A text with a few bytes changed or added, from among these, or dropped.
    pub fn damaged(&mut self, text: &[u8], bytes: &[u8]) -> Vec<u8> {
        let mut t = text.to_vec();
        for _ in 0..1 + self.below(2) {
            let b = *self.pick(bytes);
            match self.below(3) {
                0 if !t.is_empty() => {
                    let i = self.below(t.len());
                    t[i] = b;
                }
                1 if !t.is_empty() => {
                    t.remove(self.below(t.len()));
                }
                _ => t.insert(self.below(t.len() + 1), b),
            }
        }
        t
    }
}
