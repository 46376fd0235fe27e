//! The register's clock with all cells 0 and nothing inverted: of many words at once, by up to eight clocks at once, and its powers.

use crate::same::set::Read;

/// A register's clock.
#[derive(Clone, Copy)]
pub struct Clock {
    pub m: u64,
    /// The tap word with bit m, which takes away the bit that a shift puts there; at m 64 it is shifted out.
    taps: u64,
}

impl Clock {
    pub fn of(read: Read) -> Clock {
        let top = if read.m < 64 { 1 << read.m } else { 0 };
        Clock {
            m: read.m,
            taps: read.taps | top,
        }
    }

    pub fn next(self, w: u64) -> u64 {
        w << 1 ^ ((w >> (self.m - 1)).wrapping_neg() & self.taps)
    }

    pub fn advance(self, words: &mut [u64]) {
        for w in words {
            *w = self.next(*w);
        }
    }
}

/// Up to eight clocks at once, for m 8 and more: entry x is what the bits x, shifted out at the top by as many clocks as they are, give
/// back, together with these bits where they stand after the shift. So one table is right for any number of clocks.
pub struct Eight {
    m: u64,
    table: [u64; 256],
}

impl Eight {
    pub fn of(clock: Clock) -> Eight {
        let mut table = [0; 256];
        let mut bit = clock.taps;
        for k in 0..8 {
            for x in 0..1 << k {
                table[(1 << k) + x] = table[x] ^ bit;
            }
            // the bit above m moves on with the shift, and what comes back is that of a clock
            let back = bit & (u64::MAX >> (64 - clock.m));
            bit = match clock.m {
                64 => clock.next(back),
                m => clock.next(back) | 2 << k << m,
            };
        }
        Eight { m: clock.m, table }
    }

    /// Advances each word by eight clocks.
    pub fn advance(&self, words: &mut [u64]) {
        let shift = self.m - 8;
        for w in words {
            *w = *w << 8 ^ self.table[(*w >> shift) as usize % 256];
        }
    }

    /// A word some clocks later, at most 7.
    pub fn later(&self, w: u64, clocks: u64) -> u64 {
        let out = w >> (self.m - 1 - clocks) >> 1;
        w << clocks ^ self.table[out as usize % 256]
    }
}

/// Up to eight clocks undone at once: entry x is what x was eight clocks earlier.
pub struct EightBack {
    table: [u64; 256],
}

impl EightBack {
    pub fn of(read: Read) -> EightBack {
        let one = read.taps >> 1 ^ 1 << (read.m - 1);
        let before = |w: u64| w >> 1 ^ ((w & 1).wrapping_neg() & one);
        let mut table = [0; 256];
        for k in 0..8 {
            let bit = (0..8).fold(1 << k, |w, _| before(w));
            for x in 0..1 << k {
                table[(1 << k) + x] = table[x] ^ bit;
            }
        }
        EightBack { table }
    }

    /// Puts for each word what it was eight clocks earlier.
    pub fn unclock(&self, words: &mut [u64]) {
        for w in words {
            *w = *w >> 8 ^ self.table[*w as usize % 256];
        }
    }

    /// What a word was some clocks earlier, at most 7: its lowest bits, as many as the clocks, come to the top of a byte.
    pub fn earlier(&self, w: u64, clocks: u64) -> u64 {
        w >> clocks ^ self.table[(w << (8 - clocks)) as usize % 256]
    }
}

/// The powers of the register: the word 1 after 0, 1, 2 .. clocks, as many as were asked for so far. Bit i of a word, j clocks later, is bit
/// 0 after i + j clocks. Low and high halves stand apart, since plain x86-64 makes masks of 32 bits in fewer steps than of 64.
pub struct Powers {
    clock: Clock,
    made: usize,
    last: u64,
    low: [u32; 576],
    high: [u32; 576],
}

impl Powers {
    pub fn of(clock: Clock) -> Powers {
        let mut low = [0; 576];
        low[0] = 1;
        Powers {
            clock,
            made: 1,
            last: 1,
            low,
            high: [0; 576],
        }
    }

    /// Makes those that words up to so many clocks later need, at most 511.
    pub fn need(&mut self, clocks: usize) {
        let wanted = clocks + self.clock.m as usize;
        let both = self.low[..wanted].iter_mut().zip(&mut self.high);
        for (low, high) in both.skip(self.made) {
            self.last = self.clock.next(self.last);
            *low = self.last as u32;
            *high = (self.last >> 32) as u32;
        }
        self.made = self.made.max(wanted);
    }

    /// A word some clocks later, at most 511.
    pub fn later(&self, w: u64, clocks: usize) -> u64 {
        let low: &[u32; 64] = self.low[clocks..clocks + 64].try_into().unwrap();
        let high: &[u32; 64] = self.high[clocks..clocks + 64].try_into().unwrap();
        let mut sum = [0; 2];
        for (i, half) in [w as u32, (w >> 32) as u32].into_iter().enumerate() {
            for k in 0..32 {
                let mask = if half & 1 << k != 0 { u32::MAX } else { 0 };
                sum[0] ^= low[32 * i + k] & mask;
                sum[1] ^= high[32 * i + k] & mask;
            }
        }
        u64::from(sum[0]) | u64::from(sum[1]) << 32
    }
}
