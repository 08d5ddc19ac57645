//! A small generator of our own (xorshift64*), so that a seed gives the same cases everywhere.

pub struct Random(u64);

impl Random {
    pub fn new(seed: u64) -> Random {
        // One step of splitmix64, so that near seeds differ; xorshift must not start at 0.
        let mut z = seed.wrapping_add(0x9E37_79B9_7F4A_7C15);
        z = (z ^ (z >> 30)).wrapping_mul(0xBF58_476D_1CE4_E5B9);
        z = (z ^ (z >> 27)).wrapping_mul(0x94D0_49BB_1331_11EB);
        Random((z ^ (z >> 31)) | 1)
    }

    pub fn next(&mut self) -> u64 {
        self.0 ^= self.0 >> 12;
        self.0 ^= self.0 << 25;
        self.0 ^= self.0 >> 27;
        self.0.wrapping_mul(0x2545_F491_4F6C_DD1D)
    }

    /// A number below `n`; `n` is at least 1.
    pub fn below(&mut self, n: usize) -> usize {
        ((self.next() >> 32) as usize) % n
    }

    pub fn chance(&mut self, percent: usize) -> bool {
        self.below(100) < percent
    }

    pub fn pick<'a, T>(&mut self, of: &'a [T]) -> &'a T {
        &of[self.below(of.len())]
    }

    pub fn choose<T: Copy>(&mut self, of: &[T]) -> T {
        of[self.below(of.len())]
    }

    pub fn shuffle<T>(&mut self, items: &mut [T]) {
        for at in (1..items.len()).rev() {
            items.swap(at, self.below(at + 1));
        }
    }
}

/// Damages a text by bytes: one changed, put in, taken out, doubled, or the end cut off.
pub fn damage_bytes(r: &mut Random, text: &[u8], alphabet: &[&[u8]]) -> Vec<u8> {
    let mut text = text.to_vec();
    let at = r.below(text.len() + 1);
    match r.below(8) {
        0 | 1 if at < text.len() => text[at] = r.choose(b"<>/&;\"= \t\n\r-_.,()[]{}0129aTtz\0\x1f\x7f\x80\xff"),
        2 if at < text.len() => text[at] = text[at].wrapping_add(1),
        3 if at < text.len() => {
            text.remove(at);
        }
        4 => text.truncate(at),
        5 => {
            let end = at + r.below(text.len() - at + 1).min(40);
            let part = text[at..end].to_vec();
            let to = r.below(text.len() + 1);
            text.splice(to..to, part);
        }
        6 => {
            let end = at + r.below(text.len() - at + 1).min(20);
            text.drain(at..end);
        }
        _ => {
            let part = r.pick(alphabet).to_vec();
            text.splice(at..at, part);
        }
    }
    text
}
