//! PCG XSH RR 64/32 on stream 54 (O'Neill 2014).

const MULTIPLIER: u64 = 6_364_136_223_846_793_005;
const INCREMENT: u64 = 54 << 1 | 1;

pub struct Generator(u64);

impl Generator {
    pub fn new(seed: u64) -> Generator {
        let mut generator = Generator(seed.wrapping_add(INCREMENT));
        generator.word();
        generator
    }

    pub fn word(&mut self) -> u32 {
        let old = self.0;
        self.0 = old.wrapping_mul(MULTIPLIER).wrapping_add(INCREMENT);
        ((((old >> 18) ^ old) >> 27) as u32).rotate_right((old >> 59) as u32)
    }
}
