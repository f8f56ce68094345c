//! Chance that depends on a seed alone.

/// A small generator of numbers that depend on the seed alone.
pub struct Chance(u64);

impl Chance {
    pub fn of_case(seed: u64, number: u64) -> Self {
        let mut chance = Chance(seed ^ 0x6A09_E667_F3BC_C908);
        chance.0 = chance.word() ^ number;
        chance.0 = chance.word();
        chance
    }

    pub fn word(&mut self) -> u64 {
        self.0 = self.0.wrapping_add(0x9E37_79B9_7F4A_7C15);
        let mut x = self.0;
        x = (x ^ (x >> 30)).wrapping_mul(0xBF58_476D_1CE4_E5B9);
        x = (x ^ (x >> 27)).wrapping_mul(0x94D0_49BB_1331_11EB);
        x ^ (x >> 31)
    }

    /// A number below `most`.
    pub fn below(&mut self, most: usize) -> usize {
        ((u128::from(self.word()) * most as u128) >> 64) as usize
    }

    /// A number from `least` to `most`, both included.
    pub fn from(&mut self, least: usize, most: usize) -> usize {
        least + self.below(most - least + 1)
    }

    pub fn percent(&mut self, part: usize) -> bool {
        self.below(100) < part
    }

    pub fn byte(&mut self) -> u8 {
        self.word() as u8
    }

    pub fn pick<T: Copy>(&mut self, of: &[T]) -> T {
        of[self.below(of.len())]
    }

    /// Two digits for each of `count` bytes.
    pub fn digits(&mut self, count: usize) -> String {
        (0..count).map(|_| format!("{:02X}", self.byte())).collect()
    }

    /// Marks for a losing line.
    pub fn marks(&mut self) -> [u8; 64] {
        let mix: &[u8] = match self.below(10) {
            0 => b"P",
            1 => b"U",
            2 => b"H",
            3 => b"UH",
            4 => b"PU",
            5 => b"PH",
            6 => b"PUH",
            7 => b"PUUUUUUU",
            8 => b"PHHHHHHH",
            _ => b"PPPPPPPPPPPPPPUH",
        };
        let mut marks = [0; 64];
        for mark in &mut marks {
            *mark = self.pick(mix);
        }
        // Sometimes only the rotation gets an answer back.
        if self.percent(15) {
            marks[self.pick(&[0, 1, 31, 62, 63])] = self.pick(b"PUH");
        }
        marks
    }

    /// A byte for a toggle: right, wrong or near.
    pub fn toggle_byte(&mut self) -> u8 {
        let any = self.byte();
        self.pick(&[
            0x00, 0x00, 0x00, 0x01, 0x01, 0x02, 0x7F, 0x80, 0xFE, 0xFF, any,
        ])
    }

    /// A count that a line may begin with.
    pub fn count(&mut self) -> u32 {
        let any = self.word() as u32;
        self.pick(&[
            0,
            0,
            1,
            9,
            10,
            99,
            2_147_483_647,
            2_147_483_648,
            4_294_967_294,
            u32::MAX,
            u32::MAX,
            any,
        ])
    }

    /// A lawful size of memory.
    pub fn size(&mut self) -> usize {
        let any = self.from(256, 32_768);
        let small = self.from(256, 1024);
        self.pick(&[
            256, 256, 256, 257, 257, 258, 300, 511, 512, 1000, small, small, small, 4095, 4096,
            4097, any, 32_766, 32_767, 32_768,
        ])
    }
}
