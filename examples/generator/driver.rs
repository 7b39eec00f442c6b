//! A driver that fills a command buffer: commands, and what a game's calls leave of them.

/// Numbers that look random and are the same in every run (splitmix64).
pub struct Random(u64);

impl Random {
    pub fn word(&mut self) -> u32 {
        self.0 = self.0.wrapping_add(0x9E37_79B9_7F4A_7C15);
        let mut mixed = self.0;
        mixed = (mixed ^ (mixed >> 30)).wrapping_mul(0xBF58_476D_1CE4_E5B9);
        mixed = (mixed ^ (mixed >> 27)).wrapping_mul(0x94D0_49BB_1331_11EB);
        ((mixed ^ (mixed >> 31)) >> 32) as u32
    }

    /// 0 up to, not including, `limit`.
    pub fn below(&mut self, limit: u32) -> u32 {
        ((u64::from(self.word()) * u64::from(limit)) >> 32) as u32
    }

    /// -1 up to 1, in steps that every float holds exactly.
    pub fn unit(&mut self) -> f32 {
        (self.below(2001) as f32 - 1000.0) / 1024.0
    }
}

/// 1 sign bit, 7 of exponent, 16 of mantissa.
pub fn float24(x: f32) -> u32 {
    let bits = x.to_bits();
    if bits << 1 == 0 {
        return 0;
    }
    bits >> 31 << 23 | ((bits >> 23 & 0xFF) - 64) << 16 | bits >> 7 & 0xFFFF
}

/// 1 sign bit, 7 of exponent, 23 of mantissa, above one bit that isn't used.
pub fn float31(x: f32) -> u32 {
    let bits = x.to_bits();
    (bits >> 31 << 30 | ((bits >> 23 & 0xFF) - 64) << 23 | bits & 0x7F_FFFF) << 1
}

/// A command buffer.
pub struct Driver {
    pub words: Vec<u32>,
    pub random: Random,
    /// What the driver leaves in a padding word: nothing, or what the buffer held before.
    pub stale: bool,
}

impl Driver {
    pub fn new(seed: u64) -> Driver {
        Driver {
            words: Vec::new(),
            random: Random(seed),
            stale: false,
        }
    }

    fn command(&mut self, id: u32, mask: u32, rises: bool, values: &[u32]) {
        let extra = values.len() as u32 - 1;
        self.words.push(values[0]);
        self.words
            .push(id | mask << 16 | extra << 20 | u32::from(rises) << 31);
        self.words.extend_from_slice(&values[1..]);
        if self.words.len() % 2 == 1 {
            let padding = if self.stale { self.random.word() } else { 0 };
            self.words.push(padding);
        }
    }

    /// One write.
    pub fn set(&mut self, id: u32, value: u32) {
        self.command(id, 15, false, &[value]);
    }

    /// One write of some bytes.
    pub fn set_bytes(&mut self, id: u32, mask: u32, value: u32) {
        self.command(id, mask, false, &[value]);
    }

    /// Rising ids, a command each, where one would do.
    pub fn each(&mut self, id: u32, values: &[u32]) {
        for (id, &value) in (id..).zip(values) {
            self.set(id, value);
        }
    }

    /// Rising ids in one command.
    pub fn block(&mut self, id: u32, values: &[u32]) {
        self.command(id, 15, true, values);
    }

    /// All to one id, so many in a command.
    pub fn feed(&mut self, id: u32, values: &[u32], piece: usize) {
        for part in values.chunks(piece) {
            self.command(id, 15, false, part);
        }
    }

    /// Half the viewport's width and height, their inverses, and its corner.
    pub fn viewport(&mut self, width: f32, height: f32) {
        let (w, h) = (width / 2.0, height / 2.0);
        self.each(
            0x41,
            &[float24(w), float31(1.0 / w), float24(h), float31(1.0 / h)],
        );
        self.set(0x68, 0);
    }

    /// Where colour and depth are, their formats, and what may be read and written.
    pub fn framebuffer(&mut self, width: u32, height: u32) {
        self.set(0x111, 1);
        self.set(0x110, 1);
        self.block(
            0x11C,
            &[
                0x0300_0000,
                0x0300_BB80,
                0x0100_0000 | (height - 1) << 12 | width,
            ],
        );
        self.set(0x6E, 0x0100_0000 | (height - 1) << 12 | width);
        self.each(0x112, &[0xF, 0xF, 3, 3, 3, 2]);
        self.set(0x11B, 0);
    }

    /// A stage of the colour combiner: source, operand, combiner, colour, scale.
    pub fn stage(&mut self, number: usize, source: u32, combiner: u32, colour: u32) {
        let first = [0xC0, 0xC8, 0xD0, 0xD8, 0xF0, 0xF8][number];
        self.each(first, &[source, 0, combiner, colour, 0]);
    }

    /// Stages that hand on what they see, from this one on.
    pub fn idle_stages(&mut self, from: usize) {
        for number in from..6 {
            self.stage(number, 0x000F_000F, 0, 0xFFFF_FFFF);
        }
    }

    /// 100 to 107: logic operation copy, a stencil that always passes, and these alpha and depth tests.
    pub fn tests(&mut self, alpha: u32, depth: u32) {
        self.each(
            0x100,
            &[0x00E4_0000, 0x0101_0000, 3, 0, alpha, 0xFF00_0010, 0, depth],
        );
        self.each(0x112, &[0xF, 0xF, 3, 3]);
    }

    /// A texture for unit 0: border, size, parameters, detail, address, format.
    pub fn texture(&mut self, width: u32, height: u32) {
        let address = 0x0400_0000 | self.random.below(0x1_0000) << 4;
        self.each(
            0x81,
            &[0xFF00_0000, width << 16 | height, 0x1006, 0, address],
        );
        let format = self.random.below(14);
        self.set(0x8E, format);
        self.set_bytes(0x80, 3, 0x0001_1001);
    }

    /// A shader's code and operand descriptions, in pieces.
    pub fn shader(&mut self, code: usize, piece: usize) {
        let words: Vec<u32> = (0..code).map(|_| self.random.word()).collect();
        self.set(0x2CB, 0);
        self.feed(0x2CC, &words, piece);
        self.set(0x2BF, 1);
        let descriptions: Vec<u32> = (0..24).map(|_| self.random.below(1 << 31)).collect();
        self.set(0x2D5, 0);
        self.feed(0x2D6, &descriptions, piece);
        self.set(0x2BA, 0x7FFF_0000);
        self.each(0x2BB, &[0x7654_3210, 0xFEDC_BA98, 0x1F]);
        self.set_bytes(0x2B9, 0xB, 0xA000_0003);
        self.set(0x242, 3);
        self.each(0x4F, &[3, 0x0302_0100, 0x0B0A_0908, 0x1F1F_0D0C]);
    }

    /// Vertex buffers: where they are, their formats, and three of them.
    pub fn vertices(&mut self) {
        self.block(0x200, &[0x0300_0000, 0x0000_05BB, 0x2FF8_0000]);
        for buffer in 0..3 {
            let offset = self.random.below(0x100_0000) & !3;
            self.each(0x203 + 3 * buffer, &[offset, 0x0000_0210, 0x3020_0000]);
        }
    }

    /// Rows of four floats for the vertex shader, the last of a row first.
    pub fn uniforms(&mut self, first: u32, rows: usize, piece: usize) {
        let words: Vec<u32> = (0..4 * rows)
            .map(|_| self.random.unit().to_bits())
            .collect();
        self.set(0x2C0, 0x8000_0000 | first);
        self.feed(0x2C1, &words, piece);
    }

    /// Triangles by an index buffer.
    pub fn draw(&mut self, count: u32) {
        self.set_bytes(0x25E, 2, 0);
        self.set(0x25F, 1);
        let indices = self.random.below(0x10_0000);
        self.set(0x227, 0x8000_0000 | indices);
        self.set(0x228, count);
        self.set_bytes(0x229, 2, 0x100);
        self.set_bytes(0x253, 2, 0x100);
        self.set_bytes(0x245, 1, 0);
        self.set(0x22F, 1);
        self.set_bytes(0x245, 1, 1);
        self.set_bytes(0x229, 2, 0);
        self.set_bytes(0x253, 2, 0);
        self.set(0x231, 1);
    }

    /// What is drawn goes to memory.
    pub fn flush(&mut self) {
        self.set(0x111, 1);
        self.set(0x110, 1);
    }

    /// The command that a buffer ends with.
    pub fn finish(&mut self) {
        self.set(0x10, 0x1234_5678);
    }

    /// The end of a buffer, whose size is a multiple of 16 bytes: the chip never comes to an odd last pair. Where one is missing it stands
    /// before the last command, as zeros.
    pub fn end(mut self) -> Vec<u32> {
        self.flush();
        if self.words.len() % 4 == 0 {
            self.words.extend([0, 0]);
        }
        self.finish();
        self.words
    }
}
