//! The six combiner stages, per channel.

use super::bits;
use super::faults::*;
use super::names::STAGES;

/// Red, green, blue, alpha. Signed, since a step between may fall below 0.
pub type Colour = [i32; 4];

const ALPHA: usize = 3;

pub fn colour(word: u32) -> Colour {
    [0, 8, 16, 24].map(|low| bits(word, low, low + 7) as i32)
}

/// The registers of one stage.
struct Words {
    sources: u32,
    operands: u32,
    modes: u32,
    constant: Colour,
    scales: u32,
}

impl Words {
    fn of<const F: u32>(cells: &[u32], first: u32) -> Words {
        let cell = |offset: u32| cells[(first + offset) as usize];
        let constant = if F == CONSTANT_STAGE_0 {
            cells[0xC3]
        } else {
            cell(3)
        };
        Words {
            sources: cell(0),
            operands: cell(1),
            modes: cell(2),
            constant: colour(constant),
            scales: cell(4),
        }
    }
}

/// What one stage sees beside its own registers.
struct Seen<'a> {
    given: &'a [Colour; 7],
    previous: Colour,
    buffer: Colour,
}

fn source<const F: u32>(code: u32, seen: &Seen, constant: Colour) -> Colour {
    match code {
        0..=6 => seen.given[code as usize],
        0xD if F == SOURCES_SWAPPED => seen.previous,
        0xD => seen.buffer,
        0xE => constant,
        0xF if F == SOURCES_SWAPPED => seen.buffer,
        0xF => seen.previous,
        // Codes 7..Ch were refused.
        _ => [0; 4],
    }
}

fn rgb_operand<const F: u32>(code: u32, from: Colour, channel: usize) -> i32 {
    match code {
        0 => from[channel],
        1 => 255 - from[channel],
        2 if F == SOURCE_ALPHA_RGB => from[channel],
        2 => from[ALPHA],
        3 => 255 - from[ALPHA],
        4 => from[0],
        5 => 255 - from[0],
        8 => from[1],
        9 => 255 - from[1],
        0xC => from[2],
        0xD if F == ONE_MINUS_BLUE => from[2],
        0xD => 255 - from[2],
        // The other codes were refused.
        _ => 0,
    }
}

fn alpha_operand<const F: u32>(code: u32, from: Colour) -> i32 {
    match code {
        0 => from[ALPHA],
        1 => 255 - from[ALPHA],
        2 => from[0],
        3 => 255 - from[0],
        4 if F == ALPHA_OPERANDS_SWAPPED => from[2],
        4 => from[1],
        5 => 255 - from[1],
        6 if F == ALPHA_OPERANDS_SWAPPED => from[1],
        6 => from[2],
        _ => 255 - from[2],
    }
}

/// Division by 255, and what comes near it.
fn over_255<const F: u32>(n: i32) -> i32 {
    match F {
        DIVIDED_BY_256 => n / 256,
        DIVIDED_WITHOUT_1 => (n + n / 256) / 256,
        DIVIDED_WITH_2 => (n + 2 + n / 256) / 256,
        _ => n / 255,
    }
}

/// One channel of every mode but dot3.
fn combine<const F: u32>(mode: u32, [a, b, c]: [i32; 3]) -> i32 {
    match mode {
        0 => a,
        1 if F == MODULATE_ROUNDS => (a * b + 127) / 255,
        1 => over_255::<F>(a * b),
        2 => (a + b).min(255),
        3 if F == ADD_SIGNED_127 => (a + b - 127).clamp(0, 255),
        3 if F == ADD_SIGNED_WRAPS => (a + b - 128).min(255) & 0xFF,
        3 => (a + b - 128).clamp(0, 255),
        4 if F == INTERPOLATE_SIDES => (b * c + a * (255 - c)) / 255,
        4 if F == INTERPOLATE_ROUNDS => a * c / 255 + b * (255 - c) / 255,
        4 => over_255::<F>(a * c + b * (255 - c)),
        5 if F == SUBTRACT_ABSOLUTE => (a - b).abs(),
        5 => (a - b).max(0),
        8 if F == MULTIPLY_ADD_CUT => ((a * b + 255 * c) / 255) & 0xFF,
        8 => over_255::<F>(a * b + 255 * c).min(255),
        9 if F == ADD_MULTIPLY_SUM => (a + b) * c / 255,
        9 => over_255::<F>((a + b).min(255) * c),
        // Dot3 isn't made channel by channel; codes above 9 were refused.
        _ => 0,
    }
}

fn dot3<const F: u32>(operands: &[[i32; 3]; 3]) -> i32 {
    let mut sum = 0;
    for [a, b, _] in operands {
        sum += (2 * a - 255) * (2 * b - 255);
    }
    if sum < 0 && F != DOT3_ABSOLUTE {
        0
    } else {
        over_255::<F>(sum.abs()).min(255)
    }
}

fn scaled<const F: u32>(result: i32, scale: u32) -> i32 {
    let product = result << scale;
    if F == SCALE_WRAPS {
        product & 0xFF
    } else {
        product.min(255)
    }
}

/// The operands a, b, c of red, green and blue.
fn rgb_operands<const F: u32>(words: &Words, seen: &Seen) -> [[i32; 3]; 3] {
    [0, 1, 2].map(|channel| {
        [0, 4, 8].map(|low| {
            let from = source::<F>(bits(words.sources, low, low + 3), seen, words.constant);
            rgb_operand::<F>(bits(words.operands, low, low + 3), from, channel)
        })
    })
}

fn alpha_operands<const F: u32>(words: &Words, seen: &Seen) -> [i32; 3] {
    [0, 4, 8].map(|low| {
        let from = source::<F>(
            bits(words.sources, low + 16, low + 19),
            seen,
            words.constant,
        );
        alpha_operand::<F>(bits(words.operands, low + 12, low + 14), from)
    })
}

fn stage<const F: u32>(words: &Words, seen: &Seen) -> Colour {
    let rgb = rgb_operands::<F>(words, seen);
    let alpha = alpha_operands::<F>(words, seen);
    let (rgb_mode, alpha_mode) = (bits(words.modes, 0, 3), bits(words.modes, 16, 19));
    let (rgb_scale, mut alpha_scale) = (bits(words.scales, 0, 1), bits(words.scales, 16, 17));
    if F == SCALE_SHARED {
        alpha_scale = rgb_scale;
    }
    let dot = dot3::<F>(&rgb);
    let mut result = [0; 4];
    for channel in 0..3 {
        result[channel] = match rgb_mode {
            6 | 7 => scaled::<F>(dot, rgb_scale),
            _ => scaled::<F>(combine::<F>(rgb_mode, rgb[channel]), rgb_scale),
        };
    }
    result[ALPHA] = match rgb_mode {
        7 if F == DOT3_ALPHA_UNSCALED => dot,
        7 if F == DOT3_ALPHA_RGB_SCALE => scaled::<F>(scaled::<F>(dot, rgb_scale), alpha_scale),
        6 if F == DOT3_RGB_ALPHA => scaled::<F>(dot, alpha_scale),
        7 => scaled::<F>(dot, alpha_scale),
        _ => scaled::<F>(combine::<F>(alpha_mode, alpha), alpha_scale),
    };
    result
}

/// The buffer that stage k+1 sees, for k = 1..4.
fn next_buffer<const F: u32>(update: u32, k: u32, seen: &Seen, result: Colour) -> Colour {
    let (mut rgb, mut alpha) = (7 + k, 11 + k);
    if F == BUFFER_BIT {
        (rgb, alpha) = (8 + k, 12 + k);
    }
    if F == BUFFER_ALPHA_BIT {
        alpha = rgb;
    }
    let taken = if F == BUFFER_RESULT {
        result
    } else {
        seen.previous
    };
    let mut buffer = seen.buffer;
    if bits(update, rgb, rgb) == 1 {
        buffer[..ALPHA].copy_from_slice(&taken[..ALPHA]);
    }
    if bits(update, alpha, alpha) == 1 {
        buffer[ALPHA] = taken[ALPHA];
    }
    buffer
}

pub fn combiner<const F: u32>(cells: &[u32], given: &[Colour; 7]) -> Colour {
    let first_buffer = colour(cells[0xFD]);
    let mut seen = Seen {
        given,
        previous: [0; 4],
        buffer: first_buffer,
    };
    if F == STAGE_0_PREVIOUS {
        seen.previous = first_buffer;
    }
    for (k, first) in STAGES.into_iter().enumerate() {
        let result = stage::<F>(&Words::of::<F>(cells, first), &seen);
        if (1..=4).contains(&k) || (F == STAGE_1_BUFFER && k == 0) {
            // With the fault, stage 1 takes what stage 0 saw by stage 1's bit.
            let k = k.max(1) as u32;
            seen.buffer = next_buffer::<F>(cells[0xE0], k, &seen, result);
        }
        seen.previous = result;
    }
    seen.previous
}
