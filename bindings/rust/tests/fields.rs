//! Each decoded field against the bits of its register: a state that holds nothing but one field decodes to settings with
//! nothing but that field, at its place in the flat order. The rows below are those of the field table, ids ascending and then
//! lowest bit first; the crate's own list is not used.

use pica::{Refusal, Settings, State, FIELDS_LENGTH};

struct Row {
    set: fn(&mut Settings, u32),
    id: u32,
    first: u32,
    last: u32,
}

impl Row {
    fn width(&self) -> u32 {
        self.last - self.first + 1
    }

    /// Every value of a narrow field, as many of its codes have no name; each bit by itself, and all of them, of a wide one.
    fn values(&self) -> Vec<u32> {
        let all = u32::MAX >> (32 - self.width());
        if self.width() <= 4 {
            return (1..=all).collect();
        }
        (0..self.width()).map(|k| 1 << k).chain([all]).collect()
    }

    /// The word that the field has in the flat order: only those of 68 have a sign.
    fn word(&self, value: u32) -> u32 {
        if self.id == 0x68 && value >= 0x200 {
            value.wrapping_sub(0x400)
        } else {
            value
        }
    }
}

/// `id first-last path` for each field.
macro_rules! rows {
    ($($id:expr, $first:literal - $last:literal, $($path:ident).+;)*) => {
        vec![$(Row { set: |s, word| s.$($path).+ = word as _, id: $id, first: $first, last: $last }),*]
    };
}

macro_rules! stage {
    ($base:expr, $stage:ident) => {
        rows! {
            $base, 0-3, stages.$stage.source.rgb0;
            $base, 4-7, stages.$stage.source.rgb1;
            $base, 8-11, stages.$stage.source.rgb2;
            $base, 16-19, stages.$stage.source.alpha0;
            $base, 20-23, stages.$stage.source.alpha1;
            $base, 24-27, stages.$stage.source.alpha2;
            $base + 1, 0-3, stages.$stage.operand.rgb0;
            $base + 1, 4-7, stages.$stage.operand.rgb1;
            $base + 1, 8-11, stages.$stage.operand.rgb2;
            $base + 1, 12-14, stages.$stage.operand.alpha0;
            $base + 1, 16-18, stages.$stage.operand.alpha1;
            $base + 1, 20-22, stages.$stage.operand.alpha2;
            $base + 2, 0-3, stages.$stage.combiner.rgb;
            $base + 2, 16-19, stages.$stage.combiner.alpha;
            $base + 3, 0-7, stages.$stage.colour.red;
            $base + 3, 8-15, stages.$stage.colour.green;
            $base + 3, 16-23, stages.$stage.colour.blue;
            $base + 3, 24-31, stages.$stage.colour.alpha;
            $base + 4, 0-1, stages.$stage.scale.rgb;
            $base + 4, 16-17, stages.$stage.scale.alpha;
        }
    };
}

fn rasteriser() -> Vec<Row> {
    rows! {
        0x40, 0-1, rasteriser.culling;
        0x41, 0-23, rasteriser.viewport.width;
        0x42, 0-31, rasteriser.viewport.invw;
        0x43, 0-23, rasteriser.viewport.height;
        0x44, 0-31, rasteriser.viewport.invh;
        0x47, 0-0, rasteriser.clip.enable;
        0x48, 0-23, rasteriser.clip.data0;
        0x49, 0-23, rasteriser.clip.data1;
        0x4A, 0-23, rasteriser.clip.data2;
        0x4B, 0-23, rasteriser.clip.data3;
        0x4D, 0-23, rasteriser.depthmap.scale;
        0x4E, 0-23, rasteriser.depthmap.offset;
        0x65, 0-1, rasteriser.scissor.mode;
        0x66, 0-9, rasteriser.scissor.pos.x;
        0x66, 16-25, rasteriser.scissor.pos.y;
        0x67, 0-9, rasteriser.scissor.dim.x;
        0x67, 16-25, rasteriser.scissor.dim.y;
        0x68, 0-9, rasteriser.viewport.xy.x;
        0x68, 16-25, rasteriser.viewport.xy.y;
        0x6D, 0-0, rasteriser.depthmap.enable;
    }
}

fn buffer_fog() -> Vec<Row> {
    rows! {
        0xE0, 0-2, buffer_fog.update.fog_mode;
        0xE0, 3-3, buffer_fog.update.density_source;
        0xE0, 8-8, buffer_fog.update.rgb1;
        0xE0, 9-9, buffer_fog.update.rgb2;
        0xE0, 10-10, buffer_fog.update.rgb3;
        0xE0, 11-11, buffer_fog.update.rgb4;
        0xE0, 12-12, buffer_fog.update.alpha1;
        0xE0, 13-13, buffer_fog.update.alpha2;
        0xE0, 14-14, buffer_fog.update.alpha3;
        0xE0, 15-15, buffer_fog.update.alpha4;
        0xE0, 16-16, buffer_fog.update.z_flip;
        0xE0, 24-25, buffer_fog.update.unknown;
        0xE1, 0-7, buffer_fog.fog_colour.red;
        0xE1, 8-15, buffer_fog.fog_colour.green;
        0xE1, 16-23, buffer_fog.fog_colour.blue;
        0xE6, 0-6, buffer_fog.fog_index;
    }
}

fn blending() -> Vec<Row> {
    rows! {
        0xFD, 0-7, buffer_fog.buffer_colour.red;
        0xFD, 8-15, buffer_fog.buffer_colour.green;
        0xFD, 16-23, buffer_fog.buffer_colour.blue;
        0xFD, 24-31, buffer_fog.buffer_colour.alpha;
        0x100, 0-1, framebuffer.blending.operation.mode;
        0x100, 8-8, framebuffer.blending.operation.blend;
        0x100, 24-24, framebuffer.blending.operation.second_lines;
        0x100, 25-25, framebuffer.blending.operation.nothing;
        0x101, 0-2, framebuffer.blending.function.rgb_equation;
        0x101, 8-10, framebuffer.blending.function.alpha_equation;
        0x101, 16-19, framebuffer.blending.function.rgb_source;
        0x101, 20-23, framebuffer.blending.function.rgb_destination;
        0x101, 24-27, framebuffer.blending.function.alpha_source;
        0x101, 28-31, framebuffer.blending.function.alpha_destination;
        0x102, 0-3, framebuffer.blending.logic_op;
        0x103, 0-7, framebuffer.blending.colour.red;
        0x103, 8-15, framebuffer.blending.colour.green;
        0x103, 16-23, framebuffer.blending.colour.blue;
        0x103, 24-31, framebuffer.blending.colour.alpha;
    }
}

fn tests() -> Vec<Row> {
    rows! {
        0x104, 0-0, framebuffer.tests.alpha.enable;
        0x104, 4-6, framebuffer.tests.alpha.function;
        0x104, 8-15, framebuffer.tests.alpha.reference;
        0x105, 0-0, framebuffer.tests.stencil.enable;
        0x105, 4-6, framebuffer.tests.stencil.function;
        0x105, 8-15, framebuffer.tests.stencil.buffer_mask;
        0x105, 16-23, framebuffer.tests.stencil.reference;
        0x105, 24-31, framebuffer.tests.stencil.mask;
        0x106, 0-2, framebuffer.tests.stencil_op.fail;
        0x106, 4-6, framebuffer.tests.stencil_op.z_fail;
        0x106, 8-10, framebuffer.tests.stencil_op.z_pass;
        0x107, 0-0, framebuffer.tests.depth.enable;
        0x107, 4-6, framebuffer.tests.depth.function;
        0x107, 8-8, framebuffer.tests.depth.red;
        0x107, 9-9, framebuffer.tests.depth.green;
        0x107, 10-10, framebuffer.tests.depth.blue;
        0x107, 11-11, framebuffer.tests.depth.alpha;
        0x107, 12-12, framebuffer.tests.depth.depth;
    }
}

fn buffers() -> Vec<Row> {
    rows! {
        0x112, 0-3, framebuffer.buffers.colour_reading;
        0x113, 0-3, framebuffer.buffers.colour_writing;
        0x114, 0-0, framebuffer.buffers.depth_reading.stencil;
        0x114, 1-1, framebuffer.buffers.depth_reading.depth;
        0x115, 0-0, framebuffer.buffers.depth_writing.stencil;
        0x115, 1-1, framebuffer.buffers.depth_writing.depth;
        0x116, 0-1, framebuffer.buffers.depth_format;
        0x117, 0-1, framebuffer.buffers.colour_format.size;
        0x117, 16-18, framebuffer.buffers.colour_format.format;
        0x1C5, 0-7, light_port.index;
        0x1C5, 8-12, light_port.table;
    }
}

fn field_table() -> Vec<Row> {
    let parts = [
        rasteriser(),
        stage!(0xC0, stage0),
        stage!(0xC8, stage1),
        stage!(0xD0, stage2),
        stage!(0xD8, stage3),
        buffer_fog(),
        stage!(0xF0, stage4),
        stage!(0xF8, stage5),
        blending(),
        tests(),
        buffers(),
    ];
    parts.into_iter().flatten().collect()
}

/// Whether the state that holds this value in this field alone decodes; if it does, it must be to that field alone.
fn decodes_to_itself(at: usize, row: &Row, value: u32) -> bool {
    let mut state = State::default();
    state.write(row.id, 15, value << row.first).unwrap();
    let settings = match state.decode() {
        Ok(settings) => settings,
        Err(refusal) => {
            let (number, place) = (Refusal::CODE_WITHOUT_NAME, row.id);
            assert_eq!(refusal, Refusal { number, place });
            return false;
        }
    };
    let mut expected = Settings::default();
    (row.set)(&mut expected, row.word(value));
    assert_eq!(settings, expected, "{:03X} {}", row.id, row.first);
    let mut flat = [0; FIELDS_LENGTH];
    flat[at] = row.word(value);
    assert_eq!(settings.flat(), flat, "{:03X} {}", row.id, row.first);
    true
}

#[test]
fn each_field_is_the_number_that_its_bits_hold() {
    let table = field_table();
    assert_eq!(table.len(), FIELDS_LENGTH);
    for (at, row) in table.iter().enumerate() {
        let named = row
            .values()
            .into_iter()
            .filter(|&value| decodes_to_itself(at, row, value));
        assert!(named.count() > 0, "{:03X} {}", row.id, row.first);
    }
}

/// The codes without a name, of one register of each kind.
#[test]
fn codes_without_a_name() {
    let named = |id: u32, value: u32| {
        let mut state = State::default();
        state.write(id, 15, value).unwrap();
        state.decode().is_ok()
    };
    let codes = |id: u32, last: u32| -> Vec<u32> {
        (0..=last).filter(|&value| !named(id, value)).collect()
    };
    assert_eq!(codes(0xC0, 15), [7, 8, 9, 10, 11, 12]);
    assert_eq!(codes(0xC9, 15), [6, 7, 10, 11, 14, 15]);
    assert_eq!(codes(0xD2, 15), [10, 11, 12, 13, 14, 15]);
    assert_eq!(codes(0xDC, 3), [3]);
    assert_eq!(codes(0xE0, 7), [1, 2, 3, 4, 6]);
    assert_eq!(codes(0x100, 3), [2]);
    assert_eq!(codes(0x116, 3), [1]);
    assert_eq!(codes(0x117, 3), [1, 3]);
    let alpha_modes = |rgb: u32| -> Vec<u32> {
        (0..16)
            .filter(|alpha| !named(0xF2, rgb | alpha << 16))
            .collect()
    };
    assert_eq!(alpha_modes(6), [6, 7, 10, 11, 12, 13, 14, 15]);
    assert_eq!(alpha_modes(7), [10, 11, 12, 13, 14, 15]);
}
