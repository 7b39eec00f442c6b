//! What was captured.

use crate::driver::{float24, Driver};

/// Each capture's file name and words.
pub fn captures() -> Vec<(&'static str, Vec<u32>)> {
    vec![
        ("01-boot.bin", boot()),
        ("02-title.bin", title()),
        ("03-menu.bin", menu()),
        ("04-field.bin", field()),
        ("05-battle.bin", battle()),
        ("06-hud.bin", hud()),
        ("07-models.bin", models()),
        ("08-blank.bin", vec![0; 256]),
        ("09-cutscene.bin", cutscene()),
        ("10-map.bin", map()),
        ("11-loading.bin", loading()),
        ("12-credits.bin", credits()),
        ("13-ending.bin", ending()),
    ]
}

/// The parts of a capture as a probe hands it over, cut where a reader that forgets would stumble: between a first parameter and its
/// header, a part of no words, within the fog's data, and before and after a padding word.
pub fn pieces() -> Vec<(&'static str, Vec<u32>)> {
    let list = field();
    let parts = [
        ("field-1.bin", 0..39),
        ("field-2.bin", 39..39),
        ("field-3.bin", 39..90),
        ("field-4.bin", 90..139),
        ("field-5.bin", 139..140),
        ("field-6.bin", 140..list.len()),
    ];
    parts.map(|(name, part)| (name, list[part].to_vec())).into()
}

/// Every register that a frame needs is set to what it begins with, one by one.
fn boot() -> Vec<u32> {
    let mut gpu = Driver::new(1);
    gpu.framebuffer(240, 400);
    gpu.viewport(240.0, 400.0);
    gpu.set(0x40, 0);
    gpu.each(0x47, &[0, 0, 0, 0, float24(1.0)]);
    gpu.each(0x4D, &[float24(-1.0), 0]);
    gpu.each(0x61, &[0, 0, 0]);
    gpu.each(0x65, &[0, 0, 0x018F_00EF]);
    gpu.set(0x6D, 1);
    gpu.idle_stages(0);
    gpu.set_bytes(0xE0, 2, 0);
    gpu.set_bytes(0xE0, 5, 0);
    gpu.set(0xFD, 0xFF00_0000);
    gpu.tests(0x10, 0x1F40);
    gpu.each(0x120, &[0, 0, 0, 0]);
    gpu.set(0x130, 0);
    gpu.each(0x2B0, &[0x7FFF_0000, 0, 0, 0, 0]);
    gpu.end()
}

/// A shader, and a logo of two textured triangles in front of black.
fn title() -> Vec<u32> {
    let mut gpu = Driver::new(2);
    gpu.framebuffer(240, 400);
    gpu.viewport(240.0, 400.0);
    gpu.shader(320, 32);
    gpu.vertices();
    gpu.texture(512, 256);
    gpu.stage(0, 0x0003_0003, 0x0001_0001, 0xFFFF_FFFF);
    gpu.idle_stages(1);
    gpu.tests(0x10, 0x0F10);
    for _ in 0..3 {
        gpu.uniforms(0, 8, 4);
        gpu.draw(6);
    }
    gpu.end()
}

/// A box for each of twenty entries, cut by the scissor test, in a colour of its own.
fn menu() -> Vec<u32> {
    let mut gpu = Driver::new(3);
    gpu.framebuffer(240, 320);
    gpu.viewport(240.0, 320.0);
    gpu.vertices();
    gpu.idle_stages(1);
    gpu.tests(0x10, 0x0F10);
    for entry in 0..20 {
        gpu.each(
            0x65,
            &[3, (12 * entry) << 16 | 8, (12 * entry + 10) << 16 | 231],
        );
        let colour = 0xFF00_0000 | gpu.random.below(0x100_0000);
        gpu.stage(0, 0x000E_000E, 0, colour);
        gpu.set_bytes(0xE0, 2, 0);
        gpu.uniforms(4, 1, 4);
        gpu.draw(6);
    }
    gpu.end()
}

/// A fog table of a straight fall, in pieces of 32 entries.
fn fog(gpu: &mut Driver) {
    let entries: Vec<u32> = (0..128).map(|k| (2047 - 16 * k) << 13 | 0x1FF0).collect();
    gpu.set(0xE1, 0x00C8_B4A0);
    gpu.set(0xE6, 0);
    gpu.feed(0xE8, &entries, 32);
    gpu.set_bytes(0xE0, 5, 0x0001_0005);
}

/// Ground, trees and houses in fog.
fn field() -> Vec<u32> {
    let mut gpu = Driver::new(4);
    gpu.framebuffer(240, 400);
    gpu.viewport(240.0, 400.0);
    fog(&mut gpu);
    gpu.shader(128, 64);
    gpu.stage(0, 0x0003_0003, 0x0001_0001, 0xFFFF_FFFF);
    gpu.idle_stages(1);
    gpu.set(0x40, 2);
    gpu.tests(0x8061, 0x1F41);
    for _ in 0..24 {
        gpu.vertices();
        let size = 64 << gpu.random.below(3);
        gpu.texture(size, size);
        gpu.uniforms(0, 4, 16);
        gpu.uniforms(8, 3, 4);
        let triangles = 40 + gpu.random.below(400);
        gpu.draw(3 * triangles);
    }
    gpu.end()
}

/// A light table that rises to full, in pieces of 64 entries.
fn light_table(gpu: &mut Driver, table: u32, slope: u32) {
    let value = |k: u32| (slope * k).min(0xFFF);
    let entries: Vec<u32> = (0..256)
        .map(|k| (value(k + 1) - value(k)) << 12 | value(k))
        .collect();
    gpu.set(0x1C5, table << 8);
    gpu.feed(0x1C8, &entries, 64);
}

/// One light: its colours, place and direction, and how it fades.
fn light(gpu: &mut Driver, number: u32) {
    let colours: Vec<u32> = (0..4).map(|_| gpu.random.below(1 << 30)).collect();
    let place: Vec<u32> = (0..4).map(|_| gpu.random.word() & 0x7FFF_7FFF).collect();
    let first = 0x140 + 0x10 * number;
    gpu.each(first, &colours);
    gpu.each(first + 4, &place);
    gpu.set(first + 9, 1);
    gpu.each(first + 0xA, &[0, float24(0.5)]);
}

/// Three lights, three tables, and fighters with bones.
fn battle() -> Vec<u32> {
    let mut gpu = Driver::new(5);
    gpu.framebuffer(240, 400);
    gpu.viewport(240.0, 400.0);
    for (table, slope) in [(0, 16), (1, 24), (4, 32)] {
        light_table(&mut gpu, table, slope);
    }
    (0..3).for_each(|number| light(&mut gpu, number));
    gpu.each(0x1C2, &[2, 0x8040_0000, 0x0000_0700]);
    gpu.each(0x1D0, &[0x0222_2222, 0, 0]);
    gpu.set(0x1D9, 0x0000_0210);
    gpu.stage(0, 0x0012_0012, 0x0002_0002, 0xFFFF_FFFF);
    gpu.stage(1, 0x00F3_00F3, 0x0001_0001, 0xFFFF_FFFF);
    gpu.idle_stages(2);
    gpu.tests(0x10, 0x1F41);
    for _ in 0..6 {
        gpu.vertices();
        gpu.texture(256, 256);
        gpu.uniforms(0, 36, 12);
        gpu.draw(1_200);
    }
    gpu.end()
}

/// Bars, icons and numbers: little is drawn and much is set, most of it as it was.
fn hud() -> Vec<u32> {
    let mut gpu = Driver::new(6);
    gpu.viewport(240.0, 400.0);
    for part in 0..60 {
        gpu.set_bytes(0x107, 1, 0x10);
        gpu.set_bytes(0x107, 2, 0x0F00);
        gpu.set_bytes(0xE0, 2, 0);
        gpu.set_bytes(0xE0, 5, 0);
        let colour = 0xFF00_0000 | gpu.random.below(8) * 0x20_4080;
        gpu.set(0xC3, colour);
        gpu.set(0x40, 0);
        gpu.set(0x40, 0);
        gpu.each(0x233, &[part << 16, part * 0x111, 0x3F00_0000]);
        gpu.set(0x228, 6);
        gpu.set(0x22E, 1);
    }
    gpu.end()
}

/// Thirty models by a driver that packs what it can: nothing is left to save.
fn models() -> Vec<u32> {
    let mut gpu = Driver::new(7);
    gpu.block(
        0x100,
        &[0x00E4_0000, 0x0101_0000, 3, 0, 0x10, 0xFF00_0010, 0, 0x1F41],
    );
    gpu.block(
        0x40,
        &[2, float24(120.0), 0x3811_1110, float24(200.0), 0x3747_AE14],
    );
    for _ in 0..30 {
        gpu.block(0x200, &[0x0300_0000, 0x0000_05BB, 0x2FF8_0000]);
        let rows: Vec<u32> = (0..16).map(|_| gpu.random.unit().to_bits()).collect();
        gpu.set(0x2C0, 0x8000_0000);
        gpu.feed(0x2C1, &rows, 256);
        gpu.block(0xC0, &[0x0003_0003, 0, 0x0001_0001, 0xFFFF_FFFF, 0]);
        gpu.block(0x227, &[0x8000_0000, 900]);
        gpu.set(0x22F, 1);
    }
    gpu.end()
}

/// Crowds with bones: over 4,096 writes.
fn cutscene() -> Vec<u32> {
    let mut gpu = Driver::new(9);
    gpu.framebuffer(240, 400);
    gpu.viewport(240.0, 400.0);
    fog(&mut gpu);
    light_table(&mut gpu, 0, 20);
    gpu.idle_stages(1);
    gpu.tests(0x8061, 0x1F41);
    for _ in 0..18 {
        gpu.vertices();
        gpu.texture(128, 128);
        gpu.stage(0, 0x0003_0003, 0x0001_0001, 0xFFFF_FFFF);
        gpu.uniforms(0, 60, 12);
        gpu.draw(2_400);
    }
    gpu.end()
}

/// A buffer that ends with the jump to the next one: size, address, and the register that makes it.
fn map() -> Vec<u32> {
    let mut gpu = Driver::new(10);
    gpu.framebuffer(240, 320);
    gpu.viewport(240.0, 320.0);
    for _ in 0..8 {
        gpu.vertices();
        gpu.texture(256, 256);
        gpu.uniforms(0, 4, 16);
        gpu.draw(96);
    }
    gpu.set(0x238, 0x0000_0080);
    gpu.set(0x23A, 0x0048_D159);
    gpu.set(0x23C, 1);
    gpu.words
}

/// The capture tool stopped at 128 words, within the upload of a shader.
fn loading() -> Vec<u32> {
    let mut gpu = Driver::new(11);
    gpu.framebuffer(240, 320);
    gpu.viewport(240.0, 320.0);
    gpu.shader(512, 128);
    gpu.words.truncate(128);
    gpu.words
}

/// Letters without a vertex buffer: each corner's place and texture as a fixed attribute, and stale words as padding.
fn credits() -> Vec<u32> {
    let mut gpu = Driver::new(12);
    gpu.stale = true;
    gpu.texture(512, 512);
    gpu.stage(0, 0x0003_0003, 0x0001_0001, 0xFFFF_FFFF);
    for _ in 0..90 {
        gpu.block(0xC3, &[0xFFFF_FFFF, 0]);
        gpu.set(0x232, 0xF);
        for _ in 0..4 {
            let corner: Vec<u32> = (0..3).map(|_| gpu.random.word()).collect();
            gpu.each(0x233, &corner);
        }
    }
    gpu.end()
}

/// By a driver that ends a buffer wherever it comes to: here in an odd last pair, which is the very command that must not be lost.
fn ending() -> Vec<u32> {
    let mut gpu = Driver::new(13);
    gpu.framebuffer(240, 400);
    gpu.viewport(240.0, 400.0);
    gpu.vertices();
    for _ in 0..6 {
        gpu.texture(256, 128);
        gpu.uniforms(0, 4, 16);
        gpu.draw(6);
    }
    gpu.flush();
    gpu.finish();
    gpu.words
}
