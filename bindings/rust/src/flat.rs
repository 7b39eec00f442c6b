//! The flat order of the decoded fields: ids ascending, then lowest bit first. It is listed once in this crate's source, and
//! both directions follow it.

use crate::{Blending, BufferFog, Buffers, Colour, LightPort, Rasteriser, Settings, Stage, Tests};

/// The length of a state's decoded fields as one row of words.
pub const FIELDS_LENGTH: usize = 204;

/// A field as one word.
trait Field {
    fn put(&mut self, word: u32);
    fn word(&self) -> u32;
}

impl Field for u32 {
    fn put(&mut self, word: u32) {
        *self = word;
    }

    fn word(&self) -> u32 {
        *self
    }
}

impl Field for u8 {
    /// The library gives a field of eight bits as a number below 256, so that nothing is cut off.
    fn put(&mut self, word: u32) {
        *self = word as u8;
    }

    fn word(&self) -> u32 {
        (*self).into()
    }
}

impl Field for i32 {
    /// Two's complement, both ways.
    fn put(&mut self, word: u32) {
        *self = word as i32;
    }

    fn word(&self) -> u32 {
        *self as u32
    }
}

/// What is done with each field in turn.
type Visit<'a> = &'a mut dyn FnMut(&mut dyn Field);

fn all<const N: usize>(fields: [&mut dyn Field; N], visit: Visit) {
    fields.into_iter().for_each(visit);
}

fn rasteriser(r: &mut Rasteriser, visit: Visit) {
    let (view, clip, scissor) = (&mut r.viewport, &mut r.clip, &mut r.scissor);
    all([&mut r.culling], visit);
    all(
        [
            &mut view.width,
            &mut view.invw,
            &mut view.height,
            &mut view.invh,
        ],
        visit,
    );
    all([&mut clip.enable, &mut clip.data0, &mut clip.data1], visit);
    all([&mut clip.data2, &mut clip.data3], visit);
    all([&mut r.depthmap.scale, &mut r.depthmap.offset], visit);
    all([&mut scissor.mode], visit);
    all([&mut scissor.pos.x, &mut scissor.pos.y], visit);
    all([&mut scissor.dim.x, &mut scissor.dim.y], visit);
    all([&mut view.xy.x, &mut view.xy.y], visit);
    all([&mut r.depthmap.enable], visit);
}

fn colour(c: &mut Colour, visit: Visit) {
    all([&mut c.red, &mut c.green, &mut c.blue, &mut c.alpha], visit);
}

fn stage(s: &mut Stage, visit: Visit) {
    let (from, part) = (&mut s.source, &mut s.operand);
    all([&mut from.rgb0, &mut from.rgb1, &mut from.rgb2], visit);
    all(
        [&mut from.alpha0, &mut from.alpha1, &mut from.alpha2],
        visit,
    );
    all([&mut part.rgb0, &mut part.rgb1, &mut part.rgb2], visit);
    all(
        [&mut part.alpha0, &mut part.alpha1, &mut part.alpha2],
        visit,
    );
    all([&mut s.combiner.rgb, &mut s.combiner.alpha], visit);
    colour(&mut s.colour, visit);
    all([&mut s.scale.rgb, &mut s.scale.alpha], visit);
}

/// E0, E1 and E6; FD comes after stage 5.
fn fog(b: &mut BufferFog, visit: Visit) {
    let (u, c) = (&mut b.update, &mut b.fog_colour);
    all([&mut u.fog_mode, &mut u.density_source], visit);
    all([&mut u.rgb1, &mut u.rgb2, &mut u.rgb3, &mut u.rgb4], visit);
    all([&mut u.alpha1, &mut u.alpha2], visit);
    all([&mut u.alpha3, &mut u.alpha4], visit);
    all([&mut u.z_flip, &mut u.unknown], visit);
    all([&mut c.red, &mut c.green, &mut c.blue], visit);
    all([&mut b.fog_index], visit);
}

fn blending(b: &mut Blending, visit: Visit) {
    let (o, f) = (&mut b.operation, &mut b.function);
    all([&mut o.mode, &mut o.blend], visit);
    all([&mut o.second_lines, &mut o.nothing], visit);
    all([&mut f.rgb_equation, &mut f.alpha_equation], visit);
    all([&mut f.rgb_source, &mut f.rgb_destination], visit);
    all([&mut f.alpha_source, &mut f.alpha_destination], visit);
    all([&mut b.logic_op], visit);
    colour(&mut b.colour, visit);
}

fn tests(t: &mut Tests, visit: Visit) {
    let (a, s, op, d) = (
        &mut t.alpha,
        &mut t.stencil,
        &mut t.stencil_op,
        &mut t.depth,
    );
    all([&mut a.enable, &mut a.function, &mut a.reference], visit);
    all([&mut s.enable, &mut s.function], visit);
    all([&mut s.buffer_mask, &mut s.reference, &mut s.mask], visit);
    all([&mut op.fail, &mut op.z_fail, &mut op.z_pass], visit);
    all([&mut d.enable, &mut d.function], visit);
    all([&mut d.red, &mut d.green, &mut d.blue, &mut d.alpha], visit);
    all([&mut d.depth], visit);
}

fn buffers(b: &mut Buffers, visit: Visit) {
    let (reading, writing) = (&mut b.depth_reading, &mut b.depth_writing);
    all([&mut b.colour_reading, &mut b.colour_writing], visit);
    all([&mut reading.stencil, &mut reading.depth], visit);
    all([&mut writing.stencil, &mut writing.depth], visit);
    all([&mut b.depth_format], visit);
    all(
        [&mut b.colour_format.size, &mut b.colour_format.format],
        visit,
    );
}

fn light_port(l: &mut LightPort, visit: Visit) {
    all([&mut l.index, &mut l.table], visit);
}

fn every(s: &mut Settings, visit: Visit) {
    rasteriser(&mut s.rasteriser, visit);
    stage(&mut s.stages.stage0, visit);
    stage(&mut s.stages.stage1, visit);
    stage(&mut s.stages.stage2, visit);
    stage(&mut s.stages.stage3, visit);
    fog(&mut s.buffer_fog, visit);
    stage(&mut s.stages.stage4, visit);
    stage(&mut s.stages.stage5, visit);
    colour(&mut s.buffer_fog.buffer_colour, visit);
    blending(&mut s.framebuffer.blending, visit);
    tests(&mut s.framebuffer.tests, visit);
    buffers(&mut s.framebuffer.buffers, visit);
    light_port(&mut s.light_port, visit);
}

impl Settings {
    /// The fields as one row of words, in the order of the C function `pica_decode`: ids ascending, then lowest bit first,
    /// signed ones in two's complement.
    ///
    /// ```
    /// let mut state = pica::State::default();
    /// state.write(0x40, 15, 2)?;
    /// let flat = state.decode()?.flat();
    /// assert_eq!(flat.len(), 204);
    /// assert_eq!(flat[0], 2); // culling has the lowest id
    /// # Ok::<(), pica::Refusal>(())
    /// ```
    #[must_use]
    pub fn flat(&self) -> [u32; FIELDS_LENGTH] {
        let (mut settings, mut words, mut at) = (*self, [0; FIELDS_LENGTH], 0);
        every(&mut settings, &mut |field| {
            words[at] = field.word();
            at += 1;
        });
        words
    }

    pub(crate) fn from_flat(words: &[u32; FIELDS_LENGTH]) -> Self {
        let (mut settings, mut at) = (Self::default(), 0);
        every(&mut settings, &mut |field| {
            field.put(words[at]);
            at += 1;
        });
        settings
    }
}

#[cfg(test)]
mod tests_of_the_order {
    use super::*;

    /// Each field gets a number of its own, so that one that is left out or met twice shows.
    #[test]
    fn every_field_is_met_once() {
        let mut met = 0;
        every(&mut Settings::default(), &mut |_| met += 1);
        assert_eq!(met, FIELDS_LENGTH);
        let words: [u32; FIELDS_LENGTH] = core::array::from_fn(|k| k as u32 + 1);
        assert_eq!(Settings::from_flat(&words).flat(), words);
    }
}
