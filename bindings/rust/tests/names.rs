//! The names against the library and the crate: each field's register and bits, each code's name or lack of one, each refusal.

use pica::names::{
    code_name, held_bits, refusal_advice, refusal_name, refusal_text, register_name, Field, Kind,
    FIELDS,
};
use pica::{Refusal, State, CELLS_LENGTH};

/// The state that holds nothing but this number in this field.
fn holding(field: &Field, value: u32) -> State {
    let mut state = State::default();
    state.write(field.register, 15, value << field.low).unwrap();
    state
}

fn width(field: &Field) -> u32 {
    field.high - field.low + 1
}

/// Every value of a narrow field, as many codes have no name; each bit by itself of a wide one.
fn values(field: &Field) -> Vec<u32> {
    match width(field) {
        narrow @ 1..=4 => (1..1 << narrow).collect(),
        wide => (0..wide).map(|bit| 1 << bit).collect(),
    }
}

/// Decoding finds a field where the table says that it is, with the word that the table's kind gives it.
#[test]
fn bits() {
    for (k, field) in FIELDS.iter().enumerate() {
        let mut met = 0;
        for value in values(field) {
            let state = holding(field, value);
            let register = state.cells()[field.register as usize];
            assert_eq!(register, value << field.low, "{}", field.name);
            let Ok(settings) = state.decode() else {
                continue;
            };
            let flat = settings.flat();
            assert_eq!(flat[k], field.word_in(register), "{}", field.name);
            assert_eq!(flat.iter().filter(|&&word| word != 0).count(), 1);
            met += 1;
        }
        assert!(met > 0, "{}", field.name);
        // one bit more isn't the field's
        let beside = (1u64 << field.high << 1) as u32;
        assert_eq!(field.word_in(beside), 0, "{}", field.name);
    }
}

#[test]
fn signs() {
    for (k, field) in FIELDS.iter().enumerate() {
        let all = field.mask() >> field.low;
        let Ok(settings) = holding(field, all).decode() else {
            continue;
        };
        let word = settings.flat()[k];
        let expected = if field.kind == Kind::Signed {
            u32::MAX
        } else {
            all
        };
        assert_eq!(word, expected, "{}", field.name);
        assert_eq!(field.word_in(field.mask()), expected, "{}", field.name);
    }
}

/// Whether a code that has no name is refused, by document 01's list: light tables are not on it, nor is colour access.
fn must_have_name(field: &Field) -> bool {
    !matches!(field.register, 0x112 | 0x113 | 0x1C5)
}

/// Alpha modes 6 and 7 have names, and are refused here because the stage's RGB mode isn't 7.
fn is_dot3_of_alpha(field: &Field, value: u32) -> bool {
    field.name.ends_with("_combiner_alpha") && (value == 6 || value == 7)
}

/// A code has a name exactly where decoding doesn't refuse it.
#[test]
fn codes() {
    let mut without = 0;
    for (k, field) in FIELDS.iter().enumerate() {
        let Kind::Code(codes) = field.kind else {
            assert_eq!(code_name(k, 0), None, "{}", field.name);
            continue;
        };
        assert!(codes
            .iter()
            .all(|&(code, name)| code_name(k, code) == Some(name)));
        for value in 0..1 << width(field) {
            let named = code_name(k, value).is_some();
            let decoded = holding(field, value).decode().is_ok();
            if must_have_name(field) && !is_dot3_of_alpha(field, value) {
                assert_eq!(named, decoded, "{} {value:X}", field.name);
            }
            without += u32::from(!named);
        }
        assert_eq!(code_name(k, 1 << width(field)), None, "{}", field.name);
    }
    assert!(without > 0);
    assert_eq!(code_name(FIELDS.len(), 0), None);
}

/// A register holds exactly the bits that a write of all ones leaves.
#[test]
fn registers() {
    for id in 0..CELLS_LENGTH as u32 {
        let mut state = State::default();
        if state.write(id, 15, u32::MAX).is_err() {
            assert!(matches!(id, 0x23C | 0x23D), "{id:03X}");
        }
        assert_eq!(held_bits(id), state.cells()[id as usize], "{id:03X}");
        assert!(register_name(id).is_some_and(|name| name.starts_with("GPUREG_")));
    }
    assert_eq!((register_name(0x300), held_bits(0x300)), (None, 0));
}

/// Every constant with its name.
macro_rules! constants {
    ($($name:ident)*) => { [$((Refusal::$name, stringify!($name))),*] };
}

#[test]
fn refusals() {
    let constants = constants! {
        LIST_TOO_LONG WORDS_MISSING ID_ABOVE_2FF JUMP_REGISTER PORT_MASK BUFFER_LENGTH LENGTHS_DIFFER TOO_MANY_WRITES
        MASK_ABOVE_15 NO_ROOM DEPTH_ABOVE_LARGEST CODE_WITHOUT_NAME NOT_BUILT ILLEGAL_LENGTH TOO_FEW_PLACES
    };
    let named = (0..64).filter_map(|number| Some((number, refusal_name(number)?)));
    assert_eq!(named.collect::<Vec<_>>(), constants);
    for (number, name) in constants {
        let text = Refusal { number, place: 0 }.to_string();
        assert!(!text.contains("no number of the table"), "{text}");
        assert!(
            refusal_text(number).is_some() && refusal_advice(number).is_some(),
            "{name}"
        );
    }
    assert_eq!((refusal_text(11), refusal_advice(u32::MAX)), (None, None));
    let text = Refusal {
        number: 11,
        place: 0,
    }
    .to_string();
    assert_eq!(text, "refusal 11: no number of the table");
}

/// The numbers that the floats of `examples/triangle-state.bin` stand for: a viewport of 240 by 400.
#[test]
fn floats() {
    let near = |kind: Kind, word: u32, expected: f64| {
        let number = kind.float(word).unwrap();
        assert!((number - expected).abs() < 1e-8, "{number}");
    };
    near(Kind::Float24, 0x45_E000, 120.0);
    near(Kind::WideFloat, 0x3811_1110, 2.0 / 240.0);
    near(Kind::Float24, 0x46_9000, 200.0);
    near(Kind::WideFloat, 0x3747_AE14, 2.0 / 400.0);
    near(Kind::Float24, 0xBF_0000, -1.0);
    // 001: a float24 times 100h is the wide one, and so is an IEEE float times 2 less 40000000h
    for word in [0x3F_0000, 0x40_1234, 0x01_0000, 0x7E_FFFF, 0x80_0000] {
        assert_eq!(
            Kind::Float24.float(word),
            Kind::WideFloat.float(word * 0x100)
        );
    }
    for number in [1.0f32, 0.1, 3.75e-9, 1e9] {
        let wide = number.to_bits() * 2 - 0x4000_0000;
        assert_eq!(Kind::WideFloat.float(wide), Some(f64::from(number)));
    }
    assert_eq!(Kind::Float24.float(0), Some(0.0));
    assert_eq!(Kind::WideFloat.float(1), None);
    assert_eq!(Kind::WideFloat.float(0xFF00_0000), None);
}
