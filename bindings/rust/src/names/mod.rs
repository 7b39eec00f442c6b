//! Names as text, for people: of registers, of the 204 decoded fields and their codes, and of refusals.
//!
//! The tables behind it are the repository's `names/`, which the C header `pica_names.h` is made from too. A register's name is
//! 004's; a field's is that of `enum pica_field` in lower case; a code's is the documents'.
//!
//! ```
//! use pica::{names, State};
//!
//! let mut state = State::default();
//! state.write(0xC0, 15, 0x000F_0003)?; // stage 0: RGB of texture 0, alpha of Previous
//! let fields = state.decode()?.flat();
//! for (k, field) in names::FIELDS.iter().enumerate() {
//!     if field.register == 0xC0 && field.low == 0 {
//!         assert_eq!(field.name, "stage0_source_rgb0");
//!         assert_eq!(names::code_name(k, fields[k]), Some("Texture 0"));
//!     }
//! }
//! assert_eq!(names::register_name(0xC0), Some("GPUREG_TEXENV0_SOURCE"));
//! # Ok::<(), pica::Refusal>(())
//! ```

#[rustfmt::skip] // laid out by names/make
mod tables;

pub use tables::FIELDS;

/// A decoded field: its name, and the bits of its register that it is.
#[derive(Clone, Copy, Debug, PartialEq, Eq)]
pub struct Field {
    /// That of the C enumeration in lower case, without its prefix: `viewport_width`.
    pub name: &'static str,
    /// The id of its register.
    pub register: u32,
    /// Its lowest bit.
    pub low: u32,
    /// Its highest bit.
    pub high: u32,
    /// What its number is.
    pub kind: Kind,
}

/// What a field's number is.
#[derive(Clone, Copy, Debug, PartialEq, Eq)]
#[non_exhaustive]
pub enum Kind {
    /// An unsigned number.
    Number,
    /// A number in two's complement; a field's word has its sign in bit 31.
    Signed,
    /// A colour's red, green, blue or alpha, 0 to 255.
    Channel,
    /// A float of 24 bits, the documents' float1.7.16: sign, seven bits of exponent, sixteen of mantissa.
    Float24,
    /// A float of 32 bits that isn't IEEE's, 001's float1.7.24: sign, seven bits of exponent, 24 of mantissa.
    WideFloat,
    /// A code, by the table of those that have a name, ascending.
    Code(&'static [(u32, &'static str)]),
}

/// What the table of refusals has of one.
struct RefusalText {
    number: u32,
    name: &'static str,
    reason: &'static str,
    text: &'static str,
    advice: &'static str,
}

impl Field {
    /// The bits of its register, as a mask.
    ///
    /// ```
    /// use pica::names::FIELDS;
    ///
    /// assert_eq!((FIELDS[0].name, FIELDS[0].mask()), ("culling", 3));
    /// ```
    #[must_use]
    pub fn mask(&self) -> u32 {
        u32::MAX >> (31 - (self.high - self.low)) << self.low
    }

    /// The field's word where its register holds this one: what decoding gives, also where another code keeps a state from being
    /// decoded.
    ///
    /// ```
    /// use pica::names::FIELDS;
    ///
    /// let x = FIELDS.iter().find(|field| field.name == "viewport_xy_x").unwrap();
    /// assert_eq!(x.word_in(0x01FF_03FF) as i32, -1);
    /// ```
    #[must_use]
    pub fn word_in(&self, register: u32) -> u32 {
        let bits = (register & self.mask()) >> self.low;
        let unused = 31 - (self.high - self.low);
        match self.kind {
            Kind::Signed => ((bits << unused) as i32 >> unused) as u32,
            _ => bits,
        }
    }
}

impl Kind {
    /// The number that a float's bits stand for. `None` for what is no float, and for an exponent of all zeros (but for zero itself)
    /// or all ones, because the documents don't say what those stand for.
    ///
    /// ```
    /// use pica::names::Kind;
    ///
    /// assert_eq!(Kind::Float24.float(0x45_E000), Some(120.0));
    /// assert_eq!(Kind::Float24.float(0xBF_0000), Some(-1.0));
    /// assert_eq!(Kind::WideFloat.float(0x3F80_0000), Some(1.5));
    /// assert_eq!(Kind::Float24.float(0x7F_0000), None);
    /// assert_eq!(Kind::Number.float(1), None);
    /// ```
    #[must_use]
    pub fn float(self, word: u32) -> Option<f64> {
        let mantissa_bits = match self {
            Self::Float24 => 16,
            Self::WideFloat => 24,
            _ => return None,
        };
        let sign = u64::from(word >> (mantissa_bits + 7) & 1) << 63;
        let exponent = u64::from(word >> mantissa_bits & 0x7F);
        let mantissa = u64::from(word) & ((1 << mantissa_bits) - 1);
        match (exponent, mantissa) {
            (0, 0) => Some(f64::from_bits(sign)),
            (0 | 0x7F, _) => None,
            // a double has 52 bits of mantissa, and its exponent is kept 1023 too large, where these are by 63
            _ => Some(f64::from_bits(
                sign | (exponent + 1023 - 63) << 52 | mantissa << (52 - mantissa_bits),
            )),
        }
    }
}

/// 004's name of a register. Every id up to 2FF has one.
///
/// ```
/// use pica::names::register_name;
///
/// assert_eq!(register_name(0x40), Some("GPUREG_FACECULLING_CONFIG"));
/// assert_eq!(register_name(0x300), None);
/// ```
#[must_use]
pub fn register_name(id: u32) -> Option<&'static str> {
    tables::REGISTERS.get(id as usize).copied()
}

/// The bits that a register holds, 0 for one that isn't held.
///
/// ```
/// use pica::names::held_bits;
///
/// assert_eq!(held_bits(0x107), 0x1F71);
/// assert_eq!(held_bits(0x110), 0);
/// ```
#[must_use]
pub fn held_bits(id: u32) -> u32 {
    let row = tables::HELD.binary_search_by_key(&id, |row| row.0);
    row.map_or(0, |at| tables::HELD[at].1)
}

/// The name of a field's code, by the field's index in [`FIELDS`]. `None` for a code without a name, and for a field that holds no
/// codes.
///
/// ```
/// use pica::names::code_name;
///
/// assert_eq!(code_name(0, 2), Some("Show Front")); // culling
/// assert_eq!(code_name(0, 4), None);
/// assert_eq!(code_name(1, 0), None); // the viewport's width is a float
/// ```
#[must_use]
pub fn code_name(field: usize, value: u32) -> Option<&'static str> {
    match FIELDS.get(field)?.kind {
        Kind::Code(codes) => codes.iter().find(|code| code.0 == value).map(|code| code.1),
        _ => None,
    }
}

fn refusal(number: u32) -> Option<&'static RefusalText> {
    let at = tables::REFUSALS.binary_search_by_key(&number, |refusal| refusal.number);
    at.ok().map(|at| &tables::REFUSALS[at])
}

/// The name of a refusal's number: that of its constant.
///
/// ```
/// use pica::{names::refusal_name, Refusal};
///
/// assert_eq!(refusal_name(Refusal::PORT_MASK), Some("PORT_MASK"));
/// assert_eq!(refusal_name(11), None);
/// ```
#[must_use]
pub fn refusal_name(number: u32) -> Option<&'static str> {
    refusal(number).map(|refusal| refusal.name)
}

/// What a refusal means.
///
/// ```
/// assert_eq!(pica::names::refusal_text(1), Some("a list over 65,536 words"));
/// ```
#[must_use]
pub fn refusal_text(number: u32) -> Option<&'static str> {
    refusal(number).map(|refusal| refusal.text)
}

/// What to do about a refusal.
///
/// ```
/// assert_eq!(pica::names::refusal_advice(7), Some("lend three buffers of one length"));
/// ```
#[must_use]
pub fn refusal_advice(number: u32) -> Option<&'static str> {
    refusal(number).map(|refusal| refusal.advice)
}

/// Document 01's few words for a refusal.
pub(crate) fn refusal_reason(number: u32) -> Option<&'static str> {
    refusal(number).map(|refusal| refusal.reason)
}
