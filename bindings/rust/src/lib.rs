//! Command lists of the PICA200, the graphics chip of an old handheld, by the proved library Ilgadeuk.
//!
//! A list of command words is read into a [`State`], a register file and two lookup tables, or refused by a number and a
//! place; one that arrives in pieces is fed part by part ([`State::open`]). Either way it is told how many writes the list has and how
//! many of them made a difference ([`Counts`]). A state is decoded into [`Settings`] and tells what one fragment leaves in the
//! framebuffer. A list's own writes are what [`writes`] gives, and the other way round [`pack`] turns a run of writes into the shortest
//! list that says it. `include/pica.h` tells how a list is laid out; its words are a multiple of 4 in number. Writes with mask 0 set
//! nothing: they are checked, but no count has them, [`writes`] doesn't give them and [`pack`] drops them.
//!
//! Any words and any numbers may come in: every call answers or gives a [`Refusal`], and a refused call changes nothing, but for the
//! spare state of a list in pieces.
//!
//! ```
//! use pica::State;
//!
//! let mut state = State::default();
//! let list = [0x2, 0x000F_0040, 0, 0]; // culling mode 2, into register 40; the pair 0 0 fills the list to four words
//! let read = state.read(&list)?;
//! assert_eq!((read.writes, read.differences), (1, 1));
//! assert_eq!(state.decode()?.rasteriser.culling, 2);
//! # Ok::<(), pica::Refusal>(())
//! ```
//!
//! Nothing in this crate's face is `unsafe`, and the library behind it allocates nothing and keeps nothing between calls. The
//! crate needs no `std`: of `alloc` it takes a state's boxes, the list that [`packed`] gives and the run that [`writes_of`] gives.

#![no_std]
#![deny(missing_docs)]
#![deny(unsafe_code)]

extern crate alloc;

mod differences;
mod ffi;
mod flat;
mod fragment;
pub mod names;
mod pack;
mod pieces;
mod refusal;
mod settings;
mod state;
mod writes;

pub use differences::{Counts, Written};
pub use flat::FIELDS_LENGTH;
pub use fragment::{Given, Outcome, Stored, Verdict};
pub use pack::{pack, packed, Write, RUN_LENGTH_MOST};
pub use pieces::Pieces;
pub use refusal::Refusal;
pub use settings::*;
pub use state::{State, CELLS_LENGTH, FOG_LENGTH, LIGHT_LENGTH, LIST_LENGTH_MOST};
pub use writes::{writes, writes_of};
