//! Lists that arrive in pieces: a reader is opened, fed parts and closed. The
//! model keeps all parts and reads the joined list at once, at the close. The
//! planted fault's number is a plain argument here.

use super::commands::{expand, Write};
use super::faults::*;
use super::lengths::{by_sixteen_bytes, not_too_long};
use super::reading::apply_all;
use super::{given_back, refuse, state_lengths, Refusal, HELD, LIGHT_ENTRIES};
use super::{miscounted, misjoined};

/// The words of a reader.
pub const READER: usize = 12;

/// The words come are counted up to one more than a list may have.
const MOST_COME: usize = 65_537;

const ENTRY: u32 = 0xFF_FFFF;

pub type State<'a> = [&'a mut [u32]; 3];

/// What the model keeps beside a reader's words.
#[derive(Default)]
pub struct Fed {
    /// The parts since the reader was fresh, joined, and where each begins.
    pub joined: Vec<u32>,
    pub parts: Vec<usize>,
    /// Whether that is all. It isn't where someone else wrote to the reader or
    /// to a state: the documents then leave open what is answered, so that the
    /// model takes over what it was told, if that may be answered at all.
    pub known: bool,
    pub told: u64,
    pub told_differences: u32,
    /// Differences that a fault counts besides the list's own.
    pub counted: u32,
}

impl Fed {
    fn add(&mut self, part: &[u32]) {
        self.parts.push(self.joined.len());
        self.joined.extend_from_slice(part);
    }
}

pub struct Reader<'a> {
    pub words: &'a mut [u32; READER],
    pub fed: &'a mut Fed,
}

impl Reader<'_> {
    fn freshen(&mut self) {
        *self.words = [0; READER];
        self.fed.joined.clear();
        self.fed.parts.clear();
        self.fed.known = true;
    }
}

fn lengths([cells, fog, light]: &State) -> Result<(), Refusal> {
    state_lengths(cells, fog, light)
}

/// The lengths, where a fault leaves the light buffer's out.
fn lengths_but_light(left_out: bool, state: &State) -> Result<(), Refusal> {
    if left_out {
        return state_lengths(state[0], state[1], &[0; LIGHT_ENTRIES]);
    }
    lengths(state)
}

/// Gives one state's held bits and entries the other's values.
pub fn take(fault: u32, to: &mut State, from: &State) {
    for (id, held) in HELD {
        if fault != PIECES_INDICES_KEPT || (id != 0xE6 && id != 0x1C5) {
            put(&mut to[0][id as usize], from[0][id as usize], held);
        }
    }
    for which in [1, 2] {
        let entries = to[which].iter_mut().zip(from[which].iter());
        for (index, (entry, value)) in entries.enumerate() {
            if fault != PIECES_NAMED_TABLES || which == 1 || !matches!(index / 256, 2 | 7) {
                put(entry, *value, ENTRY);
            }
        }
    }
}

fn put(word: &mut u32, value: u32, bits: u32) {
    *word = *word & !bits | value & bits;
}

/// Whole words, where only some bits are meant: a fault.
fn take_whole(to: &mut State, from: &State) {
    for (to, from) in to.iter_mut().zip(from) {
        to.copy_from_slice(from);
    }
}

pub fn open(fault: u32, live: State, spare: State, reader: Reader) -> u64 {
    given_back(try_open(fault, live, spare, reader))
}

fn try_open(fault: u32, live: State, mut spare: State, mut reader: Reader) -> Result<u32, Refusal> {
    lengths_but_light(fault == PIECES_OPEN_LIVE_LIGHT, &live)?;
    lengths(&spare)?;
    take(fault, &mut spare, &live);
    if fault == PIECES_SPARE_WHOLE {
        take_whole(&mut spare, &live);
    }
    reader.fed.counted = match fault {
        PIECES_DIFFERENCES_REOPENED if reader.fed.known => miscounted::so_far(reader.fed, &live),
        _ => 0,
    };
    if fault != PIECES_OPEN_GOES_ON || !reader.fed.known {
        reader.freshen();
    }
    Ok(0)
}

pub fn feed(fault: u32, spare: State, reader: Reader, part: &[u32]) -> u64 {
    given_back(try_feed(fault, spare, reader, part))
}

fn try_feed(fault: u32, spare: State, reader: Reader, part: &[u32]) -> Result<u32, Refusal> {
    let Reader { words, fed } = reader;
    let tested = lengths_but_light(fault == PIECES_FEED_LIGHT, &spare);
    if tested.is_ok() && !misjoined::left_out(fault, fed) || fault == PIECES_6_COUNTS {
        fed.add(part);
    }
    tested?;
    match fault {
        PIECES_TOLD_EARLY => misjoined::test_writes(&fed.joined)?,
        PIECES_15_TOLD_EARLY => by_sixteen_bytes::<NONE>(&fed.joined)?,
        _ => {}
    }
    let come = if fed.known {
        fed.joined.len()
    } else {
        fed.told as usize
    };
    words[0] = match fault {
        PIECES_COUNT_GOES_ON => come as u32,
        PIECES_COUNT_65536 => come.min(MOST_COME - 1) as u32,
        PIECES_ANSWERS_PART => part.len().min(MOST_COME) as u32,
        _ => come.min(MOST_COME) as u32,
    };
    Ok(words[0])
}

pub fn close(
    fault: u32,
    live: State,
    spare: State,
    reader: Reader,
    differences: &mut [u32; 1],
) -> u64 {
    given_back(try_close(fault, live, spare, reader, differences))
}

fn try_close(
    fault: u32,
    mut live: State,
    mut spare: State,
    mut reader: Reader,
    differences: &mut [u32; 1],
) -> Result<u32, Refusal> {
    match fault {
        PIECES_ORDER_1_6 => not_too_long::<NONE>(&reader.fed.joined)?,
        PIECES_ORDER_15_6 => by_sixteen_bytes::<NONE>(&reader.fed.joined)?,
        _ => {}
    }
    let tested = lengths(&live).and(lengths_but_light(fault == PIECES_CLOSE_SPARE_LIGHT, &spare));
    match fault {
        PIECES_6_FRESHENS if tested.is_err() => reader.freshen(),
        PIECES_DIFFERENCES_6 if tested.is_err() => differences[0] = 0,
        _ => {}
    }
    tested?;
    if fault == PIECES_SPARE_OLD {
        take(fault, &mut spare, &live);
    }
    let mut writes = Vec::new();
    let (verdict, made) = if reader.fed.known {
        read_joined(fault, &mut live, &spare, reader.fed, &mut writes)
    } else {
        take_over(&mut live, &spare, reader.fed)
    };
    leave(fault, &mut live, &mut spare, verdict, &writes);
    // A refused list gives neither number.
    let refused_gives = [PIECES_DIFFERENCES_REFUSED, PIECES_DIFFERENCES_REFUSED_0];
    if verdict.is_ok() || refused_gives.contains(&fault) {
        differences[0] = made;
    }
    reader.fed.counted = match fault {
        PIECES_DIFFERENCES_GO_ON => made,
        _ => 0,
    };
    match verdict {
        Ok(_) if fault == PIECES_NOT_FRESH_ACCEPTED => {}
        Err(_) if fault == PIECES_NOT_FRESH_REFUSED => {}
        Err(refusal) if fault == PIECES_15_NOT_FRESH && refusal.number == 15 => {}
        _ => reader.freshen(),
    }
    verdict
}

/// Reads the joined list into the live state, at once. Gives the verdict and how
/// many writes made a difference.
fn read_joined(
    fault: u32,
    live: &mut State,
    spare: &State,
    fed: &Fed,
    writes: &mut Vec<Write>,
) -> (Result<u32, Refusal>, u32) {
    let verdict = judge(fault, fed, writes);
    let wrong = miscounted::count_wrongly(fault, live, spare, fed, writes);
    let mut made = 0;
    if verdict.is_ok() || fault == PIECES_LIVE_BEFORE_REFUSAL {
        made = put_all(live, writes);
    }
    (verdict, wrong.unwrap_or(made))
}

fn put_all([cells, fog, light]: &mut State, writes: &[Write]) -> u32 {
    apply_all::<NONE>(cells, fog, light, writes)
}

fn judge(fault: u32, fed: &Fed, writes: &mut Vec<Write>) -> Result<u32, Refusal> {
    let length = misjoined::limit(fault, fed);
    if fault == PIECES_15_SPARE_KEPT && length == refuse(15, 0) {
        expand::<NONE>(&fed.joined, writes).ok();
    }
    length?;
    let list = misjoined::list(fault, fed);
    let judged = match fault {
        PIECES_FAULT_BEATS_MISSING => expand::<ORDER_2_LAST>(&list, writes),
        PIECES_MASK_0_COUNTED => expand::<MASK_0_COUNTED>(&list, writes),
        PIECES_MASK_0_UNCHECKED => expand::<MASK_0_UNCHECKED>(&list, writes),
        PIECES_MASK_0_AS_F => expand::<MASK_0_AS_F>(&list, writes),
        _ => expand::<NONE>(&list, writes),
    };
    judged.map_err(|refusal| misjoined::placed(fault, fed, refusal))?;
    let count = writes.len() as u32;
    match fault {
        PIECES_ORDER_15_LAST => by_sixteen_bytes::<NONE>(&fed.joined)?,
        PIECES_MASK_0_CUT_COUNTED => return Ok(count + misjoined::mask_0_after_cut(fed)),
        PIECES_RISE_ANEW => misjoined::rise_anew(fed, writes),
        PIECES_PORT_RUN_ENDS => misjoined::port_run_ends(fed, writes),
        PIECES_ANSWER_LAST_PART => return Ok(misjoined::writes_of_last_part(fed)),
        _ => {}
    }
    Ok(count)
}

/// A close whose verdict isn't known: the live state takes the spare one's
/// values where it was answered. Nor are the differences known.
fn take_over(live: &mut State, spare: &State, fed: &Fed) -> (Result<u32, Refusal>, u32) {
    let low = fed.told as u32;
    let verdict = match (fed.told >> 32) as u32 {
        0 => {
            take(NONE, live, spare);
            Ok(low)
        }
        number @ 2..=5 => refuse(number, low),
        15 => refuse(15, 0),
        _ => refuse(1, 0),
    };
    (verdict, fed.told_differences)
}

/// After a close both states agree in their held bits and entries.
fn leave(
    fault: u32,
    live: &mut State,
    spare: &mut State,
    verdict: Result<u32, Refusal>,
    writes: &[Write],
) {
    if fault != PIECES_SPARE_OLD || verdict.is_err() {
        take(fault, spare, live);
    }
    match (fault, verdict) {
        (PIECES_LIVE_WHOLE, Ok(_)) => take_whole(live, spare),
        (PIECES_SPARE_KEPT, Err(_)) | (PIECES_15_SPARE_KEPT, Err(Refusal { number: 15, .. })) => {
            put_all(spare, writes);
        }
        _ => {}
    }
}
