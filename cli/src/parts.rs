//! A run of any length in parts that can be packed, and how long its shortest list is.

use std::ops::Range;

use pica::{pack, Refusal, Write, RUN_LENGTH_MOST};

/// The writes of a run whose mask isn't 0: the others are checked, and belong to no list's writes.
pub struct Run {
    kept: Columns,
    /// The words of its shortest list, where a single call tells them.
    told: Option<u64>,
}

/// The ids, masks and values of writes, as the packer takes them.
struct Columns {
    ids: Vec<u32>,
    masks: Vec<u32>,
    values: Vec<u32>,
}

/// Where a run goes on for long as one that a command could carry, it is cut after so many writes: after sixteen commands of 255, which
/// take 256 words each and so the fewest a write; or after as many as can be packed. Each gives bounds, and of one register's writes
/// the first is seldom too long and the second seldom too short.
const UNBROKEN: [usize; 2] = [RUN_LENGTH_MOST / 255 * 255, RUN_LENGTH_MOST];

/// The fewest words that say a run, a multiple of 4: at least and at most so many. The two are equal for at most 4,096 writes, for more
/// where each seam stands between two writes that no command carries both, and wherever the bounds of two ways to cut meet.
#[derive(Clone, Copy, Debug, Default, PartialEq, Eq)]
pub struct Shortest {
    pub least: u64,
    pub most: u64,
}

impl Run {
    /// Checks every write, in order and with mask 0 too: a refusal names it in the run as given. Then those with mask 0 go, so that they
    /// part no neighbours and count for no cut.
    pub fn new(writes: &[Write]) -> Result<Self, Refusal> {
        let stretches = writes.chunks(RUN_LENGTH_MOST).enumerate();
        let words = stretches.map(|(k, stretch)| {
            let named = |refusal: Refusal| Refusal {
                place: refusal.place + (k * RUN_LENGTH_MOST) as u32,
                ..refusal
            };
            Columns::of(stretch.iter()).words().map_err(named)
        });
        let words = words.collect::<Result<Vec<u64>, Refusal>>()?;
        Ok(Self {
            kept: Columns::of(writes.iter().filter(|write| write.mask != 0)),
            told: (words.len() == 1).then(|| words[0]),
        })
    }

    /// The parts. Any cut is right; between two writes that no command carries both it costs nothing, so that each part ends at the
    /// last such place, and only where there is none after so many writes as are said.
    fn parts(&self, unbroken: usize) -> Vec<Range<usize>> {
        let length = self.kept.ids.len();
        let (mut parts, mut start) = (Vec::new(), 0);
        while length - start > RUN_LENGTH_MOST {
            let last = start + RUN_LENGTH_MOST;
            let end = (start + 1..=last)
                .rev()
                .find(|&cut| self.kept.is_apart(cut))
                .unwrap_or(start + unbroken);
            parts.push(start..end);
            start = end;
        }
        parts.push(start..length);
        parts
    }

    /// The run by each way to cut it, or by the first alone where that costs nothing.
    fn ways(&self) -> Result<Vec<Joined>, Refusal> {
        let mut ways = Vec::new();
        for unbroken in UNBROKEN {
            ways.push(self.joined(&self.parts(unbroken))?);
            if ways[0].loose == 0 {
                break;
            }
        }
        Ok(ways)
    }

    /// The parts' lists, each without its filling, one after another.
    fn joined(&self, parts: &[Range<usize>]) -> Result<Joined, Refusal> {
        let mut list = Vec::new();
        for part in parts {
            let start = list.len();
            list.resize(start + 2 * part.len() + 2, 0); // a list is never longer than two words a write plus two
            let words = self.kept.pack(part.clone(), &mut list[start..])?;
            list.truncate(start + before_filling(&list[start..start + words]));
        }
        let seams = parts.iter().skip(1).map(|part| part.start);
        let loose = seams.filter(|&cut| !self.kept.is_apart(cut)).count() as u64;
        Ok(Joined { list, loose })
    }

    /// The bounds on the shortest list of a run that an accepted list of so many words says. That list is one, so that it bounds them
    /// too.
    pub fn shortest(&self, own: u64) -> Result<Shortest, Refusal> {
        if let Some(words) = self.told {
            let (least, most) = (words, words);
            return Ok(Shortest { least, most });
        }
        let Shortest { least, most } = better(&self.ways()?);
        let most = most.min(own);
        Ok(Shortest { least, most })
    }

    /// The parts' lists, joined and filled once, by the way to cut that gives the shorter one, and by how many words that may be over
    /// the shortest list.
    pub fn packed(&self) -> Result<(Vec<u32>, u64), Refusal> {
        let ways = self.ways()?;
        let least = better(&ways).least;
        let lists = ways.into_iter().map(|way| way.list);
        let mut list = lists.min_by_key(Vec::len).unwrap_or_default();
        list.resize(list.len().next_multiple_of(4), 0);
        let over = list.len() as u64 - least;
        Ok((list, over))
    }
}

/// A run cut one way: its parts' lists joined, not filled yet, and how many seams there are that a command may go across.
struct Joined {
    list: Vec<u32>,
    loose: u64,
}

impl Joined {
    /// At most these words, filled; at least two fewer for each of those seams, and filled again, since a list's words are a multiple
    /// of 4. A part has two words at least, so that there are two for each seam.
    fn bounds(&self) -> Shortest {
        let words = self.list.len() as u64;
        Shortest {
            least: (words - 2 * self.loose).next_multiple_of(4),
            most: words.next_multiple_of(4),
        }
    }
}

/// The better bounds of some ways to cut one run.
fn better(ways: &[Joined]) -> Shortest {
    let bounds = ways.iter().map(Joined::bounds);
    let both = bounds.reduce(|one, other| Shortest {
        least: one.least.max(other.least),
        most: one.most.min(other.most),
    });
    both.unwrap_or_default()
}

/// The words of a packed list without the pair that fills it: the last command, if its mask is 0, which no other has. The last two
/// words don't tell it, since a last parameter 0 with its padding word looks the same.
fn before_filling(list: &[u32]) -> usize {
    let mut at = 0;
    while let Some(header) = list.get(at + 1) {
        if header >> 16 & 0xF == 0 {
            break;
        }
        let extra = (header >> 20 & 0xFF) as usize;
        at += (2 + extra).next_multiple_of(2);
    }
    at
}

impl Columns {
    fn of<'a>(writes: impl Iterator<Item = &'a Write> + Clone) -> Self {
        Self {
            ids: writes.clone().map(|write| write.id).collect(),
            masks: writes.clone().map(|write| write.mask).collect(),
            values: writes.map(|write| write.value).collect(),
        }
    }

    /// Whether no command carries both the write before the cut and the one after it: their masks differ, or the id neither stays nor
    /// rises by one.
    fn is_apart(&self, cut: usize) -> bool {
        let rise = self.ids[cut].wrapping_sub(self.ids[cut - 1]);
        self.masks[cut] != self.masks[cut - 1] || rise > 1
    }

    fn pack(&self, part: Range<usize>, space: &mut [u32]) -> Result<usize, Refusal> {
        let (ids, masks) = (&self.ids[part.clone()], &self.masks[part.clone()]);
        pack(ids, masks, &self.values[part], space)
    }

    /// How many words the shortest list of them all has: the packer is asked with no space, and says what it needs.
    fn words(&self) -> Result<u64, Refusal> {
        match self.pack(0..self.ids.len(), &mut []) {
            Ok(words) => Ok(words as u64),
            Err(refusal) if refusal.number == Refusal::NO_ROOM => Ok(refusal.place.into()),
            Err(refusal) => Err(refusal),
        }
    }
}

#[cfg(test)]
mod tests;
