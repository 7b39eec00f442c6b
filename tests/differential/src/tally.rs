//! Counts what a run has met, and says what it lacks.

use crate::generate::{Kind, KINDS};
use crate::model::{commands_refused, mask_0_commands};

const NUMBERS: usize = 23;

/// The refusals that a whole run has to meet. 11 and 16 to 21 aren't used.
const REFUSALS: [usize; 15] = [1, 2, 3, 4, 5, 6, 7, 8, 9, 10, 12, 13, 14, 15, 22];

/// The verdicts of closes that it has to meet, 0 for an answer.
const CLOSES: [usize; 8] = [0, 1, 2, 3, 4, 5, 6, 15];

/// The kinds of cases that have lists, and the one that has runs.
const LISTS: [(Kind, &str); 3] = [
    (Kind::Read, "lists"),
    (Kind::Writes, "lists for their writes"),
    (Kind::Pieces, "lists in pieces"),
];
const RUNS: (Kind, &str) = (Kind::Pack, "runs");

/// What is told of a list or a run beside its answer.
#[derive(Clone, Copy, Default)]
pub struct Told {
    /// Whether it has a command or a write with mask 0, and no other.
    mask_0: bool,
    mask_0_alone: bool,
    /// Whether its commands would be refused too, where its length is refused
    /// with 15.
    also_refused: bool,
}

impl Told {
    pub fn of_list(list: &[u32], given: u64) -> Told {
        let (with, all) = mask_0_commands(list);
        Told {
            mask_0: with > 0,
            mask_0_alone: with > 0 && with == all,
            also_refused: given >> 32 == 15 && commands_refused(list),
        }
    }

    pub fn of_run(masks: &[u32]) -> Told {
        let with = masks.iter().filter(|mask| **mask == 0).count();
        Told {
            mask_0: with > 0,
            mask_0_alone: with > 0 && with == masks.len(),
            also_refused: false,
        }
    }
}

/// What a call gave back, and how many writes of its list made a difference,
/// where it has a list that wasn't refused.
#[derive(Clone, Copy)]
pub struct Answer {
    pub given: u64,
    pub differences: u32,
    pub told: Told,
}

impl Answer {
    pub fn new(given: u64) -> Answer {
        Answer {
            given,
            differences: 0,
            told: Told::default(),
        }
    }

    fn number(&self) -> usize {
        (self.given >> 32) as usize
    }
}

/// Of the lists or runs of a kind of cases.
#[derive(Clone, Copy, Default)]
struct Filled {
    /// Answered; of these with mask 0, and with mask 0 alone.
    answered: [u64; 3],
    /// Refused with 15; of these with commands that would be refused too.
    refused: [u64; 2],
}

impl Filled {
    fn count(&mut self, number: usize, told: Told) {
        let [mask_0, alone, also] =
            [told.mask_0, told.mask_0_alone, told.also_refused].map(u64::from);
        match number {
            0 => add(&mut self.answered, &[1, mask_0, alone]),
            15 => add(&mut self.refused, &[1, also]),
            _ => {}
        }
    }
}

#[derive(Clone, Default)]
pub struct Tally {
    cases: [u64; KINDS.len()],
    answered: [u64; KINDS.len()],
    refused: [u64; NUMBERS],
    verdicts: [u64; 4],
    closes: [u64; NUMBERS],
    /// Of the lists with writes, read at once and in pieces: how many made no
    /// difference, some, and one with each write.
    read: [u64; 3],
    in_pieces: [u64; 3],
    /// Single writes, by their answer.
    alone: [u64; 2],
    /// Lists and runs, by kinds of cases.
    filled: [Filled; KINDS.len()],
}

fn add(mine: &mut [u64], theirs: &[u64]) {
    mine.iter_mut().zip(theirs).for_each(|(a, b)| *a += b);
}

fn row(counts: &[u64]) -> String {
    let counts: Vec<String> = counts.iter().map(u64::to_string).collect();
    counts.join("/")
}

/// Counts a list that was read.
fn count_differences(lists: &mut [u64; 3], writes: usize, differences: usize) {
    match differences {
        _ if writes == 0 => {}
        0 => lists[0] += 1,
        all if all == writes => lists[2] += 1,
        _ => lists[1] += 1,
    }
}

impl Tally {
    /// Counts a case: a call's answer, or a session's closes, of which the last
    /// one says whether the session was answered.
    pub fn count(&mut self, kind: Kind, answers: &[Answer]) {
        self.cases[kind as usize] += 1;
        self.answered[kind as usize] +=
            u64::from(answers.last().is_some_and(|last| last.number() == 0));
        for answer in answers {
            let (number, low) = (answer.number(), answer.given as u32 as usize);
            let differences = answer.differences as usize;
            self.refused[number] += 1;
            self.filled[kind as usize].count(number, answer.told);
            if kind == Kind::Pieces {
                self.closes[number] += 1;
            }
            match kind {
                _ if number != 0 => {}
                Kind::Fragment => self.verdicts[low] += 1,
                Kind::Read => count_differences(&mut self.read, low, differences),
                Kind::Pieces => count_differences(&mut self.in_pieces, low, differences),
                Kind::Write => self.alone[low] += 1,
                _ => {}
            }
        }
    }

    pub fn add(&mut self, other: &Tally) {
        add(&mut self.cases, &other.cases);
        add(&mut self.answered, &other.answered);
        add(&mut self.refused, &other.refused);
        add(&mut self.verdicts, &other.verdicts);
        add(&mut self.closes, &other.closes);
        add(&mut self.read, &other.read);
        add(&mut self.in_pieces, &other.in_pieces);
        add(&mut self.alone, &other.alone);
        for (mine, theirs) in self.filled.iter_mut().zip(&other.filled) {
            add(&mut mine.answered, &theirs.answered);
            add(&mut mine.refused, &theirs.refused);
        }
    }

    pub fn text(&self) -> String {
        let kinds = KINDS.map(|(kind, name)| {
            let (cases, answered) = (self.cases[kind as usize], self.answered[kind as usize]);
            format!("{name} {cases} ({answered} answered)")
        });
        let refused = REFUSALS.map(|number| format!("{number}:{}", self.refused[number]));
        let filled = LISTS.map(|(kind, name)| {
            let Filled { answered, refused } = &self.filled[kind as usize];
            format!("{name} {}, {}", row(answered), row(refused))
        });
        format!(
            "{}; verdicts {}; closes {}; differences by none, some, all writes {}, in pieces {}, \
             single writes without, with {}; answered, with mask 0, with no other, and refused \
             with 15, with commands at fault: {}; runs {}; refused {}",
            kinds.join(", "),
            row(&self.verdicts),
            row(&CLOSES.map(|number| self.closes[number])),
            row(&self.read),
            row(&self.in_pieces),
            row(&self.alone),
            filled.join(", "),
            row(&self.filled[RUNS.0 as usize].answered),
            refused.join(" ")
        )
    }

    /// What a run should have met and didn't: a generator that only makes
    /// refusals, or never makes one of them, tests too little.
    pub fn lacks(&self) -> Vec<String> {
        let mut lacks = Vec::new();
        for (kind, name) in KINDS {
            if self.answered[kind as usize] * 5 < self.cases[kind as usize] {
                lacks.push(format!("under a fifth of {name} answered"));
            }
        }
        for number in REFUSALS {
            if self.refused[number] == 0 {
                lacks.push(format!("refusal {number} not met"));
            }
        }
        for (verdict, &count) in self.verdicts.iter().enumerate() {
            if count == 0 {
                lacks.push(format!("verdict {verdict} not met"));
            }
        }
        for number in CLOSES {
            if self.closes[number] == 0 {
                lacks.push(format!("close with {number} not met"));
            }
        }
        self.lacks_of_differences(&mut lacks);
        self.lacks_of_filling(&mut lacks);
        lacks
    }

    fn lacks_of_differences(&self, lacks: &mut Vec<String>) {
        let judged: [(&str, &[u64]); 3] = [
            ("lists", &self.read),
            ("lists in pieces", &self.in_pieces),
            ("single writes", &self.alone),
        ];
        for (name, counts) in judged {
            let all: u64 = counts.iter().sum();
            if counts.iter().any(|count| count * 20 < all) {
                lacks.push(format!(
                    "under a twentieth of {name} of a kind by differences"
                ));
            }
        }
    }

    fn lacks_of_filling(&self, lacks: &mut Vec<String>) {
        for (kind, name) in LISTS.into_iter().chain([RUNS]) {
            let [all, mask_0, alone] = self.filled[kind as usize].answered;
            // Some, but not nearly all.
            if mask_0 * 4 < all || mask_0 * 8 > all * 7 {
                lacks.push(format!("under a quarter or over 7/8 of {name} with mask 0"));
            }
            if alone * 200 < all {
                lacks.push(format!("hardly any {name} of mask 0 alone"));
            }
        }
        for (kind, name) in LISTS {
            let [all, also] = self.filled[kind as usize].refused;
            let cases = self.cases[kind as usize];
            if all * 20 < cases || also * 4 < all || also * 4 > all * 3 {
                lacks.push(format!(
                    "under a twentieth of {name} refused with 15, or of these under a quarter with \
                     commands at fault, or with good ones"
                ));
            }
        }
    }
}
