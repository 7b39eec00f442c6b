//! The packer against all lists, for every short run of writes.

use std::collections::HashMap;

use super::commands::{expand, Write};
use super::faults::NONE;
use super::lengths::{filled, list_length};
use super::pack;
use super::packing::{command_words, commands};

/// What a short run is made of; with mask 0 a write is dropped.
const IDS: [u32; 3] = [0x41, 0x42, 0x43];
const MASKS: [u32; 3] = [0, 1, 0xF];
const LONGEST_RUN: u32 = 6;

/// Commands with mask 0 begin here; rising ids come from 23B to a jump register,
/// and E8 is refused at once.
const FILLING_IDS: [u32; 4] = [0, 0x42, 0x23B, 0xE8];

/// What stands in the parameters that belong to no expansion.
const ANY_VALUE: u32 = 0xAAAA_AAAA;

/// The headers of commands that have this many words.
fn headers(words: usize, ids: &[u32], masks: &[u32]) -> Vec<u32> {
    let extras = match words as u32 {
        2 => 0..=0,
        words => words - 3..=words - 2,
    };
    let mut headers = Vec::new();
    for extra in extras {
        for id in ids {
            for mask in masks {
                let header = id | mask << 16 | extra << 20;
                headers.extend([header, header | 1 << 31]);
            }
        }
    }
    headers
}

/// Every command of this many words. The values of an expansion's writes are
/// numbers from 1 on, so that no list says them in another order.
fn every_command(words: usize, filling: bool) -> Vec<u32> {
    let mut all = headers(words, &IDS, &MASKS[1..]);
    if filling {
        all.extend(headers(words, &FILLING_IDS, &[0]));
    }
    all
}

/// Goes on with every command, up to a number of words in all.
fn every_list(
    list: &mut Vec<u32>,
    said: u32,
    left: usize,
    filling: bool,
    visit: &mut impl FnMut(&[u32]),
) {
    if left == 0 {
        visit(list);
    }
    let start = list.len();
    for words in (2..=left).step_by(2) {
        for header in every_command(words, filling) {
            let (mask, writes) = (header >> 16 & 15, 1 + (header >> 20 & 255));
            let mut value = said..;
            for word in 0..words as u32 {
                list.push(match word {
                    1 => header,
                    _ if word > writes => 0,
                    _ if mask == 0 => ANY_VALUE,
                    _ => value.next().expect("a number"),
                });
            }
            let said = if mask == 0 { said } else { said + writes };
            every_list(list, said, left - words, filling, visit);
            list.truncate(start);
        }
    }
}

fn expansion(list: &[u32]) -> Option<Vec<Write>> {
    let mut writes = Vec::new();
    expand::<NONE>(list, &mut writes).ok()?;
    Some(writes)
}

/// The fewest words of accepted lists of up to 8 words, by their expansions:
/// every list of legal length, with commands of mask 0 anywhere in it.
fn fewest_words() -> HashMap<Vec<Write>, usize> {
    let mut fewest = HashMap::new();
    for words in [0, 4, 8] {
        every_list(&mut Vec::new(), 1, words, true, &mut |list| {
            assert_eq!(list_length::<NONE>(list), Ok(()));
            if let Some(writes) = expansion(list) {
                fewest.entry(writes).or_insert(words);
            }
        });
    }
    fewest
}

/// How many writes each command of a list carries.
fn carried(list: &[u32]) -> Vec<u32> {
    let firsts = super::firsts(list).into_iter();
    firsts
        .map(|first| 1 + (list[first + 1] >> 20 & 255))
        .collect()
}

fn lone_with_bit_31(list: &[u32]) -> bool {
    let mut headers = super::firsts(list).into_iter().map(|first| list[first + 1]);
    headers.any(|header| header >> 20 & 255 == 0 && header >> 31 == 1)
}

/// Document 01's lists, by their expansions, before anything is filled: the
/// shortest, of these the one whose first command carries the most writes, then
/// its second.
fn lists_before_filling() -> HashMap<Vec<Write>, Vec<u32>> {
    let mut best: HashMap<Vec<Write>, Vec<u32>> = HashMap::new();
    for words in (0..=2 * LONGEST_RUN as usize).step_by(2) {
        every_list(&mut Vec::new(), 1, words, false, &mut |list| {
            if lone_with_bit_31(list) || carried(list).iter().sum::<u32>() > LONGEST_RUN {
                return;
            }
            let writes = expansion(list).expect("all of these are accepted");
            let known = best.entry(writes).or_insert_with(|| list.to_vec());
            // Shorter lists were met before.
            if known.len() == list.len() && carried(list) > carried(known) {
                *known = list.to_vec();
            }
        });
    }
    best
}

/// A run by its number, and the writes of it that are left.
fn numbered_run(mut number: u32, length: u32) -> ([Vec<u32>; 3], Vec<Write>) {
    let mut run = [Vec::new(), Vec::new(), Vec::new()];
    let mut kept = Vec::new();
    for _ in 0..length {
        let (id, mask) = (IDS[number as usize % 3], MASKS[number as usize / 3 % 3]);
        let value = match mask {
            0 => ANY_VALUE,
            _ => kept.len() as u32 + 1,
        };
        if mask != 0 {
            kept.push(Write { id, mask, value });
        }
        for (part, word) in run.iter_mut().zip([id, mask, value]) {
            part.push(word);
        }
        number /= 9;
    }
    (run, kept)
}

/// No accepted list with the same expansion has fewer words than what is packed,
/// which is document 01's list and then at most a pair.
#[test]
fn no_list_of_legal_length_is_shorter() {
    let fewest = fewest_words();
    let before_filling = lists_before_filling();
    for length in 0..=LONGEST_RUN {
        for number in 0..9_u32.pow(length) {
            let ([ids, masks, values], kept) = numbered_run(number, length);
            let mut space = vec![9; 2 * ids.len() + 2];
            let words = pack::<NONE>(&ids, &masks, &values, &mut space) as usize;
            let list = &space[..words];
            let before = &before_filling[&kept];
            assert_eq!(words, filled(before.len()), "{ids:X?} {masks:X?}");
            assert_eq!(list[..before.len()], before[..]);
            assert!(list[before.len()..].iter().all(|word| *word == 0));
            assert!(words - before.len() <= 2 && space[words..].iter().all(|word| *word == 9));
            assert_eq!(list_length::<NONE>(list), Ok(()));
            assert_eq!(expansion(list).as_ref(), Some(&kept));
            match fewest.get(&kept) {
                Some(fewest) => assert_eq!(words, *fewest),
                // Longer than all lists that were looked at, by no more than it must.
                None => assert_eq!(words, 12),
            }
        }
    }
}

/// Every way to part `left` writes into commands.
fn partings(left: usize) -> Vec<Vec<usize>> {
    if left == 0 {
        return vec![Vec::new()];
    }
    let mut all = Vec::new();
    for first in 1..=left {
        for mut rest in partings(left - first) {
            rest.insert(0, first);
            all.push(rest);
        }
    }
    all
}

fn carried_by_one(ids: &[u32]) -> bool {
    let equal = ids.windows(2).all(|pair| pair[0] == pair[1]);
    equal || ids.windows(2).all(|pair| pair[0] + 1 == pair[1])
}

fn is_list(ids: &[u32], parting: &[usize]) -> bool {
    let mut first = 0;
    parting.iter().all(|carried| {
        first += carried;
        carried_by_one(&ids[first - carried..first])
    })
}

/// Against the document's words taken literally, for all runs of nine equal,
/// rising and unrelated ids.
#[test]
fn shortest_and_greatest() {
    for shape in 0..3_u32.pow(8) {
        let mut ids = vec![0x40];
        for place in 0..8 {
            let step = [0, 1, 9][(shape / 3_u32.pow(place) % 3) as usize];
            ids.push(ids[place as usize] + step);
        }
        let lists = partings(ids.len())
            .into_iter()
            .filter(|parting| is_list(&ids, parting));
        let words = |parting: &Vec<usize>| -> usize {
            parting.iter().map(|&carried| command_words(carried)).sum()
        };
        let best = lists.max_by_key(|parting| (std::cmp::Reverse(words(parting)), parting.clone()));
        let best = best.expect("lone writes are always a list");
        let (mask, value) = (1, 1);
        let writes: Vec<Write> = ids.iter().map(|&id| Write { id, mask, value }).collect();
        assert_eq!(commands::<NONE>(&writes), (words(&best), best), "{ids:X?}");
    }
}
