//! Caches made by hand. Passes (document 02, item 8) are drawn apart, so that all other bytes are
//! those that a seed gave before slots had them.

use crate::book::{Book, Header};
use crate::case::{Case, Expected};
use crate::random::Random;
use crate::reply::Limits;
use crate::slot::{DEPTH, FLAGS, HELD, PASSES, RESULT};

/// A well-formed cache of any content.
pub fn made(r: &mut Random, header: &Header) -> Vec<u8> {
    let mut cache = vec![0; header.cache_len()];
    let held = r.choose(&[5, 20, 50, 90]);
    let flags = r.choose(&[0, 10, 40]);
    for (i, slot) in cache.chunks_mut(header.slot_len()).enumerate() {
        if r.chance(held) {
            fill(r, header, i % header.slots_per_goal(), flags, slot);
        }
    }
    cache
}

/// Fills slot `number` of a goal; `flags` in a hundred nested goals are present.
fn fill(r: &mut Random, header: &Header, number: usize, flags: usize, slot: &mut [u8]) {
    slot[HELD] = 1;
    slot[PASSES] = passes(&mut r.apart(), header);
    slot[RESULT] = r.choose(&[0, 1, 0, 1, 2, 3]);
    slot[DEPTH] = if number == 0 { r.below(header.top_depth + 1) } else { number - 1 } as u8;
    for nested in &mut slot[FLAGS..] {
        *nested = if r.chance(flags) { r.between(1, 31) as u8 } else { 0 };
    }
}

/// The fewest, the most, or any number between.
fn passes(r: &mut Random, header: &Header) -> u8 {
    let any = r.between(1, header.most_passes());
    r.choose(&[1, header.most_passes(), any]) as u8
}

/// Success slots of any result that name goal 0, so that they are passed over below it.
pub fn unusable(r: &mut Random, header: &Header) -> Vec<u8> {
    let mut cache = vec![0; header.cache_len()];
    let held = r.choose(&[20, 50, 90]);
    for goal in 0..header.goals {
        if goal == 0 || r.chance(held) {
            let start = goal * header.slots_per_goal() * header.slot_len();
            let slot = &mut cache[start..start + header.slot_len()];
            fill(r, header, 0, 20, slot);
            slot[DEPTH] = if goal == 0 { header.top_depth as u8 } else { slot[DEPTH] };
            slot[FLAGS] = r.between(1, 31) as u8;
        }
    }
    cache
}

/// What other queries leave behind, with one to four slots changed.
pub fn changed(r: &mut Random, book: &Book, case: &Case) -> Vec<u8> {
    let header = &book.header;
    let queries = (0..r.between(1, 3)).map(|_| super::query(r, book, 0)).collect();
    let before = Case { queries, ..case.clone() };
    let mut cache = case.cache.clone();
    for reply in before.replies(Limits { fuel: 5_000, ..Limits::default() }) {
        if let Some(Expected::Reply { cache: Some(after), .. }) = reply {
            cache = after;
        }
    }
    let slots = header.goals * header.slots_per_goal();
    for _ in 0..r.between(1, 4) {
        let held: Vec<usize> =
            (0..slots).filter(|slot| cache[slot * header.slot_len() + HELD] == 1).collect();
        let number = if held.is_empty() || r.chance(20) { r.below(slots) } else { r.choose(&held) };
        let start = number * header.slot_len();
        let slot = &mut cache[start..start + header.slot_len()];
        if slot[HELD] == 0 {
            fill(r, header, number % header.slots_per_goal(), 20, slot);
        } else if r.chance(30) {
            slot.fill(0);
        } else {
            change(r, header, number % header.slots_per_goal(), slot);
        }
    }
    cache
}

/// Another result, required depth or nested goal, and half of the time other passes.
fn change(r: &mut Random, header: &Header, number: usize, slot: &mut [u8]) {
    let mut apart = r.apart();
    if apart.chance(50) {
        slot[PASSES] = passes(&mut apart, header);
    }
    let success = number == 0;
    match r.below(5) {
        0 => slot[RESULT] = r.below(4) as u8,
        1 if success => slot[DEPTH] = r.below(header.top_depth + 1) as u8,
        2 if success => {
            slot[RESULT] = r.below(4) as u8;
            slot[DEPTH] = header.top_depth as u8;
        }
        3 => {
            slot[RESULT] = r.below(4) as u8;
            slot[FLAGS + r.below(header.goals)] = r.between(1, 31) as u8;
        }
        _ => slot[FLAGS + r.below(header.goals)] = r.below(32) as u8,
    }
}

/// One to three bytes that break a slot, or do so nearly; now and then passes alone.
pub fn damage(r: &mut Random, header: &Header, cache: &mut [u8]) {
    let mut apart = r.apart();
    if apart.chance(25) {
        return damage_passes(&mut apart, header, cache);
    }
    for _ in 0..r.choose(&[1, 1, 1, 2, 3]) {
        let start = r.below(cache.len() / header.slot_len()) * header.slot_len();
        let slot = &mut cache[start..start + header.slot_len()];
        match r.below(6) {
            0 => slot[HELD] = r.choose(&[0, 1, 2, 255]),
            1 => slot[RESULT] = r.choose(&[3, 4, 5, 255]),
            2 => {
                slot[DEPTH] =
                    r.choose(&[0, header.top_depth as u8, header.top_depth as u8 + 1, 255]);
            }
            3 => slot[FLAGS + r.below(header.goals)] = r.choose(&[31, 32, 64, 255]),
            4 => slot[r.below(header.slot_len())] = r.number() as u8,
            _ => slot[HELD] ^= 1,
        }
    }
}

/// Passes of a slot at their limits or beyond; of a vacant one where none is held.
fn damage_passes(r: &mut Random, header: &Header, cache: &mut [u8]) {
    let is_held = |start: &usize| cache[*start + HELD] == 1;
    let starts: Vec<usize> = (0..cache.len()).step_by(header.slot_len()).collect();
    let held: Vec<usize> = starts.iter().copied().filter(is_held).collect();
    let any = held.is_empty() || r.chance(15);
    let start = r.choose(if any { &starts } else { &held });
    let most = header.most_passes() as u8;
    cache[start + PASSES] = r.choose(&[0, 0, 1, most, most + 1, most + 1, 100, 255]);
}
