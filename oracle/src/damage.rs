//! Cases with a fault or two, most of which a call must refuse.

use crate::cases::Case;
use crate::generate;
use crate::numbers::Numbers;

const HUGE: [usize; 6] = [usize::MAX, usize::MAX - 1, 1 << 63, 1 << 32, 65_536, 4_097];

fn some_size(numbers: &mut Numbers) -> usize {
    match numbers.below(3) {
        0 => numbers.below(4),
        1 => numbers.from_to(60, 70),
        _ => numbers.one_of(&HUGE),
    }
}

/// Longer or shorter by a few.
fn resize<T: Clone + Default>(items: &mut Vec<T>, numbers: &mut Numbers) {
    let by = numbers.from_to(1, 4);
    if numbers.percent(50) {
        items.truncate(items.len().saturating_sub(by));
    } else {
        items.resize(items.len() + by, T::default());
    }
}

fn resize_room(length: &mut usize, numbers: &mut Numbers) {
    *length = if numbers.percent(50) {
        length.saturating_sub(numbers.from_to(1, 3))
    } else {
        *length + numbers.from_to(1, 3)
    };
}

fn change(items: &mut [u32], numbers: &mut Numbers) {
    if !items.is_empty() {
        let k = numbers.below(items.len());
        items[k] = match numbers.below(4) {
            0 => numbers.word(),
            1 => u32::MAX,
            2 => items[k].wrapping_add(1),
            _ => items[k].wrapping_sub(1),
        };
    }
}

fn damage_ids(case: &mut Case, numbers: &mut Numbers) {
    if case.ids.is_empty() {
        return;
    }
    let k = numbers.below(case.ids.len());
    match numbers.below(4) {
        0 => case.ids[k] = (numbers.word() & 255) as u8,
        1 => case.ids[k] = numbers.below(case.count.max(1)) as u8,
        2 => case.ids[k] = case.count as u8,
        _ => {
            // an id less, with its offsets brought in line: the lists then disagree, or one is empty
            case.ids.remove(k);
            for offset in case.offsets.iter_mut().filter(|o| **o as usize > k) {
                *offset -= 1;
            }
        }
    }
}

fn damage_once(case: &mut Case, numbers: &mut Numbers) {
    match numbers.below(16) {
        0 => case.count = some_size(numbers),
        1 => case.width = some_size(numbers),
        2 => case.height = some_size(numbers),
        3 => case.mode = numbers.one_of(&[4, 5, 7, usize::MAX]),
        4 => resize(&mut case.weights, numbers),
        5 => resize(&mut case.offsets, numbers),
        6 => resize(&mut case.ids, numbers),
        7 => resize(&mut case.noise, numbers),
        8 => {
            let room = &mut case.room;
            let lengths = [
                &mut room.domains,
                &mut room.counts,
                &mut room.pending,
                &mut room.floats,
                &mut room.marks,
            ];
            resize_room(lengths[numbers.below(5)], numbers);
        }
        9 => change(&mut case.weights, numbers),
        10 => change(&mut case.offsets, numbers),
        11 | 12 => damage_ids(case, numbers),
        13 => change(&mut case.forbids, numbers),
        14 => resize(&mut case.forbids, numbers),
        _ => {
            // one forbid too many, or just not
            let many = numbers.one_of(&[4095, 4096, 4097]);
            case.forbids = (0..3 * many)
                .map(|k| if k % 3 == 1 { 0 } else { (k % 3) as u32 / 2 })
                .collect();
        }
    }
}

/// The damaged case of this seed and number.
pub fn damaged(seed: u64, number: u64) -> Case {
    let mut case = generate::random(seed ^ 0xda3a_9ed, number);
    let mut numbers = Numbers::new(seed.wrapping_add(number << 20) ^ 0x51de);
    case.name = format!("damaged {} {}", seed, number);
    for _ in 0..numbers.one_of(&[1, 1, 1, 2, 3]) {
        damage_once(&mut case, &mut numbers);
    }
    case
}
