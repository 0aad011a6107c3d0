//! Every refusal of every call, in the call's order: each input has all the later faults of its call, too.

mod common;

use common::{checker, Lent};
use murghidossu::*;
use Refusal::*;

/// Faults that are put in one after the other, from the last in a call's order to the first.
fn with(faults: &[fn(&mut Lent)]) -> Lent {
    let mut lent = checker();
    for fault in faults {
        fault(&mut lent);
    }
    lent
}

const DISAGREE: fn(&mut Lent) = |l| l.ids[0] = 0;
const LIST: fn(&mut Lent) = |l| l.ids[1] = 9;
const WEIGHTS: fn(&mut Lent) = |l| l.weights[0] = 1023;
const LENGTH: fn(&mut Lent) = |l| l.offsets.truncate(8);
const WRAP: fn(&mut Lent) = |l| l.grid.mode = 4;
const SIZE: fn(&mut Lent) = |l| l.grid.width = 65;
const COUNT: fn(&mut Lent) = |l| l.count = 0;
const CELL: fn(&mut Lent) = |l| {
    l.forbids.insert(
        0,
        Forbid {
            cell: 2,
            pattern: 2,
            keep: 0,
        },
    )
};
const PATTERN: fn(&mut Lent) = |l| {
    l.forbids.insert(
        0,
        Forbid {
            cell: 1,
            pattern: 2,
            keep: 0,
        },
    )
};

#[test]
fn check_table_refuses() {
    let told = |faults: &[fn(&mut Lent)]| check_table(with(faults).table());
    assert_eq!(told(&[]), Ok(()));
    assert_eq!(told(&[DISAGREE]), Err(Disagree));
    assert_eq!(told(&[DISAGREE, LIST]), Err(BadList));
    assert_eq!(told(&[DISAGREE, LIST, WEIGHTS]), Err(BadWeights));
    assert_eq!(told(&[DISAGREE, LIST, WEIGHTS, LENGTH]), Err(BadLength));
    assert_eq!(told(&[DISAGREE, LIST, WEIGHTS, LENGTH, COUNT]), Err(BadCount));
}

#[test]
fn list_refuses() {
    let told = |faults: &[fn(&mut Lent)], pattern, direction| {
        let lent = with(faults);
        let told = list(lent.table(), pattern, direction).map(|part| part.to_vec());
        assert_eq!(told.clone().map(|_| ()), list_refusal(lent.table(), pattern, direction));
        told
    };
    assert_eq!(told(&[], 1, WEST), Ok(vec![0]));
    assert_eq!(told(&[], 2, WEST), Err(BadPattern));
    assert_eq!(told(&[], 2, 4), Err(BadDirection));
    assert_eq!(told(&[DISAGREE], 2, 4), Err(Disagree));
    assert_eq!(told(&[DISAGREE, LIST], 2, 4), Err(BadList));
    assert_eq!(told(&[DISAGREE, LIST, LENGTH], 2, 4), Err(BadLength));
    assert_eq!(told(&[DISAGREE, LIST, LENGTH, COUNT], 2, 4), Err(BadCount));
}

#[test]
fn neighbour_refuses() {
    let grid = |width, height, mode| Grid { width, height, mode };
    assert_eq!(neighbour(grid(3, 2, WRAP_NONE), 0, NORTH), Ok(None));
    assert_eq!(neighbour(grid(3, 2, WRAP_NONE), 0, SOUTH), Ok(Some(3)));
    assert_eq!(neighbour(grid(3, 2, WRAP_X), 0, WEST), Ok(Some(2)));
    assert_eq!(neighbour(grid(3, 2, WRAP_Y), 0, NORTH), Ok(Some(3)));
    assert_eq!(neighbour(grid(32, 32, WRAP_BOTH), 1024, 3), Err(BadCell));
    assert_eq!(neighbour(grid(32, 32, WRAP_BOTH), 1024, 4), Err(BadDirection));
    assert_eq!(neighbour(grid(32, 32, 4), 1024, 4), Err(BadWrap));
    assert_eq!(neighbour(grid(32, 33, 4), usize::MAX, usize::MAX), Err(BadSize));
    assert_eq!(neighbour(grid(usize::MAX, usize::MAX, 0), 0, 0), Err(BadSize));
}

#[test]
fn entropy_and_choice_refuse() {
    for (count, weights, domain, wanted) in [
        (2, &[2, 3][..], 4, BadPattern),
        (2, &[1024, 1][..], 4, BadWeights),
        (2, &[u32::MAX, u32::MAX][..], 0, BadWeights),
        (3, &[1024, 1][..], 4, BadLength),
        (65, &[1024, 1][..], 4, BadCount),
        (0, &[][..], 1, BadCount),
    ] {
        assert_eq!(entropy_of(count, weights, domain), Err(wanted));
        assert_eq!(choice_of(count, weights, domain, 0), Err(wanted));
    }
    assert_eq!(entropy_of(2, &[2, 0], 2), Ok(None));
    assert_eq!(entropy_of(2, &[1, 1], 3), Ok(Some(1.0)));
    assert_eq!(choice_of(2, &[2, 0], 2, 7), Ok(None));
    let chosen: Vec<_> = [1, 2, 4, 5]
        .iter()
        .map(|&word| choice_of(2, &[2, 3], 3, word))
        .collect();
    assert_eq!(chosen, [Ok(Some(0)), Ok(Some(1)), Ok(Some(1)), Ok(Some(0))]);
}

#[test]
fn propagate_refuses() {
    let told = |faults: &[fn(&mut Lent)], domains: [u64; 2]| {
        let lent = with(faults);
        let mut room = lent.room();
        room.domains = domains.to_vec();
        let before = room.clone();
        let told = propagate(
            lent.table(),
            lent.grid,
            &mut room.domains,
            &mut room.counts,
            &mut room.pending,
        );
        assert!(told.is_ok() || room == before);
        (told, room.domains)
    };
    assert_eq!(told(&[], [1, 3]), (Ok(Propagated::Consistent), vec![1, 2]));
    assert_eq!(told(&[], [1, 1]), (Ok(Propagated::Contradiction), vec![0, 0]));
    assert_eq!(told(&[], [1, 4]).0, Err(BadPattern));
    assert_eq!(told(&[DISAGREE], [1, 4]).0, Err(Disagree));
    assert_eq!(told(&[DISAGREE, LIST], [1, 4]).0, Err(BadList));
    assert_eq!(told(&[DISAGREE, LIST, LENGTH], [1, 4]).0, Err(BadLength));
    assert_eq!(told(&[DISAGREE, LIST, LENGTH, WRAP], [1, 4]).0, Err(BadWrap));
    assert_eq!(told(&[DISAGREE, LIST, LENGTH, WRAP, SIZE], [1, 4]).0, Err(BadSize));
    assert_eq!(
        told(&[DISAGREE, LIST, LENGTH, WRAP, SIZE, COUNT], [1, 4]).0,
        Err(BadCount)
    );
}

type Faulty = (Refusal, &'static [fn(&mut Lent)]);

const IN_ORDER: [Faulty; 9] = [
    (BadPattern, &[CELL, PATTERN]),
    (BadCell, &[PATTERN, CELL]),
    (Disagree, &[PATTERN, CELL, DISAGREE]),
    (BadList, &[PATTERN, CELL, DISAGREE, LIST]),
    (BadWeights, &[PATTERN, CELL, DISAGREE, LIST, WEIGHTS]),
    (BadLength, &[PATTERN, CELL, DISAGREE, LIST, WEIGHTS, LENGTH]),
    (BadWrap, &[PATTERN, CELL, DISAGREE, LIST, WEIGHTS, LENGTH, WRAP]),
    (BadSize, &[PATTERN, CELL, DISAGREE, LIST, WEIGHTS, LENGTH, WRAP, SIZE]),
    (
        BadCount,
        &[PATTERN, CELL, DISAGREE, LIST, WEIGHTS, LENGTH, WRAP, SIZE, COUNT],
    ),
];

#[test]
fn runs_and_write_refuse() {
    for (wanted, faults) in IN_ORDER {
        let lent = with(faults);
        let mut room = lent.room();
        let before = room.clone();
        let mut out = vec![0xa5; 2000];
        assert_eq!(
            run(
                &lent.forbids,
                lent.table(),
                lent.grid,
                &lent.noise,
                &lent.words,
                room.lend()
            ),
            Err(wanted)
        );
        let with_result = run_result(
            &lent.forbids,
            lent.table(),
            lent.grid,
            &lent.noise,
            &lent.words,
            room.lend(),
            &mut out,
        );
        assert_eq!(with_result, Err(wanted));
        assert_eq!(write(lent.table(), lent.grid, &lent.forbids, &mut out), Err(wanted));
        assert!(room == before && out.iter().all(|&b| b == 0xa5));
    }
}

/// Every slice of a run that has one length, one entry longer and one shorter; then forbids and the result.
#[test]
fn runs_refuse_each_length() {
    let changed: [fn(&mut Lent); 6] = [
        |l| l.weights.push(0),
        |l| l.offsets.push(8),
        |l| l.noise.push(0),
        |l| l.weights.truncate(1),
        LENGTH,
        |l| l.noise.truncate(1),
    ];
    for (k, change) in changed.into_iter().enumerate() {
        let lent = with(&[change]);
        let mut room = lent.room();
        let before = room.clone();
        assert_eq!(
            run(&[], lent.table(), lent.grid, &lent.noise, &[], room.lend()),
            Err(BadLength),
            "{k}"
        );
        assert!(room == before, "{k}");
    }
    let lent = checker();
    for k in 0..10 {
        let mut room = lent.room();
        match k {
            0 => room.domains.push(0),
            1 => room.counts.push(0),
            2 => room.pending.push(0),
            3 => room.floats.push(0.0),
            4 => room.marks.push(0),
            5 => drop(room.domains.pop()),
            6 => drop(room.counts.pop()),
            7 => drop(room.pending.pop()),
            8 => drop(room.floats.pop()),
            _ => drop(room.marks.pop()),
        }
        let before = room.clone();
        assert_eq!(
            run(&[], lent.table(), lent.grid, &lent.noise, &[], room.lend()),
            Err(BadLength),
            "{k}"
        );
        assert!(room == before, "{k}");
    }
    assert_eq!(
        run_numbers(&[0, 0], lent.table(), lent.grid, &lent.noise, &[], lent.room().lend()),
        Err(BadLength)
    );
    let many = vec![Forbid::default(); 4097];
    assert_eq!(
        run(&many, lent.table(), lent.grid, &lent.noise, &[], lent.room().lend()),
        Err(BadLength)
    );
    let mut out = [0; 25];
    assert_eq!(
        run_result(
            &[],
            lent.table(),
            lent.grid,
            &lent.noise,
            &[],
            lent.room().lend(),
            &mut out
        ),
        Err(BadLength)
    );
}

#[test]
fn sheets_refuse() {
    let sheet = |faults: &[fn(&mut Lent)]| {
        // what cannot be written is put into the bytes of what can
        let mut lent = with(faults);
        let mut bytes = vec![1u8, 0];
        bytes.extend((lent.weights.len() as u16).to_le_bytes());
        lent.weights
            .iter()
            .for_each(|&w| bytes.extend((w as u16).to_le_bytes()));
        let mut all = record(bytes);
        let mut bytes = vec![2u8, 0];
        lent.offsets.resize(9, 8);
        for pair in lent.offsets.windows(2) {
            bytes.push((pair[1] - pair[0]) as u8);
            bytes.extend(&lent.ids[pair[0] as usize..pair[1] as usize]);
        }
        all.extend(record(bytes));
        let mut bytes = vec![3u8, 0];
        [lent.grid.width, lent.grid.height, lent.grid.mode]
            .iter()
            .for_each(|&n| bytes.extend((n as u16).to_le_bytes()));
        all.extend(record(bytes));
        let mut bytes = vec![4u8, 0];
        lent.forbids
            .iter()
            .flat_map(|f| [f.cell, f.pattern, f.keep])
            .for_each(|n| bytes.extend((n as u16).to_le_bytes()));
        all.extend(record(bytes));
        all
    };
    let told = |sheet: &[u8], patterns: usize| {
        let (mut weights, mut offsets, mut ids) = (vec![7; patterns], vec![7; 4 * patterns + 1], vec![7; 8]);
        let mut forbids = vec![Forbid::default(); 2];
        let told = read(sheet, &mut weights, &mut offsets, &mut ids, &mut forbids);
        assert!(
            told.is_ok()
                || (weights.iter().chain(&offsets).all(|&x| x == 7)
                    && ids == [7; 8]
                    && forbids == [Forbid::default(); 2])
        );
        told.map(|_| ())
    };
    assert_eq!(told(&sheet(&[]), 2), Ok(()));
    for (wanted, faults) in IN_ORDER {
        // a sheet's lengths are its own, and its patterns are as many as its weights
        match wanted {
            BadLength => assert_eq!(told(&sheet(&faults[..5]), 3), Err(BadLength)),
            BadCount => assert_eq!(told(&record_of_no_patterns(), 0), Err(BadCount)),
            _ => assert_eq!(told(&sheet(faults), 2), Err(wanted)),
        }
    }
    let whole = sheet(&[]);
    for cut in 0..whole.len() {
        assert_eq!(
            (told(&whole[..cut], 2), sizes(&whole[..cut])),
            (Err(BadSheet), Err(BadSheet)),
            "{cut}"
        );
    }
    assert_eq!(sizes(&[&whole[..], &[0]].concat()), Err(BadSheet));
    assert_eq!(sizes(&[]), Err(BadSheet));
}

fn record(content: Vec<u8>) -> Vec<u8> {
    let mut bytes = (content.len() as u32).to_le_bytes().to_vec();
    bytes.extend(content);
    bytes
}

fn record_of_no_patterns() -> Vec<u8> {
    [vec![1, 0, 0, 0], vec![2, 0], vec![3, 0, 65, 0, 1, 0, 9, 0], vec![4, 0]]
        .into_iter()
        .flat_map(record)
        .collect()
}

#[test]
fn refusals_say_why() {
    assert_eq!(BadSheet.number(), 10);
    assert_eq!(BadWrap.to_string(), "refused, 2 (BadWrap): the mode is above 3");
}
