//! The recorded runs, sheets and refusals of vectors/.

mod common;

use common::{cases, Room};
use murghidossu::{
    choice_of, entropy_of, lengths, list, list_refusal, propagate, read, run, run_result, sizes, write, Forbid, Refusal,
};

fn number<T>(told: &Result<T, Refusal>) -> usize {
    told.as_ref().err().map_or(0, |r| r.number() as usize)
}

/// Runs come to the recorded end, words and domains, and leave work memory zero.
fn recorded(file: &str, many: usize) {
    let cases = cases(file);
    assert_eq!(cases.len(), many, "{file}");
    for case in cases {
        let lent = case.lent();
        let mut room = lent.room();
        let ended = run(
            &lent.forbids,
            lent.table(),
            lent.grid,
            &lent.noise,
            &lent.words,
            room.lend(),
        )
        .expect(&case.name);
        let (end, domains) = (case.numbers("end"), case.numbers("domains"));
        assert_eq!([ended.end as u64, ended.used as u64], end[..], "{}", case.name);
        assert_eq!(room.domains, domains, "{}", case.name);
        assert!(room.worked_off(), "{}", case.name);
    }
}

#[test]
fn runs() {
    recorded("runs.txt", 300);
}

#[test]
fn large_runs() {
    recorded("large.txt", 4);
}

#[test]
fn runs_by_the_rules_alone() {
    recorded("rules_only.txt", 70);
}

/// Sheets are read and written, and results written, byte for byte; what stands past them stays.
#[test]
fn sheets() {
    let cases = cases("sheets.txt");
    assert_eq!(cases.len(), 40);
    for case in cases {
        let (lent, sheet, result) = (case.lent(), case.bytes("sheet"), case.bytes("result"));
        let name = &case.name;

        let mut out = vec![0xa5; sheet.len() + 7];
        let bytes = write(lent.table(), lent.grid, &lent.forbids, &mut out).expect(name);
        assert_eq!(
            bytes,
            lengths::sheet(lent.count, lent.ids.len(), lent.forbids.len()),
            "{name}"
        );
        assert_eq!((&out[..bytes], &out[bytes..]), (&sheet[..], &[0xa5; 7][..]), "{name}");

        let told = sizes(&sheet).expect(name);
        assert_eq!(
            (told.count, told.ids, told.grid, told.forbids),
            (lent.count, lent.ids.len(), lent.grid, lent.forbids.len()),
            "{name}"
        );
        let old = Forbid {
            cell: 9,
            pattern: 9,
            keep: 9,
        };
        let (mut weights, mut offsets) = (vec![0; told.count], vec![0; lengths::offsets(told.count)]);
        let (mut ids, mut forbids) = (vec![0xa5; told.ids + 2], vec![old; told.forbids + 1]);
        assert_eq!(
            read(&sheet, &mut weights, &mut offsets, &mut ids, &mut forbids),
            Ok(told),
            "{name}"
        );
        assert_eq!((&weights, &offsets), (&lent.weights, &lent.offsets), "{name}");
        assert_eq!(
            (&ids[..told.ids], &ids[told.ids..]),
            (&lent.ids[..], &[0xa5; 2][..]),
            "{name}"
        );
        let stored = lent.forbids.iter().map(|f| Forbid {
            keep: (f.keep != 0) as u32,
            ..*f
        });
        assert_eq!(forbids, stored.chain([old]).collect::<Vec<_>>(), "{name}");

        let (mut room, mut out) = (lent.room(), vec![0xa5; result.len() + 3]);
        run_result(
            &lent.forbids,
            lent.table(),
            lent.grid,
            &lent.noise,
            &lent.words,
            room.lend(),
            &mut out,
        )
        .expect(name);
        assert_eq!(
            (&out[..result.len()], &out[result.len()..]),
            (&result[..], &[0xa5; 3][..]),
            "{name}"
        );
        assert_eq!(result.len(), lengths::result(lent.cells()), "{name}");
    }
}

/// Each recorded refusal, of whichever call; a refused call changes nothing.
#[test]
fn refusals() {
    let cases = cases("refusals.txt");
    assert_eq!(cases.len(), 184);
    let mut came = [0; 12];
    for case in &cases {
        let (lent, wanted, name) = (case.lent(), case.number("refused"), &case.name);
        let more = if case.has("work") { case.number("work") } else { 0 };
        let mut room = Room::new(lent.count, lent.cells(), more);
        if case.has("outputs") {
            room.domains = vec![7; case.number("outputs")];
        }
        let before = room.clone();
        match case.text("call") {
            "run" => {
                let told = run(
                    &lent.forbids,
                    lent.table(),
                    lent.grid,
                    &lent.noise,
                    &lent.words,
                    room.lend(),
                );
                assert_eq!(number(&told), wanted, "{name}");
                assert!(told.is_ok() || room == before, "{name}");
            }
            "propagate" => {
                room.domains = case.numbers("domains");
                let before = room.clone();
                let told = propagate(
                    lent.table(),
                    lent.grid,
                    &mut room.domains,
                    &mut room.counts,
                    &mut room.pending,
                );
                assert_eq!(number(&told), wanted, "{name}");
                assert!(told.is_ok() || room == before, "{name}");
            }
            "lookup" => {
                let (pattern, direction) = (case.numbers("ask")[0] as usize, case.numbers("ask")[1] as usize);
                let told = list(lent.table(), pattern, direction);
                assert_eq!(number(&told), wanted, "{name}");
                assert_eq!(
                    number(&list_refusal(lent.table(), pattern, direction)),
                    wanted,
                    "{name}"
                );
                let part: Vec<u64> = told.unwrap_or(&[]).iter().map(|&id| id as u64).collect();
                assert_eq!(part, case.numbers("part"), "{name}");
            }
            "write" => {
                let mut out = vec![0xa5; case.number("room")];
                let told = write(lent.table(), lent.grid, &lent.forbids, &mut out);
                assert_eq!(number(&told), wanted, "{name}");
                assert!(told.is_ok() || out.iter().all(|&b| b == 0xa5), "{name}");
            }
            _ => {
                let sheet = case.bytes("sheet");
                let told = sizes(&sheet);
                assert_eq!(number(&told), if wanted == 10 { 10 } else { 0 }, "{name}");
                let (count, many, forbids) = told.map_or((0, 0, 0), |s| (s.count, s.ids, s.forbids));
                let (mut weights, mut offsets) = (vec![7; count], vec![7; lengths::offsets(count)]);
                let (mut ids, mut forbids) = (vec![7; many], vec![Forbid::default(); forbids]);
                let told = read(&sheet, &mut weights, &mut offsets, &mut ids, &mut forbids);
                assert_eq!(number(&told), wanted, "{name}");
                let same = weights.iter().chain(&offsets).all(|&x| x == 7) && ids.iter().all(|&x| x == 7);
                assert!(
                    told.is_ok() || (same && forbids.iter().all(|&f| f == Forbid::default())),
                    "{name}"
                );
            }
        }
        came[wanted] += 1;
    }
    assert!(came.iter().all(|&n| n > 0), "every refusal is among them: {came:?}");
}

/// The first choice of every recorded run, asked apart: its entropy where no pattern was gone, and a pattern of that domain.
#[test]
fn first_choices() {
    let mut compared = 0;
    for case in cases("runs.txt")
        .iter()
        .filter(|c| c.has("choice") && c.lent().forbids.is_empty())
    {
        let lent = case.lent();
        let full = if lent.count == 64 {
            u64::MAX
        } else {
            (1 << lent.count) - 1
        };
        let entropy = entropy_of(lent.count, &lent.weights, full)
            .expect(&case.name)
            .expect("weights");
        let pattern = choice_of(lent.count, &lent.weights, full, lent.words[0])
            .expect(&case.name)
            .expect("weights");
        assert!(entropy.is_finite() && lent.weights[pattern] > 0, "{}", case.name);
        // the lines of a case are kept by their first word, so this is its last choice: it is the first where there is one
        if case.numbers("end")[1] == 1 {
            let parts: Vec<&str> = case.text("choice").split(' ').collect();
            assert_eq!(format!("{:08x}", entropy.to_bits()), parts[1], "{}", case.name);
            assert_eq!(pattern.to_string(), parts[2], "{}", case.name);
            compared += 1;
        }
    }
    assert!(compared > 5, "{compared}");
}
