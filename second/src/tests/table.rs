use super::{meta, open, EXAMPLE, G};
use crate::fields::datatype_count;
use crate::rng::Rng;
use crate::steps::State;
use crate::table::*;

fn pieces_of(state: &State, a: u64, b: u64) -> Result<Vec<Piece>, u64> {
    let mut lent = [0; 64];
    let written = pieces(&state.table(), a, b, &mut lent);
    if written.refusal != 0 {
        assert!(written.count == 0 && lent == [0; 64]);
        return Err(written.refusal);
    }
    Ok(lent.chunks(2).take(written.count as usize).map(|p| (p[0], p[1])).collect())
}

fn cut_of(state: &State, a: u64, b: u64) -> State {
    let (mut captures, mut annotations) = (vec![0; 40], vec![0; 40]);
    let summary = cut(&state.table(), a, b, &mut captures, &mut annotations);
    captures.truncate(4 * summary.captures as usize);
    annotations.truncate(4 * summary.annotations as usize);
    State { summary, captures, annotations, dataset: Vec::new() }
}

#[test]
fn example() {
    let state = open(EXAMPLE, 108);
    assert_eq!(pieces_of(&state, 4, 12), Ok(vec![(16, 24), (48, 8)]));
    assert_eq!(pieces_of(&state, 0, 10), Ok(vec![(0, 40)]));
    assert_eq!(pieces_of(&state, 25, 25), Ok(vec![]));
    assert_eq!(pieces_of(&state, 25, 26), Err(19));
    assert_eq!(pieces_of(&state, 5, 4), Err(19));
    let part = cut_of(&state, 4, 12);
    assert_eq!(part.captures, [4, 10, 0, 0, 10, 12, 24, 0]);
    assert_eq!((part.summary.offset, part.summary.samples, part.summary.dataset), (4, 8, 32));
    assert_eq!(part.annotations, state.annotations);
    assert!(well_formed(&part.table()));
    let whole = cut_of(&state, 0, 25);
    assert_eq!((whole.summary.dataset, whole.summary.trailing), (100, 0));
    assert_eq!(whole.captures, [0, 10, 0, 0, 10, 25, 40, 0]);
    let nothing = cut_of(&state, 7, 7);
    let expected = Summary { offset: 7, samples: 0, dataset: 0, captures: 0, annotations: 0, ..state.summary };
    assert_eq!(nothing.summary, expected);
    let at_end = open(EXAMPLE, 48);
    assert_eq!(pieces_of(&at_end, 0, 10), Ok(vec![(0, 40)]));
}

#[test]
fn locating() {
    let state = open(EXAMPLE, 108);
    let at = |i| locate(&state.table(), i);
    assert_eq!(at(9), Location { refusal: 0, byte: 36 });
    assert_eq!(at(10), Location { refusal: 0, byte: 48 });
    assert_eq!(at(24).byte, 104);
    assert_eq!(at(25), Location { refusal: 19, byte: 0 });
    let last = open(&meta(&format!(r#"{G},"core:offset":{}"#, u64::MAX - 1), "", ""), 1);
    assert_eq!(locate(&last.table(), u64::MAX - 1), Location { refusal: 0, byte: 0 });
    assert_eq!(locate(&last.table(), u64::MAX).refusal, 19);
    assert_eq!(locate(&last.table(), 0).refusal, 19);
}

#[test]
fn equal_starts() {
    let state = open(&meta(G, "{$s:3,$h:2},{$s:3,$h:5}", ""), 17);
    assert_eq!(locate(&state.table(), 3).byte, 10);
    assert_eq!(pieces_of(&state, 0, 10), Ok(vec![(0, 3), (10, 7)]));
    assert_eq!(pieces_of(&state, 3, 10), Ok(vec![(10, 7)]));
    assert_eq!(pieces_of(&state, 0, 3), Ok(vec![(0, 3)]));
    assert_eq!(capture_of(&state.table(), 2), None);
    assert_eq!(capture_of(&state.table(), 3), Some(1));
    let plain = open(&meta(G, "{$s:0},{$s:3},{$s:5}", ""), 9);
    assert_eq!(pieces_of(&plain, 1, 8), Ok(vec![(1, 7)]));
}

#[test]
fn forged_tables() {
    let state = open(EXAMPLE, 108);
    let changes: [fn(&mut State); 22] = [
        |t| t.summary.refusal = 1,
        |t| t.summary.code = datatype_count(),
        |t| t.summary.code = 4,
        |t| t.summary.channels = 0,
        |t| t.summary.channels = 1025,
        |t| t.summary.width = 8,
        |t| t.summary.captures = u64::MAX,
        |t| t.summary.captures = 1 << 62,
        |t| t.summary.captures = 1,
        |t| t.summary.annotations = 2,
        |t| t.summary.trailing = u64::MAX - 7,
        |t| t.summary.samples = 1 << 62,
        |t| t.summary.dataset = 0,
        |t| t.summary.offset = 1,
        |t| t.captures[0] = u64::MAX,
        |t| t.captures[1] = 9,
        |t| t.captures[2] = 4,
        |t| t.captures[7] = 9,
        |t| t.annotations[0] = 7,
        |t| t.annotations[1] = 26,
        |t| t.annotations[2] = u64::MAX,
        |t| t.summary.rate_place = 61_441,
    ];
    for (k, change) in changes.iter().enumerate() {
        let mut forged = state.clone();
        change(&mut forged);
        assert!(!well_formed(&forged.table()), "{k}");
        assert_eq!(pieces_of(&forged, 0, 0), Err(18));
        assert_eq!(cut_of(&forged, 0, 0).summary, Summary::refused(18));
    }
    let mut wide = state.clone();
    wide.summary.samples = 1 << 62;
    wide.summary.dataset = 8;
    assert!(!well_formed(&wide.table()));
    assert!(!well_formed(&open("{}", 0).table()));
    let mut fine = state.clone();
    fine.summary.rate_place = 61_440;
    fine.annotations[2] = 0;
    fine.annotations[3] = 5;
    fine.captures.extend([1, 2, 3]);
    assert!(well_formed(&fine.table()));
}

#[test]
fn copies() {
    let mut state = open(EXAMPLE, 108);
    state.dataset = (0..108).collect();
    let table = state.table();
    let mut output = [200; 40];
    let written = copy(&table, &state.dataset, 4, 12, &mut output);
    assert_eq!(written, Written { refusal: 0, count: 32 });
    assert_eq!(output[..24], state.dataset[16..40]);
    assert_eq!(output[24..32], state.dataset[48..56]);
    assert_eq!(output[32..], [200; 8]);
    let mut small = [200; 31];
    assert_eq!(copy(&table, &state.dataset, 4, 12, &mut small), Written::refused(20));
    assert_eq!(small, [200; 31]);
    assert_eq!(copy(&table, &[0; 109], 30, 12, &mut small), Written::refused(18));
    assert_eq!(copy(&table, &state.dataset, 30, 12, &mut small), Written::refused(19));
    assert_eq!(copy(&table, &state.dataset, 25, 25, &mut []), Written::default());
}

/// A random small recording with plenty of edges.
pub fn random_state(rng: &mut Rng) -> State {
    let (datatype, part) = [("ru8", 1), ("ci8", 2), ("ri16_be", 2), ("cf32_le", 8)][rng.below(4)];
    let channels = rng.between(1, 3) as u64;
    let offset = [0, 5, u64::MAX - 60][rng.below(3)];
    let samples = rng.below(30) as u64;
    let mut starts = [0; 8].map(|_| offset + rng.below(samples as usize + 1) as u64);
    starts.sort_unstable();
    let mut data = samples * part * channels;
    let mut lists = [Vec::new(), Vec::new()];
    for (k, start) in starts.iter().enumerate().take(rng.below(9)) {
        let header = if rng.once_in(2) { rng.below(6) as u64 } else { 0 };
        if k % 3 == 2 {
            let count = rng.below((offset + samples - start) as usize + 1);
            lists[1].push(format!("{{$s:{start},$c:{count},$l:\"l{k}\"}}"));
        } else {
            data += header;
            lists[0].push(format!("{{$s:{start},$h:{header}}}"));
        }
    }
    let trailing = rng.below(4) as u64;
    let global = format!(
        r#""core:datatype":"{datatype}","core:version":"1.0.0","core:num_channels":{channels},"core:offset":{offset},"core:trailing_bytes":{trailing}"#
    );
    let mut state = open(&meta(&global, &lists[0].join(","), &lists[1].join(",")), data + trailing);
    assert_eq!(state.summary.refusal, 0);
    state.dataset = (0..data + trailing).map(|k| (k * 37 % 251) as u8).collect();
    state
}

#[test]
fn methods_agree() {
    let mut rng = Rng::new(4);
    for _ in 0..2_000 {
        let state = random_state(&mut rng);
        let (table, s) = (state.table(), state.summary);
        assert!(well_formed(&table));
        let formula: Vec<u64> = (0..s.samples).map(|k| place_by_formula(&table, s.offset + k)).collect();
        assert_eq!(places_by_walk(&table), formula);
        let x = rng.below(s.samples as usize + 1) as u64;
        let y = rng.below(s.samples as usize + 1) as u64;
        let (a, b) = (s.offset + x.min(y), s.offset + x.max(y));
        assert_eq!(pieces_by_bytes(&table, a, b), pieces_by_captures(&table, a, b));
        let mut output = vec![0; state.dataset.len()];
        let count = copy(&table, &state.dataset, a, b, &mut output).count as usize;
        assert_eq!(output[..count], bytes_by_samples(&table, &state.dataset, a, b));
        for r in table.capture_rows().iter().chain(&table.annotation_rows()) {
            assert_eq!(shared_by_samples(r[0], r[1], a, b), shared_by_bounds(r[0], r[1], a, b));
        }
        let part = cut_of(&state, a, b);
        assert!(part.summary.refusal == 0 && well_formed(&part.table()));
    }
}

#[test]
fn large_recordings() {
    let global = format!(r#"{G},"core:num_channels":1024"#);
    let text = meta(&global, "{$s:0,$h:1024},{$s:1000000000,$h:2048}", "");
    let state = open(&text, 1 << 48);
    assert_eq!(state.summary.samples, (1 << 38) - 3);
    let billion = 1_000_000_000;
    assert_eq!(locate(&state.table(), billion).byte, billion * 1024 + 3072);
    let expected = vec![(1024, billion * 1024), (billion * 1024 + 3072, 1024)];
    assert_eq!(pieces_of(&state, 0, billion + 1), Ok(expected));
    let part = cut_of(&state, 5, billion + 5);
    assert_eq!(part.captures, [5, billion, 0, 0, billion, billion + 5, (billion - 5) * 1024, 0]);
}

#[test]
fn double_precision() {
    let global = r#""core:datatype":"cf64_le","core:version":"1.0.0","core:num_channels":1024"#;
    let state = open(&meta(global, "{$s:17179869184}", ""), 1 << 48);
    assert_eq!((state.summary.code, state.summary.width, state.summary.samples), (26, 16_384, 1 << 34));
    assert_eq!(locate(&state.table(), (1 << 34) - 1).byte, (1 << 48) - 16_384);
    assert_eq!(locate(&state.table(), 1 << 34).refusal, 19);
    assert_eq!(pieces_of(&state, 1, 1 << 34), Ok(vec![(16_384, (1 << 48) - 16_384)]));
}
