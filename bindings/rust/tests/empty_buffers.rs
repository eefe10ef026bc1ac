//! An empty buffer may be a null pointer: each function, with each of its buffers empty in turn and with all of them, answers as it does
//! for an empty buffer at an address, and every other buffer holds what it held.
use planner::raw::*;
use planner::{ROWS_LENGTH, SCORES_LENGTH, WEIGHTS_LENGTH};
use std::ptr;

/// The buffers of a worked survey of 4 streets and 3 sites with 2 to choose, of the right lengths for each function.
#[derive(Clone, Debug, PartialEq)]
struct Lent {
    scores: Vec<u16>,
    weights: Vec<u8>,
    rows: Vec<u8>,
    row: Vec<u8>,
    sites: Vec<u8>,
    division: Vec<u8>,
    kilograms: Vec<u32>,
    litres: Vec<u32>,
    kilogram_limits: Vec<u32>,
    litre_limits: Vec<u32>,
    chosen: Vec<u8>,
    file: Vec<u8>,
    buffer: Vec<u8>,
    read_scores: Vec<u16>,
    read_weights: Vec<u8>,
    read_rows: Vec<u8>,
    numbers: [usize; 5],
}

fn lent() -> Lent {
    Lent {
        scores: vec![2, 1, 0],
        weights: vec![1; 4],
        rows: vec![1, 2, 3, 1, 3, 2, 2, 1, 0, 3, 2, 1],
        row: vec![2, 1, 0],
        sites: vec![1, 2],
        division: vec![1, 1, 2, 2],
        kilograms: vec![5, 6, 7, 8],
        litres: vec![1, 4, 3, 4],
        kilogram_limits: vec![11, 15, 0],
        litre_limits: vec![5, 7, 0],
        chosen: vec![8; 2],
        file: b"TW\x02\0\x02\x02\x01SC\x02\0\x01\0HW\x01\x01ST\x01\0\x02\x01\x02ST\x02\0\x01\x01EN".to_vec(),
        buffer: vec![8; 54],
        read_scores: vec![8; SCORES_LENGTH],
        read_weights: vec![8; WEIGHTS_LENGTH],
        read_rows: vec![8; ROWS_LENGTH],
        numbers: [8; 5],
    }
}

/// Which buffers are empty, and the address that stands for one.
#[derive(Clone, Copy)]
struct Empty<'a> {
    names: &'a [&'a str],
    address: *mut u32,
}

impl Empty<'_> {
    fn start<T>(self, name: &str, buffer: &mut Vec<T>) -> *mut T {
        if self.names.contains(&name) {
            self.address.cast()
        } else {
            buffer.as_mut_ptr()
        }
    }

    fn length(self, name: &str, length: usize) -> usize {
        if self.names.contains(&name) {
            0
        } else {
            length
        }
    }
}

/// A function with the refusal of each buffer that is empty, in the order of trial.
struct Call {
    name: &'static str,
    refusals: &'static [(&'static str, u64)],
    run: fn(Empty, &mut Lent) -> u64,
}

/// A function with the numbers before its buffers and what follows them, which may be buffers again, and a last number.
macro_rules! call {
    ($function:ident: $($number:expr)*; $($buffer:ident $refusal:literal)*; $($last:expr)*
        $(; $($behind:ident $of_behind:literal)* $(; $end:expr)?)?) => {
        Call {
            name: stringify!($function $($number)*),
            refusals: &[$((stringify!($buffer), $refusal),)* $($((stringify!($behind), $of_behind),)*)?],
            // SAFETY: each pointer is a vector's own beside its length, and only an empty buffer has another.
            run: |empty, lent| unsafe {
                $function(
                    $($number,)*
                    $(empty.start(stringify!($buffer), &mut lent.$buffer), empty.length(stringify!($buffer), lent.$buffer.len()),)*
                    $($last,)*
                    $($(empty.start(stringify!($behind), &mut lent.$behind), empty.length(stringify!($behind), lent.$behind.len()),)* $($end,)?)?
                ) as u64
            },
        }
    };
}

const CALLS: [Call; 16] = [
    call!(planner_check_survey: 4 3 2; scores 6 weights 6 rows 6;),
    call!(planner_ranked_part: ; row 0;),
    call!(planner_row_score: 3; scores 6; 1; row 6; 1),
    call!(planner_list_total: 4 3; scores 6 weights 6 rows 6 sites 3;),
    call!(planner_free_division: 4 3; scores 6 weights 6 rows 6 sites 3 division 6;),
    call!(planner_balanced_division: 4 3; scores 6 weights 6 rows 6 sites 3 division 6;),
    call!(planner_plan: 4 3 2 0; scores 6 weights 6 rows 6 division 6 chosen 6;),
    call!(planner_plan: 4 3 2 1; scores 6 weights 6 rows 6 division 6 chosen 6;),
    call!(planner_floor: 4 3 2; scores 6 weights 6 rows 6;),
    call!(planner_hand_plan: 4 3 2 0; scores 6 weights 6 rows 6 division 6; 7; kilograms 6 litres 6 kilogram_limits 6 litre_limits 6),
    call!(planner_hand_plan: 4 3 2 1; scores 6 weights 6 rows 6 division 6; 7; kilograms 6 litres 6 kilogram_limits 6 litre_limits 6),
    call!(planner_write_file: 4 3 2 1 0; scores 6 weights 6 rows 6 buffer 7;),
    call!(planner_write_file: 4 3 2 1 1; scores 6 weights 6 rows 6 buffer 7;),
    call!(planner_convert_file: ; file 12; 0; buffer 7),
    call!(planner_convert_file: ; file 12; 1; buffer 7),
    Call {
        name: "planner_read_file",
        refusals: &[("file", 12), ("read_scores", 6), ("read_weights", 6), ("read_rows", 6)],
        run: read_file,
    },
];

fn read_file(empty: Empty, lent: &mut Lent) -> u64 {
    let [n, m, k, kind, form] = &mut lent.numbers;
    // SAFETY: each pointer is a vector's own beside its length, only an empty buffer has another, and the five numbers are apart.
    unsafe {
        planner_read_file(
            empty.start("file", &mut lent.file),
            empty.length("file", lent.file.len()),
            n,
            m,
            k,
            kind,
            form,
            empty.start("read_scores", &mut lent.read_scores),
            empty.length("read_scores", lent.read_scores.len()),
            empty.start("read_weights", &mut lent.read_weights),
            empty.length("read_weights", lent.read_weights.len()),
            empty.start("read_rows", &mut lent.read_rows),
            empty.length("read_rows", lent.read_rows.len()),
        )
    }
}

/// The answer with these buffers empty at the null pointer, which is that of empty buffers at an address.
fn answer(call: &Call, names: &[&str]) -> u64 {
    let [at_null, at_address] = [ptr::null_mut(), ptr::dangling_mut()].map(|address| {
        let mut lent = lent();
        ((call.run)(Empty { names, address }, &mut lent), lent)
    });
    assert_eq!(at_null, at_address, "{} with empty {names:?}", call.name);
    if at_null.0 >> 32 != 0 {
        assert_eq!(at_null.1, lent(), "a refused {} wrote", call.name);
    }
    at_null.0
}

#[test]
fn each_buffer_of_each_function() {
    for call in &CALLS {
        assert_eq!(answer(call, &[]) >> 32, 0, "{} of the worked survey", call.name);
        for (name, refusal) in call.refusals {
            assert_eq!(answer(call, &[name]), refusal << 32, "{} without {name}", call.name);
        }
    }
}

#[test]
fn all_buffers_of_each_function() {
    for call in &CALLS {
        let names: Vec<&str> = call.refusals.iter().map(|(name, _)| *name).collect();
        // by number, with 7 last
        let first = call.refusals.iter().map(|(_, refusal)| *refusal).min_by_key(|&refusal| (refusal == 7, refusal));
        assert_eq!(answer(call, &names) >> 32, first.expect("a call with a buffer"), "{} without buffers", call.name);
    }
}
