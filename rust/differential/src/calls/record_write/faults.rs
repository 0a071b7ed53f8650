//! Faults of a write by meaning, for the suite to notice.

use super::RecordDraft;
use crate::calls::case::{refuse, take};
use crate::calls::Fault;
use crate::compare::bytes::pattern;
use crate::compare::records::RecordType;
use crate::inputs::RecordValues;

type Answer = [u64; 3];
type Lent = [Vec<u8>; 1];
type Spoil = fn(&RecordDraft, &mut Answer, &mut Lent);

/// A fault that the model shows: the Rust has no such call.
fn fault(name: &'static str, spoil: Spoil) -> Fault<RecordDraft> {
    Fault::model_alone(name, spoil)
}

/// Answers as other values are written.
fn write_as(draft: &RecordDraft, figures: [u64; 4], answer: &mut Answer, lent: &mut Lent) {
    let values = RecordValues::of_figures(figures);
    take(&RecordDraft { values, ..*draft }, answer, lent);
}

/// Answers as the same values of another type are written.
fn write_of_type(draft: &RecordDraft, tree_type: u8, answer: &mut Answer, lent: &mut Lent) {
    take(
        &RecordDraft {
            tree_type,
            ..*draft
        },
        answer,
        lent,
    );
}

pub fn faults() -> Vec<Fault<RecordDraft>> {
    let mut faults = of_bytes();
    faults.extend(of_values());
    faults.extend(of_order());
    faults.extend(of_refusals());
    faults
}

/// Faults in the bytes and the length of records that are rightly accepted.
fn of_bytes() -> Vec<Fault<RecordDraft>> {
    vec![
        fault(
            "flags behind the creation order in type 8",
            |draft, answer, [output]| {
                if (draft.tree_type, answer[0]) == (8, 0) {
                    output[8..13].rotate_left(1);
                }
            },
        ),
        fault(
            "heap id before name hash in type 5",
            |draft, answer, [output]| {
                if (draft.tree_type, answer[0]) == (5, 0) {
                    output[..11].rotate_left(4);
                }
            },
        ),
        fault("the high byte first", |draft, answer, [output]| {
            if let (Some(known), 0) = (RecordType::of(draft.tree_type), answer[0]) {
                known.turn(output);
            }
        }),
        fault(
            "a heap id of 8 bytes in type 5",
            |draft, answer, [output]| {
                if (draft.tree_type, answer[0]) == (5, 0) && output.len() > 11 {
                    output[11] = 0;
                    answer[1] = 12;
                }
            },
        ),
        fault("a byte after the record", |_, answer, [output]| {
            if let (0, Some(byte)) = (answer[0], output.get_mut(answer[1] as usize)) {
                *byte ^= 1;
            }
        }),
        fault(
            "the last byte of the record not written",
            |draft, answer, [output]| {
                if answer[0] == 0 {
                    let last = answer[1] as usize - 1;
                    output[last] = pattern(draft.output_length)[last];
                }
            },
        ),
        fault(
            "the output's length for the record's",
            |draft, answer, _| {
                if answer[0] == 0 {
                    answer[1] = draft.output_length as u64;
                }
            },
        ),
        fault("a length of 15 for type 9", |draft, answer, _| {
            if (draft.tree_type, answer[0]) == (9, 0) && draft.output_length >= 15 {
                answer[1] = 15;
            }
        }),
        fault("the last place of the answer left unset", |_, answer, _| {
            if answer[0] == 0 {
                answer[2] = u64::MAX;
            }
        }),
    ]
}

/// Faults in the values that fit.
fn of_values() -> Vec<Fault<RecordDraft>> {
    vec![
        fault(
            "a name hash cut to 4 bytes in type 8",
            |draft, answer, lent| {
                if draft.tree_type == 8 {
                    let [hash, id, flags, order] = draft.values.figures();
                    write_as(draft, [hash % (1 << 32), id, flags, order], answer, lent);
                }
            },
        ),
        fault("flags cut to a byte in type 9", |draft, answer, lent| {
            if draft.tree_type == 9 {
                let [hash, id, flags, order] = draft.values.figures();
                write_as(draft, [hash, id, flags % 256, order], answer, lent);
            }
        }),
        fault(
            "a heap id cut to 7 bytes in type 6",
            |draft, answer, lent| {
                if draft.tree_type == 6 {
                    let [hash, id, flags, order] = draft.values.figures();
                    write_as(draft, [hash, id % (1 << 56), flags, order], answer, lent);
                }
            },
        ),
        fault(
            "a field that type 5 lacks untested",
            |draft, answer, lent| {
                if draft.tree_type == 5 {
                    let [hash, id, flags, _] = draft.values.figures();
                    write_as(draft, [hash, id, flags, 0], answer, lent);
                }
            },
        ),
        fault(
            "a field that type 9 lacks untested",
            |draft, answer, lent| {
                if draft.tree_type == 9 {
                    let [_, id, flags, order] = draft.values.figures();
                    write_as(draft, [0, id, flags, order], answer, lent);
                }
            },
        ),
        fault(
            "flags of a link taken where they are small",
            |draft, answer, lent| {
                let [hash, id, flags, order] = draft.values.figures();
                if matches!(draft.tree_type, 5 | 6) && flags < 256 {
                    write_as(draft, [hash, id, 0, order], answer, lent);
                }
            },
        ),
        fault("the largest name hash refused", |draft, answer, lent| {
            if answer[0] == 0 && draft.values.name_hash == u32::MAX.into() {
                refuse(draft, [20, 0, 0], answer, lent);
            }
        }),
        fault(
            "the largest creation order refused",
            |draft, answer, lent| {
                if answer[0] == 0 && draft.values.creation_order == u64::MAX {
                    refuse(draft, [20, 0, 0], answer, lent);
                }
            },
        ),
    ]
}

/// Faults in the order of the refusals, and in what a refused write leaves.
fn of_order() -> Vec<Fault<RecordDraft>> {
    vec![
        fault("15 before 20", |draft, answer, lent| {
            let length = RecordType::of(draft.tree_type).map_or(0, RecordType::length);
            if answer[0] == 20 && draft.output_length < length {
                refuse(draft, [15, draft.output_length as u64, 0], answer, lent);
            }
        }),
        fault("15 before 19", |draft, answer, lent| {
            if answer[0] == 19 && draft.output_length == 0 {
                refuse(draft, [15, 0, 0], answer, lent);
            }
        }),
        fault("20 before 19", |draft, answer, lent| {
            if answer[0] == 19 && draft.values.figures().contains(&u64::MAX) {
                refuse(draft, [20, 0, 0], answer, lent);
            }
        }),
        fault("bytes written before 15", |_, answer, [output]| {
            if let (15, Some(byte)) = (answer[0], output.first_mut()) {
                *byte ^= 1;
            }
        }),
        fault("bytes written before 20", |_, answer, [output]| {
            if let (20, Some(byte)) = (answer[0], output.first_mut()) {
                *byte ^= 1;
            }
        }),
        fault("zeros written before 19", |_, answer, [output]| {
            if answer[0] == 19 {
                output.fill(0);
            }
        }),
    ]
}

/// Faults in the types and outputs that are taken, and in what a refusal says.
fn of_refusals() -> Vec<Fault<RecordDraft>> {
    vec![
        fault("type 7 taken", |draft, answer, lent| {
            if draft.tree_type == 7 {
                write_of_type(draft, 8, answer, lent);
            }
        }),
        fault("a type cut to 4 bits", |draft, answer, lent| {
            write_of_type(draft, draft.tree_type % 16, answer, lent);
        }),
        fault("20 for 19", |_, answer, _| {
            answer[0] += u64::from(answer[0] == 19);
        }),
        fault("19 for 20", |_, answer, _| {
            answer[0] -= u64::from(answer[0] == 20);
        }),
        fault("a refusal's last place left unset", |_, answer, _| {
            if answer[0] == 20 {
                answer[2] = u64::MAX;
            }
        }),
        fault("a value told with 20", |draft, answer, _| {
            if answer[0] == 20 {
                answer[1] = draft.values.heap_id;
            }
        }),
        fault("the record's length told with 15", |draft, answer, _| {
            if let (15, Some(known)) = (answer[0], RecordType::of(draft.tree_type)) {
                answer[1] = known.length() as u64;
            }
        }),
        fault(
            "an output just long enough refused",
            |draft, answer, lent| {
                let length = draft.output_length as u64;
                if *answer == [0, length, 0] {
                    refuse(draft, [15, length, 0], answer, lent);
                }
            },
        ),
        fault(
            "an output's length cut to 16 bits",
            |draft, answer, lent| {
                let cut = draft.output_length as u64 % (1 << 16);
                if answer[0] == 0 && cut < answer[1] {
                    refuse(draft, [15, cut, 0], answer, lent);
                }
            },
        ),
    ]
}
