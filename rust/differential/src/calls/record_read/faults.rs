//! Faults of a read by meaning, for the suite to notice.

use super::RecordReading;
use crate::calls::case::{refuse, take};
use crate::calls::Fault;
use crate::compare::records::RecordType;

type Answer = [u64; 5];
type Spoil<'a> = fn(&RecordReading<'a>, &mut Answer, &mut [Vec<u8>; 0]);

/// A fault that the model shows: the Rust has no such call.
fn fault<'a>(name: &'static str, spoil: Spoil<'a>) -> Fault<RecordReading<'a>> {
    Fault::model_alone(name, spoil)
}

/// Answers as another record, or one of another type, is read.
fn read_as(tree_type: u8, record: &[u8], answer: &mut Answer) {
    take(&RecordReading { tree_type, record }, answer, &mut []);
}

pub fn faults<'a>() -> Vec<Fault<RecordReading<'a>>> {
    let mut faults = of_fields();
    faults.extend(of_lengths());
    faults.extend(of_refusals());
    faults
}

/// Faults in the values of records that are rightly accepted.
fn of_fields<'a>() -> Vec<Fault<RecordReading<'a>>> {
    vec![
        fault("a heap id of 8 bytes in type 5", |case, answer, _| {
            if (case.tree_type, answer[0]) == (5, 0) {
                answer[2] = 256 * answer[2] + u64::from(case.record[3]);
            }
        }),
        fault("a heap id of 7 bytes in type 9", |case, answer, _| {
            if case.tree_type == 9 {
                answer[2] &= (1 << 56) - 1;
            }
        }),
        fault(
            "flags behind the creation order in type 8",
            |case, answer, _| {
                if (case.tree_type, answer[0]) == (8, 0) {
                    let mut record = case.record.to_vec();
                    record[8..13].rotate_right(1);
                    read_as(8, &record, answer);
                }
            },
        ),
        fault("the high byte first", |case, answer, _| {
            if let (Some(known), 0) = (RecordType::of(case.tree_type), answer[0]) {
                let mut record = case.record.to_vec();
                known.turn(&mut record);
                read_as(case.tree_type, &record, answer);
            }
        }),
        fault("name hash and creation order exchanged", |_, answer, _| {
            answer.swap(1, 4);
        }),
        fault("a field of type 9 that it lacks", |case, answer, _| {
            if (case.tree_type, answer[0]) == (9, 0) {
                answer[1] = answer[4];
            }
        }),
        fault("a place of the answer left unset", |case, answer, _| {
            if (case.tree_type, answer[0]) == (5, 0) {
                answer[4] = u64::MAX;
            }
        }),
        fault("a creation order cut to 32 bits", |_, answer, _| {
            answer[4] %= 1 << 32;
        }),
    ]
}

/// Faults in the length that a record may have.
fn of_lengths<'a>() -> Vec<Fault<RecordReading<'a>>> {
    vec![
        fault("a longer record taken", |case, answer, _| {
            let known = RecordType::of(case.tree_type);
            let front = known.and_then(|known| case.record.get(..known.length()));
            if let Some(front) = front {
                read_as(case.tree_type, front, answer);
            }
        }),
        fault("a shorter record taken", |case, answer, _| {
            if let Some(known) = RecordType::of(case.tree_type) {
                if case.record.len() + 1 == known.length() {
                    read_as(case.tree_type, &[case.record, &[0]].concat(), answer);
                }
            }
        }),
        fault("the length of type 8 for type 9", |case, answer, _| {
            if case.tree_type == 9 {
                read_as(8, case.record, answer);
            }
        }),
        fault("a length cut to 16 bits", |case, answer, _| {
            let front = &case.record[..case.record.len() % (1 << 16)];
            read_as(case.tree_type, front, answer);
        }),
    ]
}

/// Faults in the types that are taken, and in what a refusal says.
fn of_refusals<'a>() -> Vec<Fault<RecordReading<'a>>> {
    vec![
        fault("type 7 taken", |case, answer, _| {
            if case.tree_type == 7 {
                read_as(8, case.record, answer);
            }
        }),
        fault("a type cut to 4 bits", |case, answer, _| {
            read_as(case.tree_type % 16, case.record, answer);
        }),
        fault("20 for 19", |case, answer, lent| {
            if answer[0] == 19 && case.record.is_empty() {
                refuse(case, [20, 0, 0], answer, lent);
            }
        }),
        fault("19 for 20", |case, answer, lent| {
            if answer[0] == 20 && case.record.is_empty() {
                refuse(case, [19, 0, 0], answer, lent);
            }
        }),
        fault("a type told with 19", |case, answer, _| {
            if answer[0] == 19 {
                answer[1] = case.tree_type.into();
            }
        }),
        fault("a length told with 20", |case, answer, _| {
            if answer[0] == 20 {
                answer[1] = case.record.len() as u64;
            }
        }),
        fault("a refusal's last place left unset", |_, answer, _| {
            if answer[0] == 20 {
                answer[4] = u64::MAX;
            }
        }),
    ]
}
