//! Faults of a collecting, for the suite to notice.

use super::Collecting;
use crate::calls::based::{self, OfTree};
use crate::calls::Fault;

pub fn faults<'a>() -> Vec<Fault<Collecting<'a>>> {
    let mut faults = based::faults_of_trees();
    faults.extend(of_records());
    faults.extend(based::faults_of_leaves());
    faults
}

/// Records, counts and figures.
fn of_records<'a>() -> Vec<Fault<Collecting<'a>>> {
    vec![
        Fault::<Collecting>::both(
            "figures of the whole file for a node's part",
            |case, answer, _| {
                if answer[0] == 1 && case.tree().depth > 2 {
                    answer[2] += 1;
                }
            },
        ),
        Fault::<Collecting>::both("a byte after the records", |case, answer, [output]| {
            let end = case.put_out(answer);
            if let Some(byte) = output.get_mut(end) {
                *byte ^= 1;
            }
        }),
        Fault::<Collecting>::both("output too short a record early", |case, answer, _| {
            if answer[0] == 0 && answer[3] == 8 {
                answer[..4].copy_from_slice(&[15, case.output_length as u64, 0, 7]);
            }
        }),
        Fault::<Collecting>::model_alone("a refused leaf counted", |_, answer, _| {
            answer[4] += u64::from(answer[0] == 6);
        }),
        Fault::<Collecting>::model_alone("an internal node not counted", |_, answer, _| {
            answer[5] -= u64::from(answer[5] == 3);
        }),
        Fault::<Collecting>::model_alone(
            "a record of an internal node not counted",
            |_, answer, _| {
                answer[6] -= u64::from(answer[0] == 15 && answer[6] > 0);
            },
        ),
        Fault::<Collecting>::model_alone(
            "records put out before a refusal",
            |case, answer, [output]| {
                if answer[0] == 6 && answer[3] > 0 {
                    output[case.record_size() - 1] ^= 1;
                }
            },
        ),
    ]
}
