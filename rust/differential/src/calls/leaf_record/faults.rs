//! Faults of a look at a leaf, for the suite to notice.

use super::Look;
use crate::calls::based::{self, Based};
use crate::calls::case::refuse;
use crate::calls::Fault;

/// Hands out a record that begins so many bytes after the first, where file and output have it.
fn hand_out(look: &Look, after: u64, answer: &mut [u64; 3], output: &mut [u8]) {
    let size = usize::from(look.leaf.record_size);
    let from = (look.leaf.address + 6 + after) as usize;
    let bytes = look.part().and_then(|part| part.get(from..from + size));
    if let (Some(bytes), Some(place)) = (bytes, output.get_mut(..size)) {
        place.copy_from_slice(bytes);
        *answer = [0, size as u64, 0];
    }
}

/// Hands out the record at an index.
fn hand_out_at(look: &Look, index: u64, answer: &mut [u64; 3], output: &mut [u8]) {
    let after = index * u64::from(look.leaf.record_size);
    hand_out(look, after, answer, output);
}

pub fn faults<'a>() -> Vec<Fault<Look<'a>>> {
    let mut faults = based::faults();
    faults.extend(of_records());
    faults.extend(based::faults_of_leaves());
    faults.extend([
        Fault::<Look>::both(
            "a checksum asked for before the records",
            |look, answer, _| {
                let leaf = look.leaf;
                let records = u64::from(leaf.count) * u64::from(leaf.record_size);
                let end = leaf.address.saturating_add(6 + records);
                if answer[..2] == [1, end] && records > 0 {
                    answer[1] = end.saturating_add(4);
                }
            },
        ),
        Fault::<Look>::both("an end needed that is not held", |_, answer, _| {
            answer[1] -= u64::from(answer[..2] == [1, u64::MAX]);
        }),
        Fault::<Look>::both("a byte after the record", |_, answer, [output]| {
            if let (0, Some(byte)) = (answer[0], output.get_mut(answer[1] as usize)) {
                *byte ^= 1;
            }
        }),
        Fault::<Look>::both("a refused look that writes", |_, answer, [output]| {
            if let (15, Some(byte)) = (answer[0], output.first_mut()) {
                *byte ^= 1;
            }
        }),
        Fault::<Look>::model_alone("18 after 8", |look, answer, lent| {
            if answer[0] == 18 && look.leaf.record_size == 0 {
                refuse(look, [8, 0, 0], answer, lent);
            }
        }),
        Fault::<Look>::model_alone("record size 0 accepted", |_, answer, _| {
            if answer[0] == 8 {
                *answer = [0; 3];
            }
        }),
    ]);
    faults
}

/// Faults that hand out another record than the one asked for.
fn of_records<'a>() -> Vec<Fault<Look<'a>>> {
    vec![
        Fault::<Look>::both("a record from one byte later", |look, answer, [output]| {
            if answer[0] == 0 && answer[1] != 0 {
                let after = look.index * u64::from(look.leaf.record_size) + 1;
                hand_out(look, after, answer, output);
            }
        }),
        Fault::<Look>::both(
            "a record handed out at the count",
            |look, answer, [output]| {
                if answer[0] == 0 && look.index == look.leaf.count.into() {
                    hand_out_at(look, look.index, answer, output);
                }
            },
        ),
        Fault::<Look>::both("an index cut to 16 bits", |look, answer, [output]| {
            let cut = u64::from(look.index as u16);
            if answer[0] == 0 && look.index != cut && cut < look.leaf.count.into() {
                hand_out_at(look, cut, answer, output);
            }
        }),
        Fault::<Look>::both("a checksum ignored", |look, answer, [output]| {
            if answer[0] == 6 && look.index < look.leaf.count.into() {
                hand_out_at(look, look.index, answer, output);
            }
        }),
    ]
}
