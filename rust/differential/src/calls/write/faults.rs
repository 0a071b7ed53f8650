//! Faults of a write, for the suite to notice.

use super::Draft;
use crate::calls::Fault;

pub fn faults<'a>() -> Vec<Fault<Draft<'a>>> {
    vec![
        Fault::<Draft>::both("a byte of the padding", |draft, answer, [_, image]| {
            let last = (answer[4] as usize).saturating_sub(1);
            if answer[0] == 0 && draft.given.geometry.node_size == 97 {
                image[last] = 1;
            }
        }),
        Fault::<Draft>::both("a bit of the header", |draft, answer, [header, _]| {
            let given = &draft.given;
            if answer[0] == 0 && given.length_size == 2 && given.record_count == 65_535 {
                header[20] ^= 1;
            }
        }),
        Fault::<Draft>::both("a byte after the image", |_, answer, [_, image]| {
            if let Some(byte) = image.get_mut(answer[4] as usize) {
                *byte ^= u8::from(answer[0] == 0);
            }
        }),
        Fault::<Draft>::both("a refused write that writes", |_, answer, [header, _]| {
            if let (14, Some(byte)) = (answer[0], header.first_mut()) {
                *byte ^= 1;
            }
        }),
        Fault::<Draft>::model_alone(
            "the image's length for the header's",
            |_, answer, [header, image]| {
                if answer[..2] == [15, header.len() as u64] {
                    answer[1] = image.len() as u64;
                }
            },
        ),
    ]
}
