//! The stored lists of answers: the libraries give them, and the Rust and the model still do.

use differential::calls::By;
use differential::compare::bytes::UNIFORM;
use differential::report::{rust_is_there, say};
use differential::stored::{images, LISTS};

#[test]
fn lists() {
    for list in LISTS {
        list.hold(By::Rattle).expect("the stored list is given");
        list.hold(By::Model)
            .expect("the model gives the stored list");
        let with_rust = list.agrees().expect("the Rust gives the stored list");
        let by = match rust_is_there() && with_rust > 0 {
            true => "the Rust and the model agree",
            false => "the model agrees",
        };
        say(&format!("the stored list of {}: {by}", list.name));
    }
}

#[test]
fn images_in_other_lent_memory() {
    for before in UNIFORM {
        for by in [By::Rattle, By::Model] {
            images::hold_lent(by, before).expect("the stored images are given");
        }
    }
    say("the stored list of images: the same in lent memory of 0xa5 and of 0x5a");
}
