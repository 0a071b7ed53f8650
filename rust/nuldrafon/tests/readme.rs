//! README's example is the one in examples/, and it runs.

mod bays {
    include!("../examples/bays.rs");

    #[test]
    fn runs() {
        main().expect("the example runs");
    }
}

#[test]
fn is_the_example() {
    let readme = include_str!("../../../README.md");
    let example = include_str!("../examples/bays.rs");
    let (_, example) = example.split_once("\n\n").expect("a line before the code");
    assert!(readme.contains(example), "README has another example");
}
