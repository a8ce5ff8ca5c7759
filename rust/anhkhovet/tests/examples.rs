//! The examples of the documentation, run as tests: cargo before 1.89 runs none of them in a build for another processor, as that
//! on Arm is.

macro_rules! examples {
    ($($name:ident $file:literal)*) => {
        $(mod $name {
            include!(concat!("../examples/", $file));

            #[test]
            fn example() {
                main().unwrap();
            }
        })*

        /// No example is left out.
        #[test]
        fn all_examples() {
            let mut stored: Vec<_> = std::fs::read_dir("examples")
                .unwrap()
                .map(|entry| entry.unwrap().file_name().into_string().unwrap())
                .collect();
            stored.sort();
            assert_eq!(stored, [$($file),*]);
        }
    };
}

examples! {
    chain "chain.rs"
    check "check.rs"
    check_in "check_in.rs"
    close "close.rs"
    collapse "collapse.rs"
    descriptor "descriptor.rs"
    frame "frame.rs"
    header "header.rs"
    lookup "lookup.rs"
    mend "mend.rs"
    misplaced "misplaced.rs"
    normal "normal.rs"
    profile "profile.rs"
    read "read.rs"
    split "split.rs"
    stack "stack.rs"
    steps "steps.rs"
    survey "survey.rs"
    to_cowd "to_cowd.rs"
    to_kdmv "to_kdmv.rs"
}
