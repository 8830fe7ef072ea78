//! A program is held to the cases of a folder: `cat`, which prints its input.

use oracle::compare::compare;
use std::fs;
use std::path::Path;

#[test]
fn a_case_that_differs_is_found_and_saved() {
    let dir = Path::new(env!("CARGO_TARGET_TMPDIR")).join("compare");
    let saved = dir.join("saved");
    let _ = fs::remove_dir_all(&dir);
    fs::create_dir_all(&dir).unwrap();
    for (name, input, output) in [("00000", "a\n", "a\n"), ("00001", "b\n", "c\n")] {
        fs::write(dir.join(name).with_extension("in"), input).unwrap();
        fs::write(dir.join(name).with_extension("out"), output).unwrap();
    }
    let compared = compare(Path::new("/bin/cat"), &dir, &saved).unwrap();
    assert_eq!((compared.cases, compared.differ), (2, vec!["00001".to_string()]));
    for (suffix, text) in [("in", "b\n"), ("out", "c\n"), ("got", "b\n")] {
        assert_eq!(fs::read_to_string(saved.join("00001").with_extension(suffix)).unwrap(), text);
    }
    let failed = compare(Path::new("/bin/false"), &dir, &saved).unwrap();
    assert_eq!(failed.differ.len(), 2);
}
