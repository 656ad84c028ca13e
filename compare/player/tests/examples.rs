//! The sheets in examples/, made from their orders by the unchanged Rust.
use player::sheet::film_sheet;
use std::{fs, path::Path};

#[test]
fn sheets_are_those_of_the_rust() {
    let folder = Path::new(env!("CARGO_MANIFEST_DIR")).join("../../examples");
    let mut count = 0;
    for entry in fs::read_dir(&folder).unwrap() {
        let path = entry.unwrap().path();
        if path.extension().is_none_or(|e| e != "order") {
            continue;
        }
        let written = fs::read(path.with_extension("sheet")).unwrap();
        let (sheet, length) = film_sheet(&fs::read(&path).unwrap());
        assert_eq!(written, &sheet[..length], "{path:?}");
        count += 1;
    }
    assert!(count > 0, "no sheets in {folder:?}");
}
