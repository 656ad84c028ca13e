//! The oracle as a program: requests in, answers out, line for line.
use std::{
    io::Write,
    process::{Command, Stdio},
};

/// The oracle's answers to the given requests.
fn ask(requests: &[&str]) -> Vec<String> {
    let mut oracle = Command::new(env!("CARGO_BIN_EXE_oracle"))
        .stdin(Stdio::piped())
        .stdout(Stdio::piped())
        .spawn()
        .unwrap();
    let input = requests.join("\n") + "\n";
    oracle
        .stdin
        .take()
        .unwrap()
        .write_all(input.as_bytes())
        .unwrap();
    let output = oracle.wait_with_output().unwrap();
    let answers = String::from_utf8(output.stdout).unwrap();
    answers.lines().map(String::from).collect()
}

#[test]
fn one_answer_a_line_and_errors_go_on() {
    let requests = [
        // (10, 20, 30, 40) holds (10, 20), not (40, 20).
        "contains 41200000 41A00000 41F00000 42200000 41200000 41A00000",
        "contains 41200000 41A00000 41F00000 42200000 42200000 41A00000",
        "safe_edges 1 2 3 4 0 5 0 0 9 9 9 9 1",
        "",
        "no_such_function 1",
        "contains 41200000",
        "contains 41200000 41A00000 41F00000 42200000 41200000 4.5",
        "hypot 40400000 40800000 00000000",
        // -1 is the upper end of a clamp that starts at 0.
        "controls 3F800000 BF800000 00000000 00000000 00000000 00000000 0 0 0",
        "hypot 40400000 40800000",
        // Cut off after a tag; the two bytes lent stay.
        "order_layout 1 01 2 0A",
        "order_touch 1 1 00000000 00000000 0",
        // Finger 0 on the d-pad of a screen of 1,000 by 1,000; then a finger above 9.
        "order_finger 11 01 00 08 44 7A 00 00 44 7A 00 00 0 0 0 0 0 0 0 0 0 0 0 0 0 0 0 0 0 0 0 0 0 00 43180000 44638000",
        "order_finger 11 01 00 08 44 7A 00 00 44 7A 00 00 0 0 0 0 0 0 0 0 0 0 0 0 0 0 0 0 0 0 0 0 2 0A 00000000 00000000",
        "order_finger 0 0 0 0 0 0 0 0 0 0 0 0 0 0 0 0 0 0 0 0 0 3 0A 00000000 00000000",
    ];
    let answers = [
        "1",
        "0",
        "1 9 3 9",
        "error: empty request",
        "error: no function no_such_function",
        "error: an f32 is missing",
        "error: 4.5 is not an f32 in 8 hexadecimal digits",
        "error: 1 words too many",
        "error: the Rust panicked",
        "40A00000",
        "1 2 0A 0A",
        "error: 1 is not a byte in 2 hexadecimal digits",
        "0 128 128 1 128 0 0 0 0 0 0 0 0 0 0 0 0 0 0 0 0 0 0",
        "9 0 0 0 0 0 0 0 0 0 0 0 0 0 0 0 0 0 0 0 0",
        "error: 3 is not below 3",
    ];
    assert_eq!(ask(&requests), answers);
}

#[test]
fn a_layout_is_read_as_it_is_written() {
    // Standard, analog and psp at 1000 by 1000.
    for (flags, elements) in [("0 0", "15"), ("0 1", "19"), ("1 0", "14")] {
        let preset = format!("{flags} 0 1 1 3F800000 3F000000 3F000000 0");
        let layout = &ask(&[&format!("layout_with_cutouts {preset} 447A0000 447A0000 0")])[0];
        assert_eq!(ask(&[&format!("element_count {layout}")]), [elements]);
        // Putting the d-pad where it is changes nothing.
        let dpad = &ask(&[&format!("element {layout} 0")])[0];
        assert_eq!(
            &ask(&[&format!("set_element {layout} 0 {dpad}")])[0],
            layout
        );
    }
}
