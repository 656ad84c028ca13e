//! The writer of orders by the sentences of document 02's W-201.
use player::order::{
    self, field, lent, number_bytes,
    writer::{BAD_CALL, Given, ORDER_MOST},
};

const NAN: [u8; 4] = [0x7F, 0xC0, 0, 0];

/// The settings of an order that has a screen and nothing else.
fn plain(w: f32, h: f32) -> Given {
    Given {
        numbers: [w, h, 0., 0., w.max(1.), h.max(1.), 1., 0.5, 0.5],
        fit: 1,
        ..Given::default()
    }
}

fn screen() -> Vec<u8> {
    field(1, &number_bytes([1000., 800.]))
}

/// The bytes after the screen of 1,000 by 800 of settings that are changed so.
fn after_screen(change: impl FnOnce(&mut Given)) -> Vec<u8> {
    let mut given = plain(1000., 800.);
    change(&mut given);
    let bytes = given.written().expect("sound settings");
    bytes.strip_prefix(&screen()[..]).expect("tag 1").to_vec()
}

fn refusal(change: impl FnOnce(&mut Given)) -> i32 {
    let mut given = plain(1000., 800.);
    change(&mut given);
    given.write(&mut []).expect_err("no room")
}

/// "A field that then has the value its absence means is left out."
#[test]
fn defaults_are_left_out() {
    assert_eq!(plain(1000., 800.).written(), Ok(screen()));
    // A screen below 1 by 1 has a picture of 1 by 1.
    let small = plain(0.5, -0.);
    assert_eq!(small.written(), Ok(field(1, &number_bytes([0.5, 0.]))));
    let raised = Given {
        numbers: [0.5, 0., 0., 0., 0.5, 1., 1., 0.5, 0.5],
        ..small
    };
    let picture = field(2, &number_bytes([0., 0., 0.5, 1.]));
    assert_eq!(raised.written().expect("sound")[11..], picture);
    // "Then": after the replacements.
    assert_eq!(after_screen(|s| s.numbers[2] = -0.), []);
    assert_eq!(after_screen(|s| s.numbers[3] = -0.), []);
}

#[test]
fn other_values_are_written() {
    for (i, tag) in [(2, 2), (3, 2), (4, 2), (5, 2), (6, 5), (7, 5), (8, 5)] {
        let mut numbers = plain(1000., 800.).numbers;
        numbers[i] = numbers[i].next_up();
        let value = if tag == 2 { 2..6 } else { 6..9 };
        let bytes = after_screen(|s| s.numbers = numbers);
        assert_eq!(bytes, field(tag, &number_bytes(numbers[value].to_vec())));
    }
    for mode in 1..8 {
        assert_eq!(after_screen(|s| s.mode = mode), [3, 0, 1, mode]);
    }
    // An unset fit is not what its absence means.
    assert_eq!(after_screen(|s| s.fit = 0), [4, 0, 1, 0]);
    assert_eq!(after_screen(|s| s.fit = 2), [4, 0, 1, 2]);
    let rect = [1., -2., 3., -4.];
    let cutouts = after_screen(|s| s.cutouts = rect.to_vec());
    assert_eq!(cutouts, field(6, &number_bytes(rect)));
    let saved = after_screen(|s| s.saved = rect.to_vec());
    assert_eq!(saved, field(7, &number_bytes(rect)));
}

/// "Negative zero is written as plus zero", in every number; "a saved rectangle
/// with a non-finite number becomes four times the hexadecimal 7FC00000".
#[test]
fn the_two_replacements() {
    let zeros = Given {
        numbers: [-0.; 9],
        cutouts: vec![-0.; 8],
        saved: vec![-0.; 4],
        ..Given::default()
    };
    let plus = [
        field(1, &[0; 8]),
        field(2, &[0; 16]),
        field(4, &[0]),
        field(5, &[0; 12]),
        field(6, &[0; 32]),
        field(7, &[0; 16]),
    ];
    assert_eq!(zeros.written(), Ok(plus.concat()));
    let least = f32::from_bits(1);
    for bits in [0x7F80_0000, 0xFF80_0000, 0x7F80_0001, 0xFFFF_FFFF] {
        for place in 0..4 {
            let mut saved = [1., -0., -least, f32::MAX, 5., 6., 7., 8.];
            saved[4 + place] = f32::from_bits(bits);
            let first = number_bytes([1., 0., -least, f32::MAX]);
            let value = [first, NAN.repeat(4)].concat();
            assert_eq!(after_screen(|s| s.saved = saved.to_vec()), field(7, &value));
        }
    }
}

/// "Reading such bytes gives the settings after those two replacements."
#[test]
fn what_is_written_is_read_back() {
    let given = Given {
        numbers: [0.5, 8192., -0., -8192., 0., 7., -1., -0., 8192.],
        mode: 5,
        fit: 0,
        cutouts: vec![-8192., -0., 0., 8192.],
        saved: vec![-0., 1e30, -1e-40, 1., 0., 0., -f32::NAN, 0.],
    };
    let bytes = given.written().expect("sound settings");
    let read = order::read(&bytes).map(|settings| Given::from(&settings));
    let read = read.expect("an order");
    let mut replaced = Given {
        numbers: [0.5, 8192., 0., -8192., 0., 7., -1., 0., 8192.],
        cutouts: vec![-8192., 0., 0., 8192.],
        saved: vec![0., 1e30, -1e-40, 1.],
        ..given.clone()
    };
    replaced.saved.extend([f32::from_bits(0x7FC0_0000); 4]);
    assert_eq!(read, replaced);
    assert_eq!(given.replaced(), replaced);
    assert_ne!(read, given);
    assert_eq!(read.written(), Ok(bytes));
}

/// "The same 5, 6 or 7, in tag order": each fault of the list goes before those
/// after it, and all go before 8.
#[test]
fn the_first_fault_in_tag_order_decides() {
    type Fault = fn(&mut Given);
    let beyond = 8192f32.next_up();
    assert_eq!(beyond.to_bits(), 0x4600_0001);
    let faults: &[(i32, Fault)] = &[
        (BAD_CALL, |s| s.cutouts.push(0.)),
        (BAD_CALL, |s| s.saved.push(0.)),
        (6, |s| s.numbers[0] = -f32::from_bits(1)),
        (6, |s| s.numbers[1] = f32::from_bits(0x4600_0001)),
        (6, |s| s.numbers[2] = f32::from_bits(0xC600_0001)),
        (6, |s| s.numbers[3] = f32::NAN),
        (6, |s| s.numbers[4] = -f32::from_bits(1)),
        (6, |s| s.numbers[5] = f32::INFINITY),
        (5, |s| s.mode = 8),
        (5, |s| s.mode = 255),
        (5, |s| s.fit = 3),
        (6, |s| s.numbers[6] = -f32::NAN),
        (6, |s| s.numbers[7] = f32::NEG_INFINITY),
        (6, |s| s.numbers[8] = f32::from_bits(0x4600_0001)),
        (7, |s| s.cutouts.resize(17 * 4, f32::NAN)),
        (6, |s| s.cutouts = vec![0., 0., 0., f32::NAN]),
        (7, |s| s.saved.resize(33 * 4, 0.)),
    ];
    for (i, (number, fault)) in faults.iter().enumerate() {
        assert_eq!(refusal(fault), *number, "{i}");
        for (j, (_, later)) in faults.iter().enumerate().skip(i) {
            // The later list of cutouts would mend the earlier fault.
            if !(number == &7 && j == 15 || i == 0 && (j == 14 || j == 15)) {
                let both = |s: &mut Given| {
                    later(s);
                    fault(s);
                };
                assert_eq!(refusal(both), *number, "{i} and {j}");
            }
        }
    }
    assert_eq!(refusal(|_| ()), 8);
    // The limits themselves are sound.
    let sound: &[Fault] = &[
        |s| s.numbers = [8192.; 9],
        |s| s.numbers = [0., 0., -8192., -8192., 0., 0., -8192., -8192., -8192.],
        |s| s.cutouts = [8192., -8192.].repeat(16 * 2),
        |s| s.saved = vec![f32::NAN; 32 * 4],
    ];
    for fault in sound {
        assert_eq!(refusal(fault), 8);
    }
}

/// "Too small an output is 8. Later output bytes stay."
#[test]
fn the_output() {
    let all = Given {
        numbers: [7.; 9],
        mode: 7,
        fit: 2,
        cutouts: vec![7.; 16 * 4],
        saved: vec![7.; 32 * 4],
    };
    for (given, length) in [(plain(1., 1.), 11), (all, ORDER_MOST)] {
        let bytes = given.written().expect("sound settings");
        assert_eq!(bytes.len(), length);
        for short in [0, length - 1] {
            let refused = lent(short, 9, |out| given.write(out));
            assert_eq!(refused, (Err(8), vec![9; short]));
        }
        let exact = lent(length, 9, |out| given.write(out));
        assert_eq!(exact, (Ok(length), bytes.clone()));
        let longer = lent(length + 5, 9, |out| given.write(out));
        assert_eq!(longer, (Ok(length), [&bytes[..], &[9; 5]].concat()));
    }
}
