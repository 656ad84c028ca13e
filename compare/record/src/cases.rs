//! The cases of crates/replay/data/cases.txt, each answered as documents 01 and
//! 02 say.
use crate::steps::List;
use player::{
    order::{Answer, writer::ORDER_MOST},
    tracker::{Act, Call},
};

/// The bytes lent where a case does not say how many: enough for each layout.
const ROOM: u16 = 353;
/// What each of them was before.
const FILL: u8 = 0xA5;

/// The cases of a text: each has a name, which stands alone, and lines under
/// it that begin with a blank. A comment goes from `#` to the line's end.
pub fn cases(text: &str) -> Vec<(&str, Vec<&str>)> {
    let mut cases: Vec<(&str, Vec<&str>)> = Vec::new();
    for line in text.lines() {
        let line = line.split('#').next().unwrap_or("").trim_end();
        match cases.last_mut() {
            _ if line.is_empty() => (),
            Some((_, lines)) if line.starts_with(' ') => lines.push(line.trim_start()),
            _ => cases.push((line, Vec::new())),
        }
    }
    cases
}

/// The list of the cases. It panics where the Rust, or the writer of orders or
/// the tracker, answers otherwise than the paper.
pub fn list(text: &str) -> List {
    let mut list = List::default();
    for (name, lines) in cases(text) {
        let asks = |line: &&str| line.contains('=');
        let (fields, calls) = lines.split_at(lines.iter().position(asks).unwrap_or(lines.len()));
        list.order(&hexadecimal(&fields.join(" ")));
        list.fingers = Default::default();
        for lines in calls.chunk_by(|_, next| !asks(next)) {
            call(&mut list, name, &lines.join(" "));
        }
        list.sheet();
        let _ = list.written_in_turn(FILL);
        list.name(name);
    }
    list
}

fn hexadecimal(words: &str) -> Vec<u8> {
    words.split_whitespace().flat_map(bytes).collect()
}

/// Hexadecimal digits, or `HEX*N`: those N times.
fn bytes(word: &str) -> Vec<u8> {
    let (digits, times) = word.split_once('*').unwrap_or((word, "1"));
    let byte = |i| u8::from_str_radix(&digits[i..i + 2], 16).expect("two digits");
    let bytes: Vec<u8> = (0..digits.len()).step_by(2).map(byte).collect();
    bytes.repeat(times.parse().expect("how many times"))
}

/// What a case asks, and its answer after `=`: the step or steps are added.
fn call(list: &mut List, name: &str, line: &str) {
    let (asked, want) = line.split_once('=').expect("an answer");
    let asked: Vec<&str> = asked.split_whitespace().collect();
    match asked[..] {
        ["bytes", at] => {
            let length = list.layout(ROOM, FILL).expect(name);
            let at = at.parse().expect("a place");
            let want = hexadecimal(want);
            let got = &list.end(length)[at..at + want.len()];
            return assert_eq!(got, want, "{name}: {got:02X?} at {at}");
        }
        ["written"] => {
            let length = list.written_order(ORDER_MOST as u16, FILL).expect(name);
            let got = list.end(length);
            return assert_eq!(got, hexadecimal(want), "{name}: {got:02X?}");
        }
        ["film", line] => {
            let got = list.line(line);
            return assert_eq!(got.as_deref(), Some(want.trim()), "{name}: {line}");
        }
        _ => (),
    }
    if let Some(made) = finger_call(&asked) {
        let got = finger_answer(list.finger(made));
        return assert_eq!(got, want.trim(), "{name}: {line}");
    }
    let float = |i: usize| asked[i].parse::<f32>().expect("a number");
    let whole = |i: usize| asked[i].parse::<u16>().expect("a whole number");
    let answers = match asked[..] {
        [] => vec![
            list.layout(ROOM, FILL),
            list.viewport([0.; 2], ROOM, FILL),
            list.touch([0.; 2], 0),
        ],
        ["layout", _] => vec![list.layout(whole(1), FILL)],
        ["viewport", _, _] => vec![list.viewport([float(1), float(2)], ROOM, FILL)],
        ["viewport", _, _, _] => vec![list.viewport([float(1), float(2)], whole(3), FILL)],
        ["touch", _, _, _] => vec![list.touch([float(1), float(2)], whole(3))],
        ["written", _] => vec![list.written_order(whole(1), FILL)],
        _ => panic!("{name}: {line}"),
    };
    for answer in answers {
        assert!(is(want.trim(), answer), "{name}: {line}: {answer:?}");
    }
}

/// `press` or `move` with a finger and a point, or `lift` with a finger.
pub fn finger_call(words: &[&str]) -> Option<Call> {
    let (act, finger, at) = match words[..] {
        ["press", finger, x, y] => (Act::Press, finger, [x, y]),
        ["move", finger, x, y] => (Act::Move, finger, [x, y]),
        ["lift", finger] => (Act::Lift, finger, ["0"; 2]),
        _ => return None,
    };
    let at = at.map(|n| n.parse().expect("a number"));
    Some((act, finger.parse().expect("a finger"), at))
}

/// Both masks in hexadecimal, or the refusal.
pub fn finger_answer(answer: Answer<[u16; 2]>) -> String {
    match answer {
        Ok([mask, combined]) => format!("{mask:04X} {combined:04X}"),
        Err(refusal) => format!("refusal {refusal}"),
    }
}

/// Whether an answer is `accepted`, or just this number or refusal.
fn is(want: &str, answer: Answer<u16>) -> bool {
    match want.strip_prefix("refusal ") {
        Some(refusal) => answer.err() == refusal.parse().ok(),
        None if want == "accepted" => answer.is_ok(),
        None => answer.ok().is_some_and(|n| want.parse() == Ok(n)),
    }
}
