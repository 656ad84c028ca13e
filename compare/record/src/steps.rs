//! A list for crates/replay: steps, each with a head of 17 bytes (data/README.md
//! there). The answers to orders are the Rust's; settings are written by the
//! writer of orders beside it, and fingers tracked by the tracker there, from the
//! papers alone.
use check::{masks, nearest::nearest_hypot};
use player::{
    order::{
        self, Answer, lent,
        writer::{Given, ORDER_MOST},
    },
    sheet,
    tracker::{self, Call, Fingers},
};

/// How many bytes more than enough are lent to every third written order.
const LATER: usize = 100;

/// What a step has. Numbers that its kind does not use are 0.
#[derive(Default)]
struct Step<'a> {
    kind: u8,
    /// The point of a touch or of a finger, or the tops of a viewport.
    at: [f32; 2],
    /// How many bytes are lent, or the previous mask, or what a finger does and
    /// which it is.
    given: u16,
    /// What each lent byte was before.
    mark: u8,
    answer: u32,
    bytes: &'a [u8],
}

/// A list as it is written, and the order that its next calls are of.
#[derive(Default)]
pub struct List {
    pub bytes: Vec<u8>,
    order: Vec<u8>,
    /// How many orders were written into rooms in turn.
    turn: usize,
    /// The tracker of its next finger calls.
    pub fingers: Fingers,
}

/// An answer in 24 bits: the high byte is a refusal's number, or 0.
pub fn number(answer: Answer<u16>) -> u32 {
    match answer {
        Ok(n) => u32::from(n),
        Err(refusal) => (refusal as u32) << 16,
    }
}

impl List {
    fn push(&mut self, step: Step) {
        let list = &mut self.bytes;
        list.push(step.kind);
        for n in step.at {
            // The one NaN that the logic has.
            let n = if n.is_nan() { f32::NAN } else { n };
            list.extend(n.to_be_bytes());
        }
        list.extend(step.given.to_be_bytes());
        list.push(step.mark);
        list.extend(&step.answer.to_be_bytes()[1..]);
        list.extend((step.bytes.len() as u16).to_be_bytes());
        list.extend(step.bytes);
    }
    pub fn order(&mut self, order: &[u8]) {
        self.order = order.to_vec();
        self.push(Step {
            kind: b'O',
            bytes: order,
            ..Step::default()
        });
    }
    /// Its last bytes: those that the step before wrote.
    pub fn end(&self, length: u16) -> &[u8] {
        &self.bytes[self.bytes.len() - usize::from(length)..]
    }
    /// The end of a case, which has a name.
    pub fn name(&mut self, name: &str) {
        self.push(Step {
            kind: b'N',
            bytes: name.as_bytes(),
            ..Step::default()
        });
    }
    fn written(&mut self, kind: u8, at: [f32; 2], room: u16, fill: u8) -> Answer<u16> {
        let order = &self.order;
        let (answer, out) = lent(room.into(), fill, |out| match kind {
            b'L' => order::layout(order, out),
            b'V' => order::viewport_layout(order, at, out),
            _ => Given::from(&order::read(order)?).write(out),
        });
        let answer = answer.map(|length| length as u16);
        let (bytes, later) = out.split_at(answer.unwrap_or(0).into());
        assert!(later.iter().all(|b| *b == fill), "a later byte changed");
        self.push(Step {
            kind,
            at,
            given: room,
            mark: fill,
            answer: number(answer),
            bytes,
        });
        answer
    }
    pub fn layout(&mut self, room: u16, fill: u8) -> Answer<u16> {
        self.written(b'L', [0.; 2], room, fill)
    }
    pub fn viewport(&mut self, tops: [f32; 2], room: u16, fill: u8) -> Answer<u16> {
        self.written(b'V', tops, room, fill)
    }
    /// The order's settings, written as an order.
    pub fn written_order(&mut self, room: u16, fill: u8) -> Answer<u16> {
        self.written(b'W', [0.; 2], room, fill)
    }
    /// The same into just enough bytes, one fewer, or more, in turn: accepted
    /// orders take turns, a refused one is lent enough for every order.
    pub fn written_in_turn(&mut self, fill: u8) -> Answer<u16> {
        let written = order::read(&self.order).and_then(|s| Given::from(&s).written());
        let room = match written {
            Ok(bytes) => {
                let length = bytes.len();
                self.turn += 1;
                [length + LATER, length, length - 1][self.turn % 3]
            }
            Err(_) => ORDER_MOST,
        };
        self.written_order(room as u16, fill)
    }
    /// Here the Rust's answer does not depend on which hypot it takes.
    pub fn touch(&mut self, at: [f32; 2], previous: u16) -> Answer<u16> {
        let answer = order::touch(&self.order, at, previous);
        let layout = order::read(&self.order).map(|settings| settings.layout());
        let nearest = layout.map(|l| masks::mask_near(&l.into(), at, previous, nearest_hypot));
        assert_eq!(answer, nearest, "a tie of hypot");
        self.push(Step {
            kind: b'T',
            at,
            given: previous,
            answer: number(answer),
            ..Step::default()
        });
        answer
    }
    /// A finger's call on the order: the tracker before it and after it, and the
    /// combined mask, 0 if it is refused. Here too it does not matter which hypot
    /// is taken.
    pub fn finger(&mut self, call: Call) -> Answer<[u16; 2]> {
        let (before, mut nearest) = (self.fingers, self.fingers);
        let answer = tracker::order_call(&mut self.fingers, &self.order, call);
        let layout = order::read(&self.order).map(|settings| settings.layout().into());
        let same = layout.and_then(|l| {
            tracker::call(&mut nearest, call, |at, previous| {
                masks::mask_near(&l, at, previous, nearest_hypot)
            })
        });
        assert_eq!((answer, self.fingers), (same, nearest), "a tie of hypot");
        let combined = answer.map_or(0, |masks| masks[1]);
        let numbers = [
            before.as_flattened(),
            self.fingers.as_flattened(),
            &[combined],
        ]
        .concat();
        let bytes: Vec<u8> = numbers.iter().flat_map(|n| n.to_be_bytes()).collect();
        let (act, finger, at) = call;
        self.push(Step {
            kind: b'F',
            at,
            given: u16::from_be_bytes([act as u8, finger]),
            answer: number(answer.map(|masks| masks[0])),
            bytes: &bytes,
            ..Step::default()
        });
        answer
    }
    /// The numbers of a line of the order's film sheet.
    pub fn line(&self, name: &str) -> Option<String> {
        let (bytes, _) = sheet::film_sheet(&self.order);
        let text = String::from_utf8_lossy(&bytes);
        let lines = text.lines().filter_map(|line| line.split_once(' '));
        let mut named = lines.filter(|line| line.0 == name);
        named.next().map(|line| line.1.to_string())
    }
    pub fn sheet(&mut self) {
        let (bytes, length) = sheet::film_sheet(&self.order);
        self.push(Step {
            kind: b'S',
            bytes: &bytes[..length],
            ..Step::default()
        });
    }
}
