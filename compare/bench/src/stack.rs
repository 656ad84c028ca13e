//! How much stack a call takes: the stack below a frame is painted, and
//! afterwards the lowest byte that changed is looked for.
use check::{orders, random::Random, settings};
use ours::host;
use player::{
    order::{self, writer::Given},
    sheet,
    tracker::{self, Act},
};
use std::{arch::asm, thread};

/// How far is painted, and how far below the frame that begins, since the
/// frame's own calls use what lies next to it.
const ROOM: usize = 1 << 18;
const NEXT: usize = 1 << 10;
const PAINT: u8 = 0xA5;
const CASES: i64 = 20_000;
/// Room for a film sheet, and so for any layout.
const OUT: usize = 1024;

/// The bytes of stack below this frame that `call` uses, at least `NEXT`.
#[inline(never)]
fn depth(call: &mut dyn FnMut()) -> usize {
    let here: usize;
    // SAFETY: the stack pointer is only read.
    unsafe { asm!("mov {}, rsp", out(reg) here, options(nomem, nostack)) };
    let byte = |below: usize| (here - below) as *mut u8;
    for below in NEXT..ROOM {
        // SAFETY: the thread's stack goes further down than `ROOM`, and
        // nothing in use lies there.
        unsafe { byte(below).write_volatile(PAINT) };
    }
    call();
    let used = |below: &usize| {
        // SAFETY: as above.
        unsafe { byte(*below).read_volatile() != PAINT }
    };
    (NEXT..ROOM).rev().find(used).unwrap_or(NEXT)
}

/// The stack that the deepest of many calls takes.
fn deepest<C>(make: fn(&mut Random) -> C, call: Call<C>) -> usize {
    let each = move || {
        let cases = Random::new(1).list(CASES, CASES, make);
        let mut out = [0; OUT];
        depth(&mut || {
            for case in &cases {
                assert!(call(case, &mut out), "a sound case");
            }
        })
    };
    thread::scope(|scope| {
        let thread = thread::Builder::new().stack_size(16 * ROOM);
        let thread = thread.spawn_scoped(scope, each);
        thread.expect("a thread").join().expect("a depth")
    })
}

/// Whether a case is accepted.
type Call<C> = fn(&C, &mut [u8; OUT]) -> bool;

/// Orders of all kinds.
fn order(r: &mut Random) -> Vec<u8> {
    orders::sound(r).bytes
}

/// The Rust, and ours, on orders.
const CALLS: &[(&str, Call<Vec<u8>>, Call<Vec<u8>>)] = &[
    (
        "stack layout",
        |order, out| order::layout(order, out).is_ok(),
        |order, out| thumb_layout::layout(order, out).is_ok(),
    ),
    (
        "stack viewport",
        |order, out| order::viewport_layout(order, [24., 24.5], out).is_ok(),
        |order, out| thumb_layout::viewport_layout(order, 24., 24.5, out).is_ok(),
    ),
    (
        "stack touch",
        |order, _| order::touch(order, [500.; 2], 0).is_ok(),
        |order, _| thumb_layout::touch(order, 500., 500., 0).is_ok(),
    ),
    (
        "stack move",
        |order, _| tracker::order_call(&mut [[1, 0]; 10], order, (Act::Move, 0, [500.; 2])).is_ok(),
        |order, _| host::move_to(&mut [[1, 0]; 10], order, 0, [500.; 2]).is_ok(),
    ),
    (
        "stack film",
        |order, _| sheet::film_sheet(order).0.starts_with(b"FILM"),
        |order, out| host::film(order, out) > 0 && out.starts_with(b"FILM"),
    ),
];

/// The same on settings.
const WRITE: (&str, Call<Given>, Call<Given>) = (
    "stack write",
    |given, out| given.write(out).is_ok(),
    |given, out| {
        let marks = [given.mode, given.fit];
        host::write_order(&given.numbers, marks, &given.cutouts, &given.saved, out).is_ok()
    },
);

fn compare<C>(make: fn(&mut Random) -> C, (name, theirs, ours): (&str, Call<C>, Call<C>)) {
    let [theirs, ours] = [theirs, ours].map(|call| deepest(make, call));
    println!("{name:<42} Rust {theirs:>6} bytes, ours {ours:>6} bytes");
}

pub fn run(chosen: &dyn Fn(&str) -> bool) {
    for calls in CALLS.iter().filter(|(name, ..)| chosen(name)) {
        compare(order, *calls);
    }
    if chosen(WRITE.0) {
        compare(settings::sound, WRITE);
    }
}
