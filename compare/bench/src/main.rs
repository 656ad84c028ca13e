//! Times the library beside the Rust: orders bytes to bytes, orders written, the
//! stack that a call takes, inner functions. Names as arguments choose those that start so.
mod inner;
mod orders;
mod race;
mod stack;
mod written;

fn main() {
    let names: Vec<String> = std::env::args().skip(1).collect();
    let chosen =
        |name: &str| names.is_empty() || names.iter().any(|n| name.starts_with(n.as_str()));
    orders::run(&chosen);
    written::run(&chosen);
    stack::run(&chosen);
    inner::run(&chosen);
}
