//! A random run by hand: `random SEED CALLS`. Prints what was seen; panics at the first disagreement.

use reference::drive::{list, REFERENCE};

fn main() {
    let values: Vec<u64> = std::env::args().skip(1).map(|value| value.parse().expect("a number")).collect();
    let [seed, calls] = values[..] else {
        eprintln!("usage: random SEED CALLS");
        std::process::exit(1);
    };
    print!("{}", list::run([REFERENCE, REFERENCE], seed, calls));
}
