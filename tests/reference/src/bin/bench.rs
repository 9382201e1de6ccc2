//! The speed of the proved keeper beside the C port and the reference: `bench time SIZE SECONDS`, in lists of requests
//! `bench lists SIZE SECONDS`, and for callgrind `bench count SIZE`; `bench write SIZE FOLDER` writes lists to files. bench/run.py makes
//! the tables.

#[cfg(not(keeper))]
fn main() {
    eprintln!("bench: the proved keeper is not built: python3 tools/prove.py --lib keeper");
    std::process::exit(1);
}

#[cfg(keeper)]
fn main() {
    use reference::bench::{list::list, lists, side, written, SIZES};
    let words: Vec<String> = std::env::args().skip(1).collect();
    let words: Vec<&str> = words.iter().map(String::as_str).collect();
    let sizes = |name| SIZES.iter().find(|size| size.0 == name).expect("a size by its name").1;
    match words[..] {
        ["time", size, seconds] => {
            side::time(&list(sizes(size), 1000, 10), seconds.parse().expect("seconds"))
        }
        ["lists", size, seconds] => lists::time(sizes(size), seconds.parse().expect("seconds")),
        ["count", size] => side::count(&list(sizes(size), 200, 1)),
        ["write", size, folder] => written::write(sizes(size), folder),
        _ => {
            eprintln!("usage: bench time SIZE SECONDS | bench lists SIZE SECONDS | bench count SIZE | bench write SIZE FOLDER");
            std::process::exit(1);
        }
    }
}
