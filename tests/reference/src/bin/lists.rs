//! Random vectors for the event program: `lists SEED COUNT LENGTH DIRECTORY` writes NAME.in and NAME.out pairs.

use reference::drive::{fields, random::Random};
use std::{env, fs, io, path::Path};

fn main() -> io::Result<()> {
    let words: Vec<String> = env::args().skip(1).collect();
    let [seed, count, length, directory] = &words[..] else {
        eprintln!("usage: lists SEED COUNT LENGTH DIRECTORY");
        std::process::exit(1);
    };
    let number = |word: &str| word.parse::<u64>().expect("a number");
    let mut random = Random::new(number(seed));
    fs::create_dir_all(directory)?;
    for at in 0..number(count) {
        let input = fields::list(random.next(), number(length) as usize);
        let path = Path::new(directory).join(format!("{seed}-{at}"));
        fs::write(path.with_extension("out"), reference::program::run(&input))?;
        fs::write(path.with_extension("in"), input)?;
    }
    Ok(())
}
