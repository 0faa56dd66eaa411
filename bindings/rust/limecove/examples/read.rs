//! Reads a file so many times, to be measured, and prints how many events it has: `read MACHINE [--deep] FILE TIMES`.
//! `bindings/measure.py` calls it, and `bindings/test.sh`.

use limecove::{tokenize, Machine, Options};
use std::{env, fs};

fn main() {
    let mut words: Vec<String> = env::args().skip(1).collect();
    let deep = words.iter().any(|word| word == "--deep");
    words.retain(|word| word != "--deep");
    let (machine, file, times) = match words.as_slice() {
        [machine, file, times] => (machine, file, times),
        _ => panic!("usage: read MACHINE [--deep] FILE TIMES"),
    };
    let known = |it: &&Machine| it.as_str().to_lowercase() == *machine;
    let mut machines = Machine::ALL.iter().chain(Machine::FOR_TESTS);
    let machine = *machines.find(known).expect("a machine");
    let options = Options::default().machine(machine).deep(deep);
    let document = fs::read(file).expect("a file");
    let mut count = 0;
    for _ in 0..times.parse().expect("a number") {
        count = tokenize(&document, &options).expect("it is read").len();
    }
    println!("{}", count);
}
