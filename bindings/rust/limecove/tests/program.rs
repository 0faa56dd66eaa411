//! Random documents, read here and by the program that the variable MDEVENTS names. `bindings/test.sh` sets it.

use limecove::{tokenize, Machine, Options, TabSize, TextOptions};
use std::env;
use std::fs::File;
use std::num::NonZeroUsize;
use std::process::{Command, Stdio};

/// Random numbers, the same at each run (SplitMix64).
struct Random(u64);

impl Random {
    fn below(&mut self, n: u64) -> u64 {
        self.0 = self.0.wrapping_add(0x9e37_79b9_7f4a_7c15);
        let mut z = self.0;
        z = (z ^ (z >> 30)).wrapping_mul(0xbf58_476d_1ce4_e5b9);
        z = (z ^ (z >> 27)).wrapping_mul(0x94d0_49bb_1331_11eb);
        (z ^ (z >> 31)) % n
    }

    /// A document of up to 40 pieces that the machines tell apart.
    fn document(&mut self) -> Vec<u8> {
        const PIECES: [&[u8]; 35] = [
            b"a",
            b"bc",
            b" ",
            b"\t",
            b"\n",
            b"\n",
            b"\r",
            b"\r\n",
            b"`",
            b"``",
            b"<",
            b">",
            b"<ab:c>",
            b"http:",
            b"\\",
            b"\\*",
            b"\\\\",
            b"\0",
            b"\xc3\xa9",
            b"\xff",
            b"*",
            b"> ",
            b".",
            b"+",
            b"- ",
            b"1. ",
            b"  ",
            b"\n\n",
            b"```",
            b"[",
            b"![",
            b"]",
            b"[a]",
            b"](b)",
            b"\n\n[a]: b\n",
        ];
        (0..self.below(40))
            .flat_map(|_| PIECES[self.below(PIECES.len() as u64) as usize])
            .copied()
            .collect()
    }
}

/// The ways in which the program reads: each machine, and four with their texts.
fn ways() -> Vec<(Machine, bool)> {
    let machines = Machine::ALL.iter().chain(Machine::FOR_TESTS);
    let mut ways: Vec<_> = machines.map(|machine| (*machine, false)).collect();
    ways.extend([
        (Machine::Paragraphs, true),
        (Machine::Text, true),
        (Machine::Flow, true),
        (Machine::Document, true),
    ]);
    ways
}

/// How a document is read.
#[derive(Debug)]
struct Way {
    machine: Machine,
    deep: bool,
    cut: Option<NonZeroUsize>,
    tab: TabSize,
}

/// What the program prints of a document.
fn printed(program: &str, document: &std::path::Path, way: &Way) -> Vec<u8> {
    let mut call = Command::new(program);
    call.args(["--machine", &way.machine.as_str().to_lowercase()]);
    call.args(["--tab", &way.tab.get().to_string()]);
    if way.deep {
        call.arg("--deep");
    }
    if let Some(cut) = way.cut {
        call.args(["--cut", &cut.to_string()]);
    }
    let output = call
        .stdin(Stdio::from(File::open(document).unwrap()))
        .output()
        .unwrap();
    assert!(output.status.success());
    output.stdout
}

/// The events of a document as the program prints them.
fn tokenized(document: &[u8], way: &Way) -> String {
    let options = Options::default()
        .machine(way.machine)
        .deep(way.deep)
        .cut(way.cut)
        .text(TextOptions::default().tab_size(way.tab));
    let events = tokenize(document, &options).unwrap();
    events.iter().map(|event| format!("{}\n", event)).collect()
}

/// Compares so many documents, those of one seed.
fn compare(program: &str, seed: u64, count: usize) {
    let mut random = Random(seed);
    let path = env::temp_dir().join(format!("limecove-{}-{}", std::process::id(), seed));
    for _ in 0..count {
        let document = random.document();
        std::fs::write(&path, &document).unwrap();
        for (machine, deep) in ways() {
            let way = Way {
                machine,
                deep,
                cut: NonZeroUsize::new(random.below(5) as usize),
                tab: TabSize::new(1 + random.below(16) as usize).unwrap(),
            };
            let here = tokenized(&document, &way);
            let there = printed(program, &path, &way);
            assert!(here.as_bytes() == there, "{:?} {:?}", document, way);
        }
    }
    std::fs::remove_file(&path).unwrap();
}

/// 10,000 documents for each machine, or as many as the variable DOCUMENTS says.
#[test]
#[ignore = "it needs the program that MDEVENTS names"]
fn random_documents_have_the_events_that_the_program_prints() {
    let program = env::var("MDEVENTS").expect("MDEVENTS names the program");
    let count = env::var("DOCUMENTS").map_or(10_000, |count| count.parse().unwrap());
    std::thread::scope(|scope| {
        for seed in 0..4 {
            let program = &program;
            scope.spawn(move || compare(program, seed, count / 4));
        }
    });
}
