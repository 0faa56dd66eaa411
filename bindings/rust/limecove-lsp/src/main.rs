//! `limecove-lsp` speaks the language server protocol by standard input and output.
//!
//! Status 0: it was shut down. Status 1: input or output failed, or ended without `shutdown`. Status 2: it was called wrongly.

use limecove_lsp::server::serve;
use std::io;
use std::process::exit;

const USAGE: &str =
    "usage: limecove-lsp    a language server for Markdown, by standard input and output";

fn main() {
    let words: Vec<String> = std::env::args().skip(1).collect();
    match &words[..] {
        [] => {}
        // clients name the way of the protocol: this is the only one
        [word] if word == "--stdio" => {}
        [word] if word == "--help" => return println!("{USAGE}"),
        _ => {
            eprintln!("{USAGE}");
            exit(2);
        }
    }
    match serve(io::stdin().lock(), io::stdout().lock()) {
        Ok(true) => {}
        Ok(false) => exit(1),
        Err(error) => {
            eprintln!("limecove-lsp: {error}");
            exit(1);
        }
    }
}
