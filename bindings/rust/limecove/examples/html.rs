//! Writes a document as HTML: `html [--raw-html] [--any-scheme] < FILE`.
//!
//! Without an option the HTML is safe to show whoever wrote the document, as `docs/HTML.md` says. `--raw-html` lets raw HTML through,
//! `--any-scheme` addresses of any scheme: then nothing of this is promised.

use limecove::{to_html_bytes, HtmlOptions};
use std::io::{self, Read, Write};
use std::{env, process};

fn main() -> io::Result<()> {
    let mut options = HtmlOptions::default();
    for word in env::args().skip(1) {
        options = match word.as_str() {
            "--raw-html" => options.allow_dangerous_html(true),
            "--any-scheme" => options.allow_dangerous_protocol(true),
            _ => {
                eprintln!("usage: html [--raw-html] [--any-scheme] < FILE");
                process::exit(2);
            }
        };
    }
    let mut document = Vec::new();
    io::stdin().read_to_end(&mut document)?;
    let html = to_html_bytes(&document, &options)
        .map_err(|error| io::Error::new(io::ErrorKind::Other, error.to_string()))?;
    io::stdout().write_all(&html)
}
