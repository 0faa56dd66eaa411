//! Prints the code spans of a document.

use limecove::{spans, tokenize_text, Error, Name, TextOptions};

fn main() -> Result<(), Error> {
    let document = b"a `code` <https://b.c> \\* d\n";
    let events = tokenize_text(document, &TextOptions::default())?;
    for span in spans(&events).filter(|span| span.name == Name::CodeText) {
        println!("{span}, bytes {:?}", span.bytes());
    }
    Ok(())
}
