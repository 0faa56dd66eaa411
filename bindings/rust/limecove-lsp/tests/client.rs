//! The server as a client has it: a process, and messages. Texts are real files: the pages of the repository, or of the release.

use limecove::{normalized_label, read_document, Name, Tree};
use limecove_lsp::json::{object, parse, Value};
use limecove_lsp::server::{read, write};
use std::fs;
use std::io::{BufReader, Write};
use std::path::{Path, PathBuf};
use std::process::{Child, ChildStdin, ChildStdout, Command, Stdio};

const URI: &str = "file:///d/a.md";

/// A server, and what is sent and received.
struct Client {
    process: Child,
    input: Option<ChildStdin>,
    output: BufReader<ChildStdout>,
    last: usize,
}

impl Client {
    fn start() -> Client {
        let mut command = Command::new(env!("CARGO_BIN_EXE_limecove-lsp"));
        let piped = command.stdin(Stdio::piped()).stdout(Stdio::piped());
        let mut process = piped.spawn().unwrap();
        let (input, output) = (process.stdin.take(), process.stdout.take().unwrap());
        let mut client = Client {
            process,
            input,
            output: BufReader::new(output),
            last: 0,
        };
        let said = client.ask("initialize", object([]));
        assert_eq!(
            said.get("capabilities").get("positionEncoding").text(),
            Some("utf-16")
        );
        client.tell("initialized", object([]));
        client
    }

    fn send(&mut self, message: &Value) {
        write(self.input.as_mut().unwrap(), message).unwrap();
    }

    fn receive_bytes(&mut self) -> Vec<u8> {
        read(&mut self.output).unwrap().expect("a message")
    }

    fn receive(&mut self) -> Value {
        parse(&String::from_utf8(self.receive_bytes()).unwrap()).unwrap()
    }

    fn tell(&mut self, method: &str, params: Value) {
        self.send(&object([
            ("jsonrpc", "2.0".into()),
            ("method", method.into()),
            ("params", params),
        ]));
    }

    /// The answer to a request. Diagnostics that come before it are passed over.
    fn answer(&mut self, method: &str, params: Value) -> Value {
        self.last += 1;
        let id = Value::from(self.last);
        self.send(&object([
            ("jsonrpc", "2.0".into()),
            ("id", id.clone()),
            ("method", method.into()),
            ("params", params),
        ]));
        loop {
            let got = self.receive();
            if got.get("id") == &id {
                return got;
            }
            let method = got.get("method").text();
            assert_eq!(method, Some("textDocument/publishDiagnostics"), "{}", got);
        }
    }

    /// The result of a request.
    fn ask(&mut self, method: &str, params: Value) -> Value {
        let answer = self.answer(method, params);
        assert!(answer.has("result"), "{}", answer);
        answer.get("result").clone()
    }

    fn open(&mut self, uri: &str, text: &str) {
        let document = object([("uri", uri.into()), ("text", text.into())]);
        self.tell("textDocument/didOpen", object([("textDocument", document)]));
    }

    fn change(&mut self, uri: &str, changes: Vec<Value>) {
        let params = [
            ("textDocument", of(uri)),
            ("contentChanges", changes.into()),
        ];
        self.tell("textDocument/didChange", object(params));
    }

    /// Asks whether the server's document is this text, and all that it keeps is what reading the text anew gives.
    fn check(&mut self, uri: &str, text: &str) {
        let said = self.ask("limecove/check", object([("textDocument", of(uri))]));
        assert_eq!(said.get("text").text(), Some(text));
        assert_eq!(said.get("difference"), &Value::Null);
    }

    /// How many milliseconds of the processor the server has taken, by tens. 0 where the system does not say it.
    fn processor_time(&self) -> f64 {
        let said = fs::read_to_string(format!("/proc/{}/stat", self.process.id()));
        let said = said.unwrap_or_default();
        let fields = said.rsplit(')').next().unwrap_or_default();
        let ticks = fields.split_whitespace().skip(11).take(2);
        ticks.filter_map(|it| it.parse::<f64>().ok()).sum::<f64>() * 10.0
    }

    /// Shuts down, and returns the status.
    fn end(mut self) -> Option<i32> {
        self.ask("shutdown", Value::Null);
        self.tell("exit", Value::Null);
        self.process.wait().unwrap().code()
    }
}

fn of(uri: &str) -> Value {
    object([("uri", uri.into())])
}

/// Parameters at a place of a document, with a new name.
fn at(uri: &str, line: usize, character: usize, name: &str) -> Value {
    let place = object([("line", line.into()), ("character", character.into())]);
    let context = object([("includeDeclaration", false.into())]);
    object([
        ("textDocument", of(uri)),
        ("position", place),
        ("context", context),
        ("newName", name.into()),
    ])
}

/// Where each line begins and ends, without its line ending.
fn lines(text: &str) -> Vec<(usize, usize)> {
    let (mut found, mut start, bytes) = (Vec::new(), 0, text.as_bytes());
    for at in 0..bytes.len() {
        match bytes[at] {
            // the second byte of an ending
            b'\n' if at > 0 && bytes[at - 1] == b'\r' => start = at + 1,
            b'\n' | b'\r' => {
                found.push((start, at));
                start = at + 1;
            }
            _ => {}
        }
    }
    found.push((start, text.len()));
    found
}

/// The place of a byte, which is not between CR and LF.
fn place(text: &str, byte: usize) -> Value {
    let lines = lines(text);
    let line = lines.iter().rposition(|it| it.0 <= byte).unwrap();
    let units = text[lines[line].0..byte].encode_utf16().count();
    object([("line", line.into()), ("character", units.into())])
}

/// The byte of a place.
fn byte(text: &str, place: &Value) -> usize {
    let number = |name| place.get(name).number().unwrap();
    let (start, end) = lines(text)[number("line")];
    let (mut at, mut units) = (start, 0);
    for character in text[start..end].chars() {
        if units >= number("character") {
            break;
        }
        units += character.len_utf16();
        at += character.len_utf8();
    }
    at
}

fn cut<'a>(text: &'a str, range: &Value) -> &'a str {
    &text[byte(text, range.get("start"))..byte(text, range.get("end"))]
}

/// A text with the edits of a rename.
fn edited(text: &str, answer: &Value, uri: &str) -> String {
    let mut edits = answer.get("changes").get(uri).list().to_vec();
    edits.sort_by_key(|it| std::cmp::Reverse(byte(text, it.get("range").get("start"))));
    let mut new = text.to_string();
    for it in edits {
        let range = it.get("range");
        let bytes = byte(text, range.get("start"))..byte(text, range.get("end"));
        new.replace_range(bytes, it.get("newText").text().unwrap());
    }
    new
}

const TEXT: &str = "# One

### 😀 skipped *rank*

See [the 😀 text][Foo
bar], [foo bar], ![foo bar][] and [no][where].

> quoted [FOO
> BAR]
>
> [foo  bar]: <to%20here&amp;> \"t\"

[foo bar]: other
[unused]: #two

[]() <https://a.b> [x](</a b>)

Two
---

```rust
fn main() {}
```
";

#[test]
fn each_request_is_answered() {
    let mut client = Client::start();
    client.open(URI, TEXT);
    let wanted = [
        ("MD001", "### 😀 skipped *rank*"),
        ("MD042", "[]()"),
        ("duplicate-definition", "[foo bar]: other"),
        ("empty-link", "[]()"),
        ("undefined-reference", "where"),
        ("unused-definition", "[unused]: #two"),
    ];
    assert_eq!(told(&client.receive(), TEXT), wanted);

    let params = object([("textDocument", of(URI))]);
    let symbols = client.ask("textDocument/documentSymbol", params.clone());
    let one = &symbols.list()[0];
    assert_eq!(
        (symbols.list().len(), one.get("name").text()),
        (1, Some("One"))
    );
    let inner = one.get("children").list().iter();
    let inner: Vec<_> = inner.map(|it| it.get("name").text().unwrap()).collect();
    assert_eq!(inner, ["😀 skipped rank", "Two"]);

    let folds = client.ask("textDocument/foldingRange", params.clone());
    let number = |it: &Value, name| it.get(name).number().unwrap();
    let folds: Vec<_> = folds
        .list()
        .iter()
        .map(|it| (number(it, "startLine"), number(it, "endLine")))
        .collect();
    assert_eq!(folds, [(0, 22), (2, 16), (18, 22), (7, 10), (20, 22)]);

    let links = client.ask("textDocument/documentLink", params.clone());
    let links: Vec<_> = links
        .list()
        .iter()
        .map(|it| (cut(TEXT, it.get("range")), it.get("target").text().unwrap()))
        .collect();
    let wanted = [
        ("to%20here&amp;", "file:///d/to%20here&"),
        ("other", "file:///d/other"),
        ("#two", "file:///d/a.md#two"),
        ("<https://a.b>", "https://a.b"),
        ("/a b", "file:///a%20b"),
    ];
    assert_eq!(links, wanted);
    assert_eq!(client.end(), Some(0));
}

/// The codes of diagnostics that are told, and what they stand at in a text, in order.
fn told<'a>(message: &'a Value, text: &'a str) -> Vec<(&'a str, &'a str)> {
    let found = message.get("params").get("diagnostics").list().iter();
    let mut found: Vec<_> = found
        .map(|it| (it.get("code").text().unwrap(), cut(text, it.get("range"))))
        .collect();
    found.sort_unstable();
    found
}

/// What each rule finds, typed by hand. A line of 121 characters stands in the place of LONG.
const RULES: &str = "# One
## Two

#### Four

# Second 😀

- a

+ b\x20
~~~ c
~~~


> e\tm

LONG

http://f.g h [i](#) ![](j) [k]

[k]: #

```
l
```
";

#[test]
fn each_of_thirteen_rules_is_told() {
    let long = "é".repeat(121);
    let text = RULES.replace("LONG", &long);
    let wanted = [
        ("MD001", "#### Four"),
        ("MD004", "+ b "),
        ("MD009", " "),
        ("MD010", "\t"),
        ("MD012", ""),
        ("MD013", "é"),
        ("MD022", ""),
        ("MD022", "## Two"),
        ("MD025", "# Second 😀"),
        ("MD031", "~~~ c"),
        ("MD034", "http://f.g"),
        ("MD040", "```"),
        ("MD042", "[i](#)"),
        ("MD042", "[k]"),
        ("MD045", "![](j)"),
    ];
    let mut client = Client::start();
    client.open(URI, &text);
    assert_eq!(told(&client.receive(), &text), wanted);
    // what is far from an edit is told again, and moves with it
    for (from, to) in [
        ("# One\n## Two", "# One\n\n## Two"),
        ("# Second", "### Second"),
        ("[k]: #", "[k]: n"),
        ("+ b", "- b"),
    ] {
        let at = text.find(from).unwrap();
        let range = object([
            ("start", place(&text, at)),
            ("end", place(&text, at + from.len())),
        ]);
        client.change(URI, vec![object([("range", range), ("text", to.into())])]);
        let new = text.replacen(from, to, 1);
        let message = client.receive();
        let told = told(&message, &new);
        assert!(told.len() < wanted.len(), "{to}: {told:?}");
        client.check(URI, &new);
        client.change(URI, vec![object([("text", text.as_str().into())])]);
        client.receive();
    }
    // a rule is off if the client says so
    let off = vec!["MD013".into(), "MD042".into(), "empty-link".into()];
    let options = object([("off", Value::from(off))]);
    client.ask("initialize", object([("initializationOptions", options)]));
    client.open(URI, &text);
    let message = client.receive();
    let told = told(&message, &text);
    assert_eq!(told.len(), wanted.len() - 3, "{told:?}");
    assert_eq!(client.end(), Some(0));
}

/// References that nothing defines, as definitions come and go. What is told is typed by hand.
#[test]
fn undefined_references_are_told() {
    let mut text = String::from(
        "# [a]\n\n> [b][c], ![d][], [ E\n> f ] [g](h) \\[i] `[j]` <kk:[l]>\n\n- [x] [M]\n- [ ] n [^1]\n\n[o]: p\n[o]\n",
    );
    let mut client = Client::start();
    client.open(URI, &text);
    let is_told = |client: &mut Client, text: &str, wanted: &[&str]| {
        let message = client.receive();
        let told = told(&message, text);
        let told = told.iter().filter(|it| it.0 == "undefined-reference");
        let told: Vec<_> = told.map(|it| it.1).collect();
        assert_eq!(told, wanted, "{text}");
        client.check(URI, text);
    };
    is_told(&mut client, &text, &[" E\n> f ", "M", "a", "c", "d"]);
    // a definition in another section comes, is renamed, and goes
    for (from, to, wanted) in [
        ("[o]: p", "[o]: p\n[m]: q", &[" E\n> f ", "a", "c", "d"][..]),
        ("[m]: q", "[e F]: q", &["M", "a", "c", "d"]),
        (
            "[o]: p\n[e F]: q\n",
            "",
            &[" E\n> f ", "M", "a", "c", "d", "o"],
        ),
        (
            "[b][c]",
            "[b][c][a][m]",
            &[" E\n> f ", "M", "a", "d", "m", "o"],
        ),
    ] {
        let at = text.find(from).unwrap();
        let range = object([
            ("start", place(&text, at)),
            ("end", place(&text, at + from.len())),
        ]);
        client.change(URI, vec![object([("range", range), ("text", to.into())])]);
        text.replace_range(at..at + from.len(), to);
        is_told(&mut client, &text, wanted);
    }
    assert_eq!(client.end(), Some(0));
}

const KEYS: usize = 500;

/// What a key takes to its diagnostics, in a megabyte: printed. An optimized server takes at most 2 ms of the processor in prose.
#[test]
#[ignore]
fn a_key_in_a_megabyte() {
    let pages: String = files().into_iter().map(|it| it.1 + "\n").collect();
    for (what, part, most) in [("prose", PROSE, 2.0), ("pages", &*pages, f64::MAX)] {
        let text = part.repeat(1_000_000 / part.len() + 1) + "[next]: part.md\n";
        let mut client = Client::start();
        client.open(URI, &text);
        let told = client.receive();
        let told = told.get("params").get("diagnostics").list().len();
        let mut middle = text.len() / 2;
        middle += text[middle..].find("\n\n").unwrap();
        let at = place(&text, middle);
        let range = object([("start", at.clone()), ("end", at)]);
        let (mut times, before) = (Vec::new(), client.processor_time());
        for _ in 0..KEYS {
            let key = object([("range", range.clone()), ("text", "x".into())]);
            let start = std::time::Instant::now();
            client.change(URI, vec![key]);
            client.receive_bytes();
            times.push(start.elapsed().as_secs_f64() * 1000.0);
        }
        times.sort_by(f64::total_cmp);
        let (bytes, least, median) = (text.len(), times[0], times[KEYS / 2]);
        let busy = (client.processor_time() - before) / KEYS as f64;
        println!("{what}: {bytes} bytes, {told} diagnostics: a key takes {least:.2} ms at least, {median:.2} in the middle, and {busy:.2} of the processor");
        assert!(cfg!(debug_assertions) || busy <= most);
        assert_eq!(client.end(), Some(0));
    }
}

const PROSE: &str = "## A part of a book

It says *what* a part is for, in [words](part.md) that a reader has, and in `code`.
A second line goes on, and the [next one][next] ends it.

Another paragraph, of one line, without anything in it but words and a stop.

";

#[test]
fn labels_are_found_and_renamed() {
    let mut client = Client::start();
    client.open(URI, TEXT);
    let here = |name| at(URI, 4, 8, name);
    let found = client.ask("textDocument/definition", here(""));
    assert_eq!(cut(TEXT, found.get("range")), "foo  bar");
    let found = client.ask("textDocument/references", here(""));
    let found: Vec<_> = found
        .list()
        .iter()
        .map(|it| cut(TEXT, it.get("range")))
        .collect();
    let wanted = [
        "[the 😀 text][Foo\nbar]",
        "[foo bar]",
        "![foo bar][]",
        "[FOO\n> BAR]",
    ];
    assert_eq!(found, wanted);
    let name = client.ask("textDocument/prepareRename", here(""));
    assert_eq!(cut(TEXT, &name), "Foo\nbar");

    let renamed = client.ask("textDocument/rename", here("new"));
    let new = edited(TEXT, &renamed, URI);
    for part in [
        "[the 😀 text][new], [foo bar][new], ![foo bar][new] and",
        "> BAR][new]",
        "> [new]: <to%20here&amp;> \"t\"",
        "[new]: other",
    ] {
        assert!(new.contains(part), "{part}: {new}");
    }
    assert!(goes_to(TEXT) == goes_to(&new));
    for name in ["a]b", "", " ", "a\nb", "a\n\nb", "a]: b\n\n[c", "unused"] {
        let answer = client.answer("textDocument/rename", here(name));
        assert!(answer.has("error"), "{name}");
    }
    let nowhere = client.ask("textDocument/definition", at(URI, 0, 1, ""));
    assert_eq!(nowhere, Value::Null);
    assert_eq!(client.end(), Some(0));
}

/// Where the links and images of a text go.
fn goes_to(text: &str) -> Vec<Vec<u8>> {
    let tree = Tree::new(text, &read_document(text).unwrap()).unwrap();
    let links = tree.nodes().filter_map(|it| it.link().unwrap());
    links.map(|it| it.destination).collect()
}

#[test]
fn what_is_no_request_is_refused() {
    let mut client = Client::start();
    let code = |answer: &Value| answer.get("error").get("code").clone();
    let answer = client.answer("textDocument/hover", at(URI, 0, 0, ""));
    assert_eq!(code(&answer), Value::Number(-32601.0));
    let answer = client.answer(
        "textDocument/documentSymbol",
        object([("textDocument", of(URI))]),
    );
    assert_eq!(code(&answer), Value::Number(-32803.0));
    let input = client.input.as_mut().unwrap();
    input
        .write_all(b"content-length:2\r\nX: y\r\n\r\n{]")
        .unwrap();
    let answer = client.receive();
    assert_eq!(
        (code(&answer), answer.get("id")),
        (Value::Number(-32700.0), &Value::Null)
    );
    client.change(URI, vec![object([("text", "a".into())])]);
    assert_eq!(
        client.receive().get("method").text(),
        Some("window/logMessage")
    );
    // an empty document, and places that there are not
    client.open(URI, "");
    client.check(URI, "");
    let start = object([("line", 7.into()), ("character", 7.into())]);
    let range = object([("start", start.clone()), ("end", start)]);
    client.change(
        URI,
        vec![object([("range", range), ("text", "# a".into())])],
    );
    client.check(URI, "# a");
    client.tell("exit", Value::Null);
    assert_eq!(client.process.wait().unwrap().code(), Some(1));
}

/// The same numbers at each run.
struct Random(u64);

impl Random {
    fn below(&mut self, n: usize) -> usize {
        self.0 = self.0.wrapping_add(0x9e37_79b9_7f4a_7c15);
        let z = (self.0 ^ (self.0 >> 30)).wrapping_mul(0xbf58_476d_1ce4_e5b9);
        let z = (z ^ (z >> 27)).wrapping_mul(0x94d0_49bb_1331_11eb);
        ((z ^ (z >> 31)) % n as u64) as usize
    }

    /// A place in a text: no byte in a character, and none between CR and LF.
    fn place(&mut self, text: &str) -> usize {
        let mut at = self.below(text.len() + 1);
        while !text.is_char_boundary(at)
            || text[..at].ends_with('\r') && text[at..].starts_with('\n')
        {
            at -= 1;
        }
        at
    }
}

const PIECES: [&str; 24] = [
    "\n",
    "\r\n",
    "[a]",
    "[a]: b\n",
    "[a][b]",
    "[b]: c\n",
    "# x\n",
    "### y\n",
    "- ",
    "  - z\n",
    "```\n",
    "> ",
    "é",
    "😀",
    "*",
    "`",
    "[]()",
    "![q](r)",
    "\t",
    "<http://a>",
    "\n\n",
    "[ß]: s\n\n",
    "[SS]",
    "<!--",
];

/// The Markdown files of the repository, or of the release: the first 20,000 bytes of each.
fn files() -> Vec<(PathBuf, String)> {
    let here = Path::new(env!("CARGO_MANIFEST_DIR"));
    let mut folders = vec![".", "../limecove", "../limecove-sys", "../.."];
    if here.join("../../../crates.txt").exists() {
        folders.extend(["../../..", "../../../docs", "../../../docs/maintaining"]);
    }
    let mut found = Vec::new();
    for folder in folders {
        for file in fs::read_dir(here.join(folder)).into_iter().flatten() {
            let path = file.unwrap().path();
            if path.extension().map_or(false, |it| it == "md") {
                let mut text = fs::read_to_string(&path).unwrap();
                let end = (0..=text.len().min(20_000))
                    .rev()
                    .find(|it| text.is_char_boundary(*it));
                text.truncate(end.unwrap());
                found.push((path, text));
            }
        }
    }
    found.sort();
    assert!(!found.is_empty());
    found
}

/// Random changes of real files, up to three in a message, in units of UTF-16. Half of the files have CR LF.
#[test]
fn what_is_kept_is_what_is_read_anew() {
    let changes = std::env::var("CHANGES").map_or(8, |it| it.parse().unwrap());
    let (mut client, mut random, mut done) = (Client::start(), Random(1), 0);
    for (number, (path, mut text)) in files().into_iter().enumerate() {
        if number % 2 == 1 {
            text = text.replace('\n', "\r\n");
        }
        let uri = format!("file://{}", path.display());
        client.open(&uri, &text);
        client.check(&uri, &text);
        for _ in 0..changes {
            let mut list = Vec::new();
            for _ in 0..1 + random.below(3) {
                let (one, other) = (random.place(&text), random.place(&text));
                let is_far = random.below(10) == 0;
                let end = if is_far { other } else { one + random.below(4) };
                let end = end.clamp(one, text.len());
                let end = if text.is_char_boundary(end) && !text[..end].ends_with('\r') {
                    end
                } else {
                    one
                };
                let with = match random.below(3) {
                    0 => text[one..].chars().take(20).collect(),
                    _ => PIECES[random.below(PIECES.len())].to_string(),
                };
                let range = object([("start", place(&text, one)), ("end", place(&text, end))]);
                list.push(object([("range", range), ("text", with.as_str().into())]));
                text.replace_range(one..end, &with);
            }
            client.change(&uri, list);
            client.check(&uri, &text);
            done += 1;
        }
        ask_all(&mut client, &uri, &text, &mut random);
    }
    println!("{done} messages of changes");
    assert_eq!(client.end(), Some(0));
}

/// Asks all requests of a document. Tokens stand in order, apart, each in its line; and a label is renamed only so that links go where they went.
fn ask_all(client: &mut Client, uri: &str, text: &str, random: &mut Random) {
    let params = object([("textDocument", of(uri))]);
    for method in ["documentSymbol", "foldingRange", "documentLink"] {
        client.ask(&format!("textDocument/{method}"), params.clone());
    }
    let tokens = client.ask("textDocument/semanticTokens/full", params);
    let numbers: Vec<usize> = tokens
        .get("data")
        .list()
        .iter()
        .map(|it| it.number().unwrap())
        .collect();
    let (mut line, mut unit, mut ended) = (0, 0, 0);
    let lines = lines(text);
    for five in numbers.chunks_exact(5) {
        (line, unit, ended) = match five[0] {
            0 => (line, unit + five[1], ended),
            more => (line + more, five[1], 0),
        };
        assert!(unit >= ended, "{uri}:{line}");
        ended = unit + five[2];
        let (start, end) = lines[line];
        assert!(
            ended <= text[start..end].encode_utf16().count(),
            "{uri}:{line}"
        );
    }
    let tree = Tree::new(text, &read_document(text).unwrap()).unwrap();
    let is_link = |it: &limecove::Node<'_>| matches!(it.name(), Name::Link | Name::Image);
    for link in tree.nodes().filter(is_link) {
        let definition = link.definition().unwrap();
        let start = place(text, link.bytes().start);
        let number = |name| start.get(name).number().unwrap();
        let here = at(uri, number("line"), number("character"), "a new name");
        let found = client.ask("textDocument/definition", here.clone());
        match definition {
            // the definition that the server finds is the one that the library means
            Some(definition) => {
                let name = byte(text, found.get("range").get("start"));
                assert!(definition.bytes().contains(&name), "{uri}: {found}");
                if random.below(4) == 0 {
                    let renamed = client.ask("textDocument/rename", here);
                    let new = edited(text, &renamed, uri);
                    assert!(goes_to(text) == goes_to(&new), "{uri}: {renamed}");
                }
            }
            None => assert!(link.child(Name::Resource).is_some()),
        }
    }
}

#[test]
fn labels_are_compared_as_the_library_does() {
    let labels = [
        "a", "A", " a\tb ", "A  B", "ß", "SS", "ẞ", "ΑΓΩ", "αγω", "ς", "σ", "Σ", "é", "É", "i",
        "İ", "ı", "ﬁ", "FI", "ǆ", "ǅ", "\0", "\u{FFFD}",
    ];
    for one in labels {
        for other in labels {
            let text = format!("[{one}]: x\n\n[y][{other}]");
            let tree = Tree::new(&text, &read_document(&text).unwrap()).unwrap();
            let is_link = tree.nodes().any(|it| it.name() == Name::Link);
            let [one, other] = [one, other].map(|it| normalized_label(it).unwrap());
            assert_eq!(is_link, one == other, "{text}");
        }
    }
}
