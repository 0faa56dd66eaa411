//! Messages of the language server protocol, and their answers.

use crate::facts::{lossy, Definition, Form, Heading, Reference, Span, TOKENS};
use crate::json::{object, parse, Value};
use crate::rules;
use crate::text::Text;
use limecove::{is_label, normalized_label};
use std::collections::{HashMap, HashSet};
use std::io::{self, BufRead, Write};

/// The result of a request, or why there is none: a code of the protocol and a sentence.
type Answer = Result<Value, (f64, String)>;

const NOT_JSON: f64 = -32700.0;
const NO_SUCH_METHOD: f64 = -32601.0;
const REQUEST_FAILED: f64 = -32803.0;

fn failed(reason: impl ToString) -> (f64, String) {
    (REQUEST_FAILED, reason.to_string())
}

fn place(line: usize, unit: usize) -> Value {
    object([("line", line.into()), ("character", unit.into())])
}

/// A range of the protocol, from places of a section whose first line this is.
fn range(span: &Span, first: usize) -> Value {
    let from = place(span.from.line + first, span.from.unit);
    let to = place(span.to.line + first, span.to.unit);
    object([("start", from), ("end", to)])
}

fn empty_range(at: Value) -> Value {
    object([("start", at.clone()), ("end", at)])
}

/// Line and unit of a place of the protocol.
fn place_of(value: &Value) -> (usize, usize) {
    let number = |name| value.get(name).number().unwrap_or(0);
    (number("line"), number("character"))
}

fn location(uri: &str, range: Value) -> Value {
    object([("uri", uri.into()), ("range", range)])
}

fn edit(range: Value, text: &str) -> Value {
    object([("range", range), ("newText", text.into())])
}

/// The documents that a client has open, by their addresses.
#[derive(Default)]
pub struct Server {
    texts: HashMap<String, Text>,
    /// The codes of diagnostics that are not told.
    off: HashSet<String>,
}

/// A label in a document, and the range of its name.
struct Found {
    label: Vec<u8>,
    name: Value,
}

impl Server {
    fn text(&self, params: &Value) -> Result<(&str, &Text), (f64, String)> {
        let uri = params.get("textDocument").get("uri").text();
        let found = uri.and_then(|it| self.texts.get_key_value(it));
        let (uri, text) = found.ok_or_else(|| failed("the document is not open"))?;
        Ok((uri, text))
    }

    fn symbols(&self, params: &Value) -> Answer {
        let (_, text) = self.text(params)?;
        let headings = headings(text);
        Ok(nested(&headings, &place(text.lines(), 0)).into())
    }

    fn folds(&self, params: &Value) -> Answer {
        let (_, text) = self.text(params)?;
        let fold = |from: usize, to: usize, kind: &str| {
            object([
                ("startLine", from.into()),
                ("endLine", to.into()),
                ("kind", kind.into()),
            ])
        };
        let mut found = Vec::new();
        let headings = headings(text);
        for (at, (heading, first)) in headings.iter().enumerate() {
            let from = heading.span.to.line + first;
            let is_next = |it: &&(&Heading, usize)| it.0.level <= heading.level;
            let next = headings[at + 1..].iter().find(is_next);
            let to = next.map_or(text.lines(), |(it, first)| it.span.from.line + first);
            if to > from + 1 {
                found.push(fold(from, to - 1, "region"));
            }
        }
        for (section, _, first) in text.placed() {
            for (from, to, is_comment) in &section.facts.folds {
                let kind = if *is_comment { "comment" } else { "region" };
                found.push(fold(from + first, to + first, kind));
            }
        }
        Ok(found.into())
    }

    /// The innermost label at a place, of a definition, a link or an image; right behind one, that one, if none begins there.
    fn label_at(&self, params: &Value) -> Result<Option<Found>, (f64, String)> {
        let (_, text) = self.text(params)?;
        let (line, unit) = place_of(params.get("position"));
        let byte = text.byte(line, unit);
        let (section, start, first) = match text.section_at(byte) {
            Some(section) => section,
            None => return Ok(None),
        };
        let byte = byte - start;
        let (definitions, references) = (&section.facts.definitions, &section.facts.references);
        let defined = definitions.iter().map(|it| (&it.span, &it.label, &it.name));
        let asked = references.iter().map(|it| (&it.span, &it.label, &it.name));
        let is_here = |span: &Span| span.bytes.start <= byte && byte <= span.bytes.end;
        let here = defined.chain(asked).filter(|it| is_here(it.0));
        let innermost = here.min_by_key(|it| (it.0.bytes.end == byte, it.0.bytes.len()));
        Ok(innermost.map(|(_, label, name)| Found {
            label: label.clone(),
            name: range(name, first),
        }))
    }

    fn definition(&self, params: &Value) -> Answer {
        let (uri, text) = self.text(params)?;
        let label = match self.label_at(params)? {
            Some(found) => found.label,
            None => return Ok(Value::Null),
        };
        let first = definitions(text, &label).next();
        Ok(first.map_or(Value::Null, |(it, first)| {
            location(uri, range(&it.name, first))
        }))
    }

    fn references(&self, params: &Value) -> Answer {
        let (uri, text) = self.text(params)?;
        let label = match self.label_at(params)? {
            Some(found) => found.label,
            None => return Ok(Value::Null),
        };
        let asked = references(text, &label).map(|(it, first)| range(&it.span, first));
        let mut found: Vec<Value> = asked.collect();
        if params.get("context").get("includeDeclaration") == &Value::Bool(true) {
            found.extend(definitions(text, &label).map(|(it, first)| range(&it.name, first)));
        }
        let found: Vec<Value> = found.into_iter().map(|it| location(uri, it)).collect();
        Ok(found.into())
    }

    fn prepare_rename(&self, params: &Value) -> Answer {
        Ok(self.label_at(params)?.map_or(Value::Null, |it| it.name))
    }

    /// Edits that give a label a new name. What is shown stays: `[a]` and `[a][]` become `[a][new]`.
    fn rename(&self, params: &Value) -> Answer {
        let (uri, text) = self.text(params)?;
        let new = params.get("newName").text().unwrap_or_default();
        if !is_label(new) || new.contains(['\n', '\r']) {
            return Err(failed(format!("no label: {new}")));
        }
        let found = self
            .label_at(params)?
            .ok_or_else(|| failed("no label is here"))?;
        let other = normalized_label(new).map_err(failed)?;
        if other != found.label && definitions(text, &other).next().is_some() {
            return Err(failed(format!("defined already: {new}")));
        }
        let mut edits = Vec::new();
        for (it, first) in definitions(text, &found.label) {
            edits.push(edit(range(&it.name, first), new));
        }
        for (it, first) in references(text, &found.label) {
            let (line, unit) = (it.span.to.line + first, it.span.to.unit);
            edits.push(match it.form {
                Form::Full => edit(range(&it.name, first), new),
                Form::Collapsed => edit(empty_range(place(line, unit - 1)), new),
                Form::Shortcut => edit(empty_range(place(line, unit)), &format!("[{new}]")),
            });
        }
        let changes = Value::Object(vec![(uri.to_string(), edits.into())]);
        Ok(object([("changes", changes)]))
    }

    fn links(&self, params: &Value) -> Answer {
        let (uri, text) = self.text(params)?;
        let mut found = Vec::new();
        for (section, _, first) in text.placed() {
            for (to, span) in section.facts.links.iter().filter(|it| !it.0.is_empty()) {
                let target = target(uri, to);
                found.push(object([
                    ("range", range(span, first)),
                    ("target", target.into()),
                ]));
            }
        }
        Ok(found.into())
    }

    fn tokens(&self, params: &Value) -> Answer {
        let (_, text) = self.text(params)?;
        let (mut data, mut before) = (Vec::<Value>::new(), (0, 0));
        for (section, _, first) in text.placed() {
            for token in &section.facts.tokens {
                let at = (token.at.line + first, token.at.unit);
                let unit = if at.0 == before.0 {
                    at.1 - before.1
                } else {
                    at.1
                };
                let five = [at.0 - before.0, unit, token.units, token.kind, 0];
                data.extend(five.map(Value::from));
                before = at;
            }
        }
        Ok(object([("data", data.into())]))
    }

    /// For tests: the text, its diagnostics, and what differs from reading it anew.
    fn check(&self, params: &Value) -> Answer {
        let (uri, text) = self.text(params)?;
        let difference = text.difference().map_err(failed)?;
        Ok(object([
            ("text", lossy(text.bytes()).into()),
            ("diagnostics", self.diagnostics(uri).into()),
            ("difference", difference.map_or(Value::Null, Value::from)),
        ]))
    }

    fn diagnostics(&self, uri: &str) -> Vec<Value> {
        match self.texts.get(uri) {
            Some(text) => Diagnostics::of(text, &self.off),
            None => Vec::new(),
        }
    }

    fn answer(&mut self, method: &str, params: &Value) -> Answer {
        match method {
            "initialize" => {
                let off = params.get("initializationOptions").get("off").list();
                let off = off.iter().filter_map(|it| it.text());
                self.off = off.map(String::from).collect();
                Ok(capabilities())
            }
            "shutdown" => Ok(Value::Null),
            "textDocument/documentSymbol" => self.symbols(params),
            "textDocument/foldingRange" => self.folds(params),
            "textDocument/definition" => self.definition(params),
            "textDocument/references" => self.references(params),
            "textDocument/prepareRename" => self.prepare_rename(params),
            "textDocument/rename" => self.rename(params),
            "textDocument/documentLink" => self.links(params),
            "textDocument/semanticTokens/full" => self.tokens(params),
            "limecove/check" => self.check(params),
            _ => Err((NO_SUCH_METHOD, format!("no such method: {method}"))),
        }
    }

    /// Takes the changes of a notification, one after another. A document whose change failed is closed.
    fn change(&mut self, uri: &str, params: &Value) -> Result<(), String> {
        let text = self.texts.get_mut(uri).ok_or("the document is not open")?;
        for change in params.get("contentChanges").list() {
            let bytes = match change.get("range") {
                Value::Null => 0..text.bytes().len(),
                range => {
                    let from = place_of(range.get("start"));
                    let to = place_of(range.get("end"));
                    text.byte(from.0, from.1)..text.byte(to.0, to.1)
                }
            };
            let with = change.get("text").text().unwrap_or_default();
            if let Err(error) = text.replace(bytes, with) {
                self.texts.remove(uri);
                return Err(error.to_string());
            }
        }
        Ok(())
    }

    /// What a notification changes. Returns the document whose diagnostics are told then.
    fn note(&mut self, method: &str, params: &Value) -> Result<Option<String>, String> {
        let document = params.get("textDocument");
        let uri = document.get("uri").text().unwrap_or_default().to_string();
        match method {
            "textDocument/didOpen" => {
                let text = document.get("text").text().unwrap_or_default();
                let text = Text::new(text).map_err(|it| it.to_string())?;
                self.texts.insert(uri.clone(), text);
            }
            "textDocument/didChange" => self.change(&uri, params)?,
            "textDocument/didClose" => drop(self.texts.remove(&uri)),
            _ => return Ok(None),
        }
        Ok(Some(uri))
    }

    /// Takes a message. Returns what is to be sent, if something is.
    fn take(&mut self, message: &Value) -> Option<Value> {
        let (method, params) = (message.get("method").text()?, message.get("params"));
        if message.has("id") {
            let id = message.get("id").clone();
            return Some(match self.answer(method, params) {
                Ok(result) => answer(id, "result", result),
                Err((code, reason)) => answer(id, "error", error(code, reason)),
            });
        }
        match self.note(method, params) {
            Ok(None) => None,
            Ok(Some(uri)) => {
                let diagnostics = self.diagnostics(&uri).into();
                let params = object([("uri", uri.into()), ("diagnostics", diagnostics)]);
                Some(notification("textDocument/publishDiagnostics", params))
            }
            Err(reason) => {
                let params = object([("type", 1.into()), ("message", reason.into())]);
                Some(notification("window/logMessage", params))
            }
        }
    }
}

fn capabilities() -> Value {
    let sync = object([("openClose", true.into()), ("change", 2.into())]);
    let kinds: Vec<Value> = TOKENS.map(Value::from).into();
    let none: Vec<Value> = Vec::new();
    let legend = object([
        ("tokenTypes", kinds.into()),
        ("tokenModifiers", none.into()),
    ]);
    let capabilities = object([
        ("positionEncoding", "utf-16".into()),
        ("textDocumentSync", sync),
        ("documentSymbolProvider", true.into()),
        ("foldingRangeProvider", true.into()),
        ("definitionProvider", true.into()),
        ("referencesProvider", true.into()),
        ("renameProvider", object([("prepareProvider", true.into())])),
        (
            "documentLinkProvider",
            object([("resolveProvider", false.into())]),
        ),
        (
            "semanticTokensProvider",
            object([("legend", legend), ("full", true.into())]),
        ),
    ]);
    let name = object([("name", "limecove-lsp".into())]);
    object([("serverInfo", name), ("capabilities", capabilities)])
}

/// All headings, each with the first line of its section.
fn headings(text: &Text) -> Vec<(&Heading, usize)> {
    let of = text
        .placed()
        .flat_map(|(section, _, first)| section.facts.headings.iter().map(move |it| (it, first)));
    of.collect()
}

/// An outline: each heading is over those behind it with a deeper level.
fn nested(headings: &[(&Heading, usize)], last: &Value) -> Vec<Value> {
    let (mut found, mut at) = (Vec::new(), 0);
    while let Some((heading, first)) = headings.get(at) {
        let inner = headings[at + 1..].iter();
        let behind = at + 1 + inner.take_while(|it| it.0.level > heading.level).count();
        let from = place(heading.span.from.line + first, heading.span.from.unit);
        let end = headings.get(behind).map_or_else(
            || last.clone(),
            |(it, first)| place(it.span.from.line + first, it.span.from.unit),
        );
        let title = heading.title.trim();
        found.push(object([
            ("name", if title.is_empty() { "-" } else { title }.into()),
            ("detail", format!("h{}", heading.level).into()),
            ("kind", 15.into()),
            ("range", object([("start", from), ("end", end.clone())])),
            ("selectionRange", range(&heading.name, *first)),
            ("children", nested(&headings[at + 1..behind], &end).into()),
        ]));
        at = behind;
    }
    found
}

fn definitions<'a>(
    text: &'a Text,
    label: &'a [u8],
) -> impl Iterator<Item = (&'a Definition, usize)> {
    text.placed().flat_map(move |(section, _, first)| {
        let found = section.facts.definitions.iter();
        found
            .filter(move |it| it.label == label)
            .map(move |it| (it, first))
    })
}

fn references<'a>(text: &'a Text, label: &'a [u8]) -> impl Iterator<Item = (&'a Reference, usize)> {
    text.placed().flat_map(move |(section, _, first)| {
        let found = section.facts.references.iter();
        found
            .filter(move |it| it.label == label)
            .map(move |it| (it, first))
    })
}

/// Where a link of a document goes. Bytes that no address has are written by `%`.
fn target(uri: &str, to: &[u8]) -> String {
    let mut path = String::new();
    for byte in to {
        match byte {
            0..=b' ' | 127.. | b'"' | b'<' | b'>' | b'\\' | b'^' | b'`' | b'{' | b'|' | b'}' => {
                path.push_str(&format!("%{byte:02X}"))
            }
            byte => path.push(char::from(*byte)),
        }
    }
    let (scheme, behind) = uri.split_once("://").unwrap_or(("file", ""));
    let root = uri.len() - behind.len() + behind.find('/').unwrap_or(behind.len());
    let is_whole = |it: (&str, &str)| !it.0.contains(['/', '#', '?']);
    if path.split_once(':').map_or(false, is_whole) {
        path
    } else if path.starts_with("//") {
        format!("{scheme}:{path}")
    } else if path.starts_with('/') {
        format!("{}{path}", &uri[..root])
    } else if path.starts_with('#') {
        format!("{uri}{path}")
    } else {
        format!("{}{path}", &uri[..uri.rfind('/').map_or(0, |at| at + 1)])
    }
}

/// What is wrong with a document: what the rules find, links without a text, references that nothing defines, and labels. What is off is not told.
struct Diagnostics<'a> {
    text: &'a Text,
    off: &'a HashSet<String>,
    found: Vec<Value>,
}

impl Diagnostics<'_> {
    fn of(text: &Text, off: &HashSet<String>) -> Vec<Value> {
        let found = Vec::new();
        let mut all = Diagnostics { text, off, found };
        rules::tell(text.lined(), |(code, what), span, first, _| {
            all.say(span, first, 3, code, || what.into());
        });
        all.links();
        all.labels();
        all.found
    }

    fn say(
        &mut self,
        span: &Span,
        first: usize,
        severity: usize,
        code: &str,
        message: impl FnOnce() -> String,
    ) {
        if self.off.contains(code) {
            return;
        }
        self.found.push(object([
            ("range", range(span, first)),
            ("severity", severity.into()),
            ("source", "limecove".into()),
            ("code", code.into()),
            ("message", message().into()),
        ]));
    }

    fn links(&mut self) {
        for (section, _, first) in self.text.placed() {
            for span in &section.facts.empty {
                let message = || "a link without a text".into();
                self.say(span, first, 2, "empty-link", message);
            }
            for span in &section.facts.undefined {
                let message = || "a reference that nothing defines".into();
                self.say(span, first, 2, "undefined-reference", message);
            }
        }
    }

    /// Labels that are defined twice, and those that nothing refers to.
    fn labels(&mut self) {
        let mut is_used = HashMap::<&[u8], bool>::new();
        for (section, _, first) in self.text.placed() {
            for it in &section.facts.definitions {
                if is_used.insert(&it.label, false).is_some() {
                    let message = || format!("[{}] is defined before", lossy(&it.label));
                    self.say(&it.span, first, 2, "duplicate-definition", message);
                }
            }
        }
        if is_used.is_empty() {
            return;
        }
        for it in self.text.placed().flat_map(|it| &it.0.facts.references) {
            is_used.insert(&it.label, true);
        }
        for (section, _, first) in self.text.placed() {
            let definitions = section.facts.definitions.iter();
            for it in definitions.filter(|it| !is_used[&*it.label]) {
                let message = || format!("nothing refers to [{}]", lossy(&it.label));
                self.say(&it.span, first, 4, "unused-definition", message);
            }
        }
    }
}

fn answer(id: Value, kind: &str, value: Value) -> Value {
    object([("jsonrpc", "2.0".into()), ("id", id), (kind, value)])
}

fn error(code: f64, reason: String) -> Value {
    object([("code", Value::Number(code)), ("message", reason.into())])
}

fn notification(method: &str, params: Value) -> Value {
    object([
        ("jsonrpc", "2.0".into()),
        ("method", method.into()),
        ("params", params),
    ])
}

/// Reads the bytes of a message. `None` at the end of input.
///
/// # Errors
///
/// If reading fails, input ends in a message, or a header says no length.
pub fn read(input: &mut impl BufRead) -> io::Result<Option<Vec<u8>>> {
    let mut length = None;
    loop {
        let mut line = String::new();
        if input.read_line(&mut line)? == 0 {
            return Ok(None);
        }
        match line.trim_end().split_once(':') {
            Some((name, value)) if name.eq_ignore_ascii_case("content-length") => {
                length = value.trim().parse().ok()
            }
            Some(_) => {}
            None => break,
        }
    }
    let length: usize = length.ok_or(io::ErrorKind::InvalidData)?;
    let mut bytes = Vec::new();
    let got = bytes.try_reserve_exact(length);
    got.map_err(|_| io::ErrorKind::OutOfMemory)?;
    bytes.resize(length, 0);
    input.read_exact(&mut bytes)?;
    Ok(Some(bytes))
}

/// Writes a message.
///
/// # Errors
///
/// If writing fails.
pub fn write(output: &mut impl Write, message: &Value) -> io::Result<()> {
    let text = message.to_string();
    write!(output, "Content-Length: {}\r\n\r\n{text}", text.len())?;
    output.flush()
}

/// Answers messages until input ends or `exit` comes. Returns whether `shutdown` came before, as it should.
///
/// # Errors
///
/// If reading or writing fails, or what is read is no message.
pub fn serve(mut input: impl BufRead, mut output: impl Write) -> io::Result<bool> {
    let (mut server, mut is_shut_down) = (Server::default(), false);
    while let Some(bytes) = read(&mut input)? {
        let text = String::from_utf8(bytes).ok();
        let message = match text.and_then(|it| parse(&it)) {
            Some(message) => message,
            None => {
                let error = error(NOT_JSON, "a message is no JSON".into());
                write(&mut output, &answer(Value::Null, "error", error))?;
                continue;
            }
        };
        match message.get("method").text() {
            Some("exit") => return Ok(is_shut_down),
            Some("shutdown") => is_shut_down = true,
            _ => {}
        }
        if let Some(told) = server.take(&message) {
            write(&mut output, &told)?;
        }
    }
    Ok(is_shut_down)
}
