//! A language server for Markdown, on [`limecove::Document`]: outline, folding, labels, links, diagnostics and semantic tokens.
//!
//! What a section has is kept by places in it ([`facts`]), so an edit reads again only the sections that the library names ([`text`]).
//! [`rules`] are those of a linter. [`server`] answers messages, [`json`] reads and writes them.

pub mod facts;
pub mod json;
pub mod rules;
pub mod server;
pub mod text;
