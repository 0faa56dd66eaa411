//! A document as HTML.

use crate::reading::assert_version;
use crate::{Error, Options};
use std::mem::size_of;

/// How a document is made HTML. The default: all of CommonMark, and nothing is let through that is not safe.
///
/// ```
/// use limecove::{to_html_with_options, HtmlOptions};
///
/// let options = HtmlOptions::default();
/// assert_eq!(to_html_with_options("<b>", &options)?, "&lt;b&gt;\n");
/// let options = options.allow_dangerous_html(true);
/// assert_eq!(to_html_with_options("<b>", &options)?, "<b>\n");
/// # Ok::<(), limecove::Error>(())
/// ```
#[derive(Clone, Copy, Debug, Default, PartialEq, Eq, Hash)]
pub struct HtmlOptions {
    parse: Options,
    allow: u64,
}

impl HtmlOptions {
    /// The same, with the constructs and the tab size of these options. Literals and task list items that were on stay on. The rest of them is not
    /// looked at.
    #[must_use]
    pub const fn parse(mut self, parse: Options) -> HtmlOptions {
        let extensions = self.parse.extensions | parse.extensions;
        self.parse = parse;
        self.parse.extensions = extensions;
        self
    }

    /// The same, with or without autolink literals of GFM: `www.a.b`, `https://a.b` and `a@b.c` in a text are links. The default is without.
    ///
    /// ```
    /// use limecove::{to_html_with_options, HtmlOptions};
    ///
    /// let options = HtmlOptions::default().gfm_autolink_literal(true);
    /// let html = to_html_with_options("www.a.b", &options)?;
    /// assert_eq!(html, "<p><a href=\"http://www.a.b\">www.a.b</a></p>\n");
    /// # Ok::<(), limecove::Error>(())
    /// ```
    #[must_use]
    pub const fn gfm_autolink_literal(mut self, is_on: bool) -> HtmlOptions {
        self.parse = self.parse.gfm_autolink_literal(is_on);
        self
    }

    /// The same, with or without task list items of GFM: `[ ]` and `[x]` in front of an item are checkboxes. The default is without.
    ///
    /// ```
    /// use limecove::{to_html_with_options, HtmlOptions};
    ///
    /// let options = HtmlOptions::default().gfm_task_list_item(true);
    /// let html = to_html_with_options("- [ ] a", &options)?;
    /// assert_eq!(html, "<ul>\n<li><input type=\"checkbox\" disabled=\"\" /> a</li>\n</ul>\n");
    /// # Ok::<(), limecove::Error>(())
    /// ```
    #[must_use]
    pub const fn gfm_task_list_item(mut self, is_on: bool) -> HtmlOptions {
        self.parse = self.parse.gfm_task_list_item(is_on);
        self
    }

    /// The same, with or without tables of GFM. The default is without.
    ///
    /// ```
    /// use limecove::{to_html_with_options, HtmlOptions};
    ///
    /// let html = to_html_with_options("a | b\n-- | --", &HtmlOptions::default().gfm_table(true))?;
    /// assert_eq!(html, "<table>\n<thead>\n<tr>\n<th>a</th>\n<th>b</th>\n</tr>\n</thead>\n</table>\n");
    /// # Ok::<(), limecove::Error>(())
    /// ```
    #[must_use]
    pub const fn gfm_table(mut self, is_on: bool) -> HtmlOptions {
        self.parse = self.parse.gfm_table(is_on);
        self
    }

    /// The same, with or without definitions of footnotes, as GitHub reads them. The default is without. A footnote that is called stands at the end, in a
    /// section of its own; one that is not called is not written.
    ///
    /// ```
    /// use limecove::{to_html_with_options, HtmlOptions};
    ///
    /// let options = HtmlOptions::default().gfm_footnote_definition(true).gfm_label_start_footnote(true);
    /// let html = to_html_with_options("a[^b]\n\n[^b]: c", &options)?;
    /// assert!(html.starts_with("<p>a<sup class=\"footnote-ref\"><a href=\"#user-content-fn-1\""));
    /// # Ok::<(), limecove::Error>(())
    /// ```
    #[must_use]
    pub const fn gfm_footnote_definition(mut self, is_on: bool) -> HtmlOptions {
        self.parse = self.parse.gfm_footnote_definition(is_on);
        self
    }

    /// The same, with or without calls of footnotes. The default is without.
    #[must_use]
    pub const fn gfm_label_start_footnote(mut self, is_on: bool) -> HtmlOptions {
        self.parse = self.parse.gfm_label_start_footnote(is_on);
        self
    }

    /// The same, with HTML in the document kept as HTML, or shown as text.
    #[must_use]
    pub const fn allow_dangerous_html(self, is_on: bool) -> HtmlOptions {
        self.with(limecove_sys::ALLOW_DANGEROUS_HTML, is_on)
    }

    /// The same, with or without addresses of any protocol, of links and images. Without them, such an address is left empty.
    #[must_use]
    pub const fn allow_dangerous_protocol(self, is_on: bool) -> HtmlOptions {
        self.with(limecove_sys::ALLOW_DANGEROUS_PROTOCOL, is_on)
    }

    /// The same, with or without addresses of any protocol, of images alone.
    #[must_use]
    pub const fn allow_any_img_src(self, is_on: bool) -> HtmlOptions {
        self.with(limecove_sys::ALLOW_ANY_IMG_SRC, is_on)
    }

    /// The same, with or without GFM's filter of tags, as cmark-gfm has it: in HTML that is kept, `<` of a tag such as `<script>` is `&lt;`. The
    /// default is without. It is no protection.
    ///
    /// ```
    /// use limecove::{to_html_with_options, HtmlOptions};
    ///
    /// let options = HtmlOptions::default().allow_dangerous_html(true).gfm_tagfilter(true);
    /// assert_eq!(to_html_with_options("<b><xmp></b>", &options)?, "<p><b>&lt;xmp></b></p>\n");
    /// # Ok::<(), limecove::Error>(())
    /// ```
    #[must_use]
    pub const fn gfm_tagfilter(self, is_on: bool) -> HtmlOptions {
        self.with(limecove_sys::GFM_TAGFILTER, is_on)
    }

    /// The same, where one tilde strikes through, or two alone do. The default is that one does.
    #[must_use]
    pub const fn gfm_strikethrough_single_tilde(mut self, is_on: bool) -> HtmlOptions {
        self.parse = self.parse.gfm_strikethrough_single_tilde(is_on);
        self
    }

    /// The same, with something let through or not.
    const fn with(mut self, bit: u64, is_on: bool) -> HtmlOptions {
        self.allow = if is_on {
            self.allow | bit
        } else {
            self.allow & !bit
        };
        self
    }
}

/// A document as HTML, as CommonMark says. It is safe, whatever the document is: it holds no script, no tag that stays open, and no
/// address with a scheme that is not known. That is proved; `docs/HTML.md` says what it means, and what the caller must still decide.
///
/// # Errors
///
/// If memory runs out, or the document is too long.
///
/// # Panics
///
/// If the library that is linked has another version. Nothing has been read or written then.
///
/// ```
/// let html = limecove::to_html("[a](javascript:b) *c*")?;
/// assert_eq!(html, "<p><a href=\"\">a</a> <em>c</em></p>\n");
/// # Ok::<(), limecove::Error>(())
/// ```
pub fn to_html(document: &str) -> Result<String, Error> {
    to_html_with_options(document, &HtmlOptions::default())
}

/// A document as HTML, with these options. It is safe, whatever the document is, if they let nothing through.
///
/// # Errors
///
/// As those of [`to_html`].
///
/// # Panics
///
/// As [`to_html`].
pub fn to_html_with_options(document: &str, options: &HtmlOptions) -> Result<String, Error> {
    let html = String::from_utf8(to_html_bytes(document, options)?);
    // it always is, as tested
    Ok(html.unwrap_or_else(|it| String::from_utf8_lossy(it.as_bytes()).into_owned()))
}

/// The same for a document that may be no UTF-8. Its bytes that are none are in the HTML as they are, but in addresses.
///
/// # Errors
///
/// As those of [`to_html`].
///
/// # Panics
///
/// As [`to_html`].
pub fn to_html_bytes(document: impl AsRef<[u8]>, options: &HtmlOptions) -> Result<Vec<u8>, Error> {
    assert_version();
    let document = document.as_ref();
    let text = options.parse.text;
    let options = limecove_sys::HtmlOptions {
        size: size_of::<limecove_sys::HtmlOptions>(),
        tab_size: text.tab_size.get(),
        constructs: text.constructs | options.parse.blocks | options.parse.extensions,
        allow: options.allow,
    };
    let mut html = Vec::new();
    // room for the HTML of most documents, so that they are read once
    let mut room = document.len().saturating_mul(2).saturating_add(64);
    loop {
        let got = html.try_reserve_exact(room);
        got.map_err(|_| Error::OutOfMemory)?;
        room = html.capacity();
        // SAFETY: the version was asked. Pointers and lengths are those of references that live for the call, and of room for that many.
        let answer = unsafe {
            limecove_sys::limecove_html(
                document.as_ptr(),
                document.len(),
                &options,
                html.as_mut_ptr(),
                room,
            )
        };
        made(answer.code)?;
        if answer.count <= room {
            // SAFETY: that many were written.
            unsafe { html.set_len(answer.count) };
            return Ok(html);
        }
        room = answer.count;
    }
}

/// Whether a call succeeded, by its code.
fn made(code: u32) -> Result<(), Error> {
    match code {
        limecove_sys::READ => Ok(()),
        limecove_sys::OUT_OF_MEMORY => Err(Error::OutOfMemory),
        limecove_sys::TOO_LONG => Err(Error::TooLong),
        code => unreachable!("the options choose something, and the code is {}", code),
    }
}
