//! Documents as HTML, by CommonMark and by `docs/HTML.md`.

use limecove::{
    to_html, to_html_bytes, to_html_with_options, HtmlOptions, Options, TabSize, TextOptions,
};

/// With everything let through.
fn all() -> HtmlOptions {
    HtmlOptions::default()
        .allow_dangerous_html(true)
        .allow_dangerous_protocol(true)
}

#[test]
fn documents_are_html() {
    for (document, want) in [
        ("", ""),
        ("# a *b*\n\nc\nd\n---\n", "<h1>a <em>b</em></h1>\n<h2>c\nd</h2>\n"),
        ("a  \nb\\\nc", "<p>a<br />\nb<br />\nc</p>\n"),
        (
            "~~~ r&amp; x\na<\n~~~\n***",
            "<pre><code class=\"language-r&amp;\">a&lt;\n</code></pre>\n<hr />\n",
        ),
        (
            "> a\n> > b\nc",
            "<blockquote>\n<p>a</p>\n<blockquote>\n<p>b\nc</p>\n</blockquote>\n</blockquote>\n",
        ),
        (
            "- a\n- b\n\n\n3) c",
            "<ul>\n<li>a</li>\n<li>b</li>\n</ul>\n<ol start=\"3\">\n<li>c</li>\n</ol>\n",
        ),
        (
            "[a][b] ![*b*\nc][b]\n\n[b]: /d 'e&amp;'",
            "<p><a href=\"/d\" title=\"e&amp;\">a</a> <img src=\"/d\" alt=\"b c\" title=\"e&amp;\" /></p>\n",
        ),
        (
            "<http://a.b?\u{e9}&> <c@d.e>",
            "<p><a href=\"http://a.b?%C3%A9&amp;\">http://a.b?\u{e9}&amp;</a> <a href=\"mailto:c@d.e\">c@d.e</a></p>\n",
        ),
    ] {
        assert_eq!(to_html(document).as_deref(), Ok(want), "{:?}", document);
        let let_through = to_html_with_options(document, &all());
        assert_eq!(let_through.as_deref(), Ok(want), "{:?}", document);
    }
}

/// Each option lets its own things through, and no others.
#[test]
fn options_let_through() {
    let document = "<b> [c](d:e) ![f](d:g)";
    let none = HtmlOptions::default();
    let (link, image) = ("<a href=\"d:e\">c</a>", "<img src=\"d:g\" alt=\"f\" />");
    let (no_link, no_image) = ("<a href=\"\">c</a>", "<img src=\"\" alt=\"f\" />");
    for (options, want) in [
        (none, ["&lt;b&gt;", no_link, no_image]),
        (none.allow_dangerous_html(true), ["<b>", no_link, no_image]),
        (
            none.allow_dangerous_protocol(true),
            ["&lt;b&gt;", link, image],
        ),
        (none.allow_any_img_src(true), ["&lt;b&gt;", no_link, image]),
        (all(), ["<b>", link, image]),
        (
            all().allow_dangerous_html(false),
            ["&lt;b&gt;", link, image],
        ),
        (
            all().allow_dangerous_protocol(false),
            ["<b>", no_link, no_image],
        ),
    ] {
        let html = to_html_with_options(document, &options);
        let want = format!("<p>{}</p>\n", want.join(" "));
        assert_eq!(html.as_deref(), Ok(want.as_str()), "{:?}", options);
    }
}

#[test]
fn documents_are_read_as_the_options_say() {
    let parse = Options::default().heading_atx(false);
    let html = to_html_with_options("# a", &HtmlOptions::default().parse(parse));
    assert_eq!(html.as_deref(), Ok("<p># a</p>\n"));
    let text = TextOptions::default().attention(false);
    let parse = Options::default().text(text);
    let html = to_html_with_options("*a*", &HtmlOptions::default().parse(parse));
    assert_eq!(html.as_deref(), Ok("<p>*a*</p>\n"));
    let text = TextOptions::default().tab_size(TabSize::new(2).expect("1 to 16"));
    let parse = Options::default().text(text);
    let html = to_html_with_options("\ta", &HtmlOptions::default().parse(parse));
    assert_eq!(html.as_deref(), Ok("<p>a</p>\n"));
}

/// Extensions of GFM are on only if they are asked for.
#[test]
fn extensions_can_be_on() {
    let none = HtmlOptions::default();
    let (literal, check) = (
        "<a href=\"mailto:a@b.c\">a@b.c</a>",
        "<input type=\"checkbox\" checked=\"\" disabled=\"\" />",
    );
    for (options, want) in [
        (none, ["[x]", "a@b.c"]),
        (none.gfm_autolink_literal(true), ["[x]", literal]),
        (none.gfm_task_list_item(true), [check, "a@b.c"]),
        (
            none.gfm_task_list_item(true).gfm_autolink_literal(true),
            [check, literal],
        ),
        (
            none.gfm_autolink_literal(true).gfm_autolink_literal(false),
            ["[x]", "a@b.c"],
        ),
        (none.gfm_table(true), ["[x]", "a@b.c"]),
    ] {
        let html = to_html_with_options("- [x] a@b.c", &options);
        let want = format!("<ul>\n<li>{}</li>\n</ul>\n", want.join(" "));
        assert_eq!(html.as_deref(), Ok(want.as_str()), "{:?}", options);
    }
}

/// HTML that is longer than the room that is taken at first.
#[test]
fn long_html_is_all_there() {
    let html = to_html(&"\"".repeat(1000)).expect("there is memory");
    assert_eq!(html, format!("<p>{}</p>\n", "&quot;".repeat(1000)));
}

#[test]
fn bytes_that_are_no_utf_8_stay() {
    let html = to_html_bytes(b"a\xff[b](\xff)", &HtmlOptions::default()).expect("there is memory");
    assert_eq!(html, b"<p>a\xff<a href=\"%FF\">b</a></p>\n");
}
