//! Names of spans and machines, with their numbers. Written by `bindings/names.py`.

use std::fmt;
use std::str::FromStr;

/// A machine: what reads a document. More may be added.
#[derive(Clone, Copy, Debug, Default, PartialEq, Eq, Hash)]
#[non_exhaustive]
#[repr(u32)]
pub enum Machine {
    /// For tests of the library alone.
    ///
    /// `lines`: each line is a paragraph of data.
    #[doc(hidden)]
    Lines = 0,
    /// `paragraphs`: adjacent lines are a paragraph. Each line is a chunk of text, linked to the chunk before.
    Paragraphs = 1,
    /// For tests of the library alone.
    ///
    /// `peek`: looks at the whole text first, and then reads each line as data.
    #[doc(hidden)]
    Peek = 2,
    /// For tests of the library alone.
    ///
    /// `deep`: tries something at each byte, which fails, and then reads each line as data.
    #[doc(hidden)]
    Deep = 3,
    /// For tests of the library alone.
    ///
    /// `back`: reads the first line as data, looks over the next line, goes back, and reads the rest as one more data.
    #[doc(hidden)]
    Back = 4,
    /// For tests of the library alone.
    ///
    /// `save`: passes the first line, tries something after it, which fails, and reads each line of the rest as data.
    #[doc(hidden)]
    Save = 5,
    /// `text`: as `paragraphs`, but in the text of its chunks are code spans, autolinks and escapes.
    Text = 6,
    /// `flow`: the leaf blocks of CommonMark. In paragraphs and headings is inline text, with links, images and emphasis; in info
    /// strings of fenced code are escapes and character references.
    Flow = 7,
    /// `document`: block quotes and lists, and the leaf blocks and link reference definitions in them. Inline text is as in `flow`, with
    /// links and images by these definitions too.
    #[default]
    Document = 8,
}

impl Machine {
    /// All that read Markdown, in the order of their numbers.
    pub const ALL: &'static [Machine] = &[
        Machine::Paragraphs,
        Machine::Text,
        Machine::Flow,
        Machine::Document,
    ];

    /// Those for tests of the library alone, which read no Markdown.
    #[doc(hidden)]
    pub const FOR_TESTS: &'static [Machine] = &[
        Machine::Lines,
        Machine::Peek,
        Machine::Deep,
        Machine::Back,
        Machine::Save,
    ];

    /// As it is declared.
    pub const fn as_str(self) -> &'static str {
        match self {
            Machine::Lines => "Lines",
            Machine::Paragraphs => "Paragraphs",
            Machine::Peek => "Peek",
            Machine::Deep => "Deep",
            Machine::Back => "Back",
            Machine::Save => "Save",
            Machine::Text => "Text",
            Machine::Flow => "Flow",
            Machine::Document => "Document",
        }
    }
}

/// What a span is. A *void* name is that of a span that holds no other. More may be added.
#[derive(Clone, Copy, Debug, PartialEq, Eq, PartialOrd, Ord, Hash)]
#[non_exhaustive]
#[repr(u32)]
pub enum Name {
    /// Run of `*`, `_` or `~` that may open or close emphasis, strong emphasis or strikethrough (void).
    AttentionSequence = 0,
    /// Autolink, with its `<` and `>`.
    Autolink = 1,
    /// Email address in an autolink (void).
    AutolinkEmail = 2,
    /// The `<` or `>` of an autolink (void).
    AutolinkMarker = 3,
    /// URL in an autolink, from its scheme on (void).
    AutolinkProtocol = 4,
    /// Line ending of a blank line (void).
    BlankLineEnding = 5,
    /// Block quote, with all its lines.
    BlockQuote = 6,
    /// The `>` of a block quote (void).
    BlockQuoteMarker = 7,
    /// The `>` of a block quote and the space or tab after it.
    BlockQuotePrefix = 8,
    /// Byte order mark at the start of a document (void).
    ByteOrderMark = 9,
    /// Character escape: a backslash and what it escapes.
    CharacterEscape = 10,
    /// The backslash of a character escape (void).
    CharacterEscapeMarker = 11,
    /// The character that is escaped (void).
    CharacterEscapeValue = 12,
    /// Character reference, from `&` to `;`.
    CharacterReference = 13,
    /// The `&` of a character reference (void).
    CharacterReferenceMarker = 14,
    /// The `x` or `X` of a hexadecimal character reference (void).
    CharacterReferenceMarkerHexadecimal = 15,
    /// The `#` of a numeric character reference (void).
    CharacterReferenceMarkerNumeric = 16,
    /// The `;` of a character reference (void).
    CharacterReferenceMarkerSemi = 17,
    /// The name or the digits of a character reference (void).
    CharacterReferenceValue = 18,
    /// Fenced code, with its fences.
    CodeFenced = 19,
    /// A whole fence of fenced code, with its info and meta.
    CodeFencedFence = 20,
    /// First word after the opening fence of fenced code.
    CodeFencedFenceInfo = 21,
    /// What follows the info of an opening fence of fenced code.
    CodeFencedFenceMeta = 22,
    /// The markers of a fence of fenced code (void).
    CodeFencedFenceSequence = 23,
    /// A line of fenced or indented code (void).
    CodeFlowChunk = 24,
    /// Indented code.
    CodeIndented = 25,
    /// Code span, with its markers.
    CodeText = 26,
    /// Text of a code span (void).
    CodeTextData = 27,
    /// The run of backticks that opens or closes a code span (void).
    CodeTextSequence = 28,
    /// Lines that hold definitions, a setext heading or a paragraph.
    Content = 29,
    /// Plain text (void).
    Data = 30,
    /// Link reference definition.
    Definition = 31,
    /// Destination of a definition.
    DefinitionDestination = 32,
    /// Destination of a definition between `<` and `>`.
    DefinitionDestinationLiteral = 33,
    /// The `<` or `>` of a definition's destination (void).
    DefinitionDestinationLiteralMarker = 34,
    /// Destination of a definition with no `<` and `>`.
    DefinitionDestinationRaw = 35,
    /// Text of a definition's destination.
    DefinitionDestinationString = 36,
    /// Label of a definition, with its brackets.
    DefinitionLabel = 37,
    /// The `[` or `]` of a definition's label (void).
    DefinitionLabelMarker = 38,
    /// Text of a definition's label.
    DefinitionLabelString = 39,
    /// The `:` of a definition (void).
    DefinitionMarker = 40,
    /// Title of a definition, with its markers.
    DefinitionTitle = 41,
    /// What opens or closes a definition's title: a quote or a parenthesis (void).
    DefinitionTitleMarker = 42,
    /// Text of a definition's title.
    DefinitionTitleString = 43,
    /// Emphasis, with its markers.
    Emphasis = 44,
    /// The marker that opens or closes emphasis (void).
    EmphasisSequence = 45,
    /// What is emphasized.
    EmphasisText = 46,
    /// Frontmatter, with its fences.
    Frontmatter = 47,
    /// A line of frontmatter (void).
    FrontmatterChunk = 48,
    /// A whole fence of frontmatter.
    FrontmatterFence = 49,
    /// The markers of a fence of frontmatter (void).
    FrontmatterSequence = 50,
    /// Email address that is a link by itself, in GFM (void).
    GfmAutolinkLiteralEmail = 51,
    /// Link by itself that begins with `mailto:`, in GFM.
    GfmAutolinkLiteralMailto = 52,
    /// Link by itself that begins with a protocol, in GFM (void).
    GfmAutolinkLiteralProtocol = 53,
    /// Link by itself that begins with `www.`, in GFM (void).
    GfmAutolinkLiteralWww = 54,
    /// Link by itself that begins with `xmpp:`, in GFM.
    GfmAutolinkLiteralXmpp = 55,
    /// Call of a footnote, in GFM.
    GfmFootnoteCall = 56,
    /// Start of a footnote call's label, `[^`.
    GfmFootnoteCallLabel = 57,
    /// The `^` of a footnote call (void).
    GfmFootnoteCallMarker = 58,
    /// Footnote definition, with all its lines, in GFM.
    GfmFootnoteDefinition = 59,
    /// What comes before the content of a footnote definition: its label, `:` and whitespace.
    GfmFootnoteDefinitionPrefix = 60,
    /// Label of a footnote definition, with its brackets.
    GfmFootnoteDefinitionLabel = 61,
    /// The `[` or `]` of a footnote definition's label (void).
    GfmFootnoteDefinitionLabelMarker = 62,
    /// Text of a footnote definition's label.
    GfmFootnoteDefinitionLabelString = 63,
    /// The `^` of a footnote definition (void).
    GfmFootnoteDefinitionMarker = 64,
    /// Strikethrough, with its markers, in GFM.
    GfmStrikethrough = 65,
    /// The markers that open or close strikethrough (void).
    GfmStrikethroughSequence = 66,
    /// What is struck through.
    GfmStrikethroughText = 67,
    /// Table, in GFM.
    GfmTable = 68,
    /// The rows of a table below its delimiter row.
    GfmTableBody = 69,
    /// A cell of a table, with the markers and the whitespace around its text.
    GfmTableCell = 70,
    /// Text of a table's cell.
    GfmTableCellText = 71,
    /// The `|` between cells of a table (void).
    GfmTableCellDivider = 72,
    /// The row of a table that gives the alignment of its columns.
    GfmTableDelimiterRow = 73,
    /// The `:` of a delimiter cell (void).
    GfmTableDelimiterMarker = 74,
    /// A cell of the delimiter row, with the markers and the whitespace around it.
    GfmTableDelimiterCell = 75,
    /// The `-` and `:` of a delimiter cell.
    GfmTableDelimiterCellValue = 76,
    /// The run of `-` of a delimiter cell (void).
    GfmTableDelimiterFiller = 77,
    /// The head of a table: its first row and its delimiter row.
    GfmTableHead = 78,
    /// A row of a table.
    GfmTableRow = 79,
    /// The check of a task list item, with its brackets, in GFM.
    GfmTaskListItemCheck = 80,
    /// The `[` or `]` of a check (void).
    GfmTaskListItemMarker = 81,
    /// The `x` or `X` of a check that is set (void).
    GfmTaskListItemValueChecked = 82,
    /// The whitespace of a check that is not set (void).
    GfmTaskListItemValueUnchecked = 83,
    /// The backslash of a hard break (void).
    HardBreakEscape = 84,
    /// The trailing spaces of a hard break (void).
    HardBreakTrailing = 85,
    /// Heading that begins with `#`.
    HeadingAtx = 86,
    /// The run of `#` that opens or closes a heading (void).
    HeadingAtxSequence = 87,
    /// Text of a heading that begins with `#`.
    HeadingAtxText = 88,
    /// Heading that is underlined.
    HeadingSetext = 89,
    /// Text of a heading that is underlined.
    HeadingSetextText = 90,
    /// The line under a heading.
    HeadingSetextUnderline = 91,
    /// The run of `=` or `-` under a heading (void).
    HeadingSetextUnderlineSequence = 92,
    /// Block of HTML.
    HtmlFlow = 93,
    /// A line of a block of HTML (void).
    HtmlFlowData = 94,
    /// HTML within text.
    HtmlText = 95,
    /// A line of HTML within text (void).
    HtmlTextData = 96,
    /// Image, with its label and what it refers to.
    Image = 97,
    /// Label of a link, an image or a footnote, with its brackets.
    Label = 98,
    /// End of a label, `]`.
    LabelEnd = 99,
    /// Start of an image's label, `![`.
    LabelImage = 100,
    /// The `!` of an image's label (void).
    LabelImageMarker = 101,
    /// Start of a link's label, `[`.
    LabelLink = 102,
    /// The `[` or `]` of a label (void).
    LabelMarker = 103,
    /// Text of a label.
    LabelText = 104,
    /// Line ending (void).
    LineEnding = 105,
    /// Link, with its label and what it refers to.
    Link = 106,
    /// List item, with all its lines.
    ListItem = 107,
    /// What marks a list item: `*`, `+`, `-`, or the `.` or `)` after a number (void).
    ListItemMarker = 108,
    /// The marker of a list item, its number and the whitespace after them.
    ListItemPrefix = 109,
    /// The number of a list item (void).
    ListItemValue = 110,
    /// List of numbered items.
    ListOrdered = 111,
    /// List of items with no numbers.
    ListUnordered = 112,
    /// Block of math, with its fences.
    MathFlow = 113,
    /// A whole fence of a block of math, with its meta.
    MathFlowFence = 114,
    /// What follows the opening fence of a block of math.
    MathFlowFenceMeta = 115,
    /// The markers of a fence of a block of math (void).
    MathFlowFenceSequence = 116,
    /// A line of a block of math (void).
    MathFlowChunk = 117,
    /// Math within text, with its markers.
    MathText = 118,
    /// Text of math within text (void).
    MathTextData = 119,
    /// The run of `$` that opens or closes math within text (void).
    MathTextSequence = 120,
    /// Paragraph, with all its lines.
    Paragraph = 121,
    /// Reference to a definition, `[]` with or without a label, after the label of a link or an image.
    Reference = 122,
    /// The `[` or `]` of a reference (void).
    ReferenceMarker = 123,
    /// Label in a reference.
    ReferenceString = 124,
    /// Resource, with its parentheses, after the label of a link or an image.
    Resource = 125,
    /// Destination of a resource.
    ResourceDestination = 126,
    /// Destination of a resource between `<` and `>`.
    ResourceDestinationLiteral = 127,
    /// The `<` or `>` of a resource's destination.
    ResourceDestinationLiteralMarker = 128,
    /// Destination of a resource with no `<` and `>`.
    ResourceDestinationRaw = 129,
    /// Text of a resource's destination.
    ResourceDestinationString = 130,
    /// The `(` or `)` of a resource (void).
    ResourceMarker = 131,
    /// Title of a resource, with its markers.
    ResourceTitle = 132,
    /// What opens or closes a resource's title: a quote or a parenthesis (void).
    ResourceTitleMarker = 133,
    /// Text of a resource's title.
    ResourceTitleString = 134,
    /// Spaces and tabs (void).
    SpaceOrTab = 135,
    /// Strong emphasis, with its markers.
    Strong = 136,
    /// The markers that open or close strong emphasis (void).
    StrongSequence = 137,
    /// What is strongly emphasized.
    StrongText = 138,
    /// Thematic break, with its markers and whitespace.
    ThematicBreak = 139,
    /// A run of markers of a thematic break (void).
    ThematicBreakSequence = 140,
    /// Whitespace at the start of a line.
    LinePrefix = 141,
}

impl Name {
    /// All of them, in the order of their numbers.
    pub const ALL: &'static [Name] = &[
        Name::AttentionSequence,
        Name::Autolink,
        Name::AutolinkEmail,
        Name::AutolinkMarker,
        Name::AutolinkProtocol,
        Name::BlankLineEnding,
        Name::BlockQuote,
        Name::BlockQuoteMarker,
        Name::BlockQuotePrefix,
        Name::ByteOrderMark,
        Name::CharacterEscape,
        Name::CharacterEscapeMarker,
        Name::CharacterEscapeValue,
        Name::CharacterReference,
        Name::CharacterReferenceMarker,
        Name::CharacterReferenceMarkerHexadecimal,
        Name::CharacterReferenceMarkerNumeric,
        Name::CharacterReferenceMarkerSemi,
        Name::CharacterReferenceValue,
        Name::CodeFenced,
        Name::CodeFencedFence,
        Name::CodeFencedFenceInfo,
        Name::CodeFencedFenceMeta,
        Name::CodeFencedFenceSequence,
        Name::CodeFlowChunk,
        Name::CodeIndented,
        Name::CodeText,
        Name::CodeTextData,
        Name::CodeTextSequence,
        Name::Content,
        Name::Data,
        Name::Definition,
        Name::DefinitionDestination,
        Name::DefinitionDestinationLiteral,
        Name::DefinitionDestinationLiteralMarker,
        Name::DefinitionDestinationRaw,
        Name::DefinitionDestinationString,
        Name::DefinitionLabel,
        Name::DefinitionLabelMarker,
        Name::DefinitionLabelString,
        Name::DefinitionMarker,
        Name::DefinitionTitle,
        Name::DefinitionTitleMarker,
        Name::DefinitionTitleString,
        Name::Emphasis,
        Name::EmphasisSequence,
        Name::EmphasisText,
        Name::Frontmatter,
        Name::FrontmatterChunk,
        Name::FrontmatterFence,
        Name::FrontmatterSequence,
        Name::GfmAutolinkLiteralEmail,
        Name::GfmAutolinkLiteralMailto,
        Name::GfmAutolinkLiteralProtocol,
        Name::GfmAutolinkLiteralWww,
        Name::GfmAutolinkLiteralXmpp,
        Name::GfmFootnoteCall,
        Name::GfmFootnoteCallLabel,
        Name::GfmFootnoteCallMarker,
        Name::GfmFootnoteDefinition,
        Name::GfmFootnoteDefinitionPrefix,
        Name::GfmFootnoteDefinitionLabel,
        Name::GfmFootnoteDefinitionLabelMarker,
        Name::GfmFootnoteDefinitionLabelString,
        Name::GfmFootnoteDefinitionMarker,
        Name::GfmStrikethrough,
        Name::GfmStrikethroughSequence,
        Name::GfmStrikethroughText,
        Name::GfmTable,
        Name::GfmTableBody,
        Name::GfmTableCell,
        Name::GfmTableCellText,
        Name::GfmTableCellDivider,
        Name::GfmTableDelimiterRow,
        Name::GfmTableDelimiterMarker,
        Name::GfmTableDelimiterCell,
        Name::GfmTableDelimiterCellValue,
        Name::GfmTableDelimiterFiller,
        Name::GfmTableHead,
        Name::GfmTableRow,
        Name::GfmTaskListItemCheck,
        Name::GfmTaskListItemMarker,
        Name::GfmTaskListItemValueChecked,
        Name::GfmTaskListItemValueUnchecked,
        Name::HardBreakEscape,
        Name::HardBreakTrailing,
        Name::HeadingAtx,
        Name::HeadingAtxSequence,
        Name::HeadingAtxText,
        Name::HeadingSetext,
        Name::HeadingSetextText,
        Name::HeadingSetextUnderline,
        Name::HeadingSetextUnderlineSequence,
        Name::HtmlFlow,
        Name::HtmlFlowData,
        Name::HtmlText,
        Name::HtmlTextData,
        Name::Image,
        Name::Label,
        Name::LabelEnd,
        Name::LabelImage,
        Name::LabelImageMarker,
        Name::LabelLink,
        Name::LabelMarker,
        Name::LabelText,
        Name::LineEnding,
        Name::Link,
        Name::ListItem,
        Name::ListItemMarker,
        Name::ListItemPrefix,
        Name::ListItemValue,
        Name::ListOrdered,
        Name::ListUnordered,
        Name::MathFlow,
        Name::MathFlowFence,
        Name::MathFlowFenceMeta,
        Name::MathFlowFenceSequence,
        Name::MathFlowChunk,
        Name::MathText,
        Name::MathTextData,
        Name::MathTextSequence,
        Name::Paragraph,
        Name::Reference,
        Name::ReferenceMarker,
        Name::ReferenceString,
        Name::Resource,
        Name::ResourceDestination,
        Name::ResourceDestinationLiteral,
        Name::ResourceDestinationLiteralMarker,
        Name::ResourceDestinationRaw,
        Name::ResourceDestinationString,
        Name::ResourceMarker,
        Name::ResourceTitle,
        Name::ResourceTitleMarker,
        Name::ResourceTitleString,
        Name::SpaceOrTab,
        Name::Strong,
        Name::StrongSequence,
        Name::StrongText,
        Name::ThematicBreak,
        Name::ThematicBreakSequence,
        Name::LinePrefix,
    ];

    /// As it is declared.
    pub const fn as_str(self) -> &'static str {
        match self {
            Name::AttentionSequence => "AttentionSequence",
            Name::Autolink => "Autolink",
            Name::AutolinkEmail => "AutolinkEmail",
            Name::AutolinkMarker => "AutolinkMarker",
            Name::AutolinkProtocol => "AutolinkProtocol",
            Name::BlankLineEnding => "BlankLineEnding",
            Name::BlockQuote => "BlockQuote",
            Name::BlockQuoteMarker => "BlockQuoteMarker",
            Name::BlockQuotePrefix => "BlockQuotePrefix",
            Name::ByteOrderMark => "ByteOrderMark",
            Name::CharacterEscape => "CharacterEscape",
            Name::CharacterEscapeMarker => "CharacterEscapeMarker",
            Name::CharacterEscapeValue => "CharacterEscapeValue",
            Name::CharacterReference => "CharacterReference",
            Name::CharacterReferenceMarker => "CharacterReferenceMarker",
            Name::CharacterReferenceMarkerHexadecimal => "CharacterReferenceMarkerHexadecimal",
            Name::CharacterReferenceMarkerNumeric => "CharacterReferenceMarkerNumeric",
            Name::CharacterReferenceMarkerSemi => "CharacterReferenceMarkerSemi",
            Name::CharacterReferenceValue => "CharacterReferenceValue",
            Name::CodeFenced => "CodeFenced",
            Name::CodeFencedFence => "CodeFencedFence",
            Name::CodeFencedFenceInfo => "CodeFencedFenceInfo",
            Name::CodeFencedFenceMeta => "CodeFencedFenceMeta",
            Name::CodeFencedFenceSequence => "CodeFencedFenceSequence",
            Name::CodeFlowChunk => "CodeFlowChunk",
            Name::CodeIndented => "CodeIndented",
            Name::CodeText => "CodeText",
            Name::CodeTextData => "CodeTextData",
            Name::CodeTextSequence => "CodeTextSequence",
            Name::Content => "Content",
            Name::Data => "Data",
            Name::Definition => "Definition",
            Name::DefinitionDestination => "DefinitionDestination",
            Name::DefinitionDestinationLiteral => "DefinitionDestinationLiteral",
            Name::DefinitionDestinationLiteralMarker => "DefinitionDestinationLiteralMarker",
            Name::DefinitionDestinationRaw => "DefinitionDestinationRaw",
            Name::DefinitionDestinationString => "DefinitionDestinationString",
            Name::DefinitionLabel => "DefinitionLabel",
            Name::DefinitionLabelMarker => "DefinitionLabelMarker",
            Name::DefinitionLabelString => "DefinitionLabelString",
            Name::DefinitionMarker => "DefinitionMarker",
            Name::DefinitionTitle => "DefinitionTitle",
            Name::DefinitionTitleMarker => "DefinitionTitleMarker",
            Name::DefinitionTitleString => "DefinitionTitleString",
            Name::Emphasis => "Emphasis",
            Name::EmphasisSequence => "EmphasisSequence",
            Name::EmphasisText => "EmphasisText",
            Name::Frontmatter => "Frontmatter",
            Name::FrontmatterChunk => "FrontmatterChunk",
            Name::FrontmatterFence => "FrontmatterFence",
            Name::FrontmatterSequence => "FrontmatterSequence",
            Name::GfmAutolinkLiteralEmail => "GfmAutolinkLiteralEmail",
            Name::GfmAutolinkLiteralMailto => "GfmAutolinkLiteralMailto",
            Name::GfmAutolinkLiteralProtocol => "GfmAutolinkLiteralProtocol",
            Name::GfmAutolinkLiteralWww => "GfmAutolinkLiteralWww",
            Name::GfmAutolinkLiteralXmpp => "GfmAutolinkLiteralXmpp",
            Name::GfmFootnoteCall => "GfmFootnoteCall",
            Name::GfmFootnoteCallLabel => "GfmFootnoteCallLabel",
            Name::GfmFootnoteCallMarker => "GfmFootnoteCallMarker",
            Name::GfmFootnoteDefinition => "GfmFootnoteDefinition",
            Name::GfmFootnoteDefinitionPrefix => "GfmFootnoteDefinitionPrefix",
            Name::GfmFootnoteDefinitionLabel => "GfmFootnoteDefinitionLabel",
            Name::GfmFootnoteDefinitionLabelMarker => "GfmFootnoteDefinitionLabelMarker",
            Name::GfmFootnoteDefinitionLabelString => "GfmFootnoteDefinitionLabelString",
            Name::GfmFootnoteDefinitionMarker => "GfmFootnoteDefinitionMarker",
            Name::GfmStrikethrough => "GfmStrikethrough",
            Name::GfmStrikethroughSequence => "GfmStrikethroughSequence",
            Name::GfmStrikethroughText => "GfmStrikethroughText",
            Name::GfmTable => "GfmTable",
            Name::GfmTableBody => "GfmTableBody",
            Name::GfmTableCell => "GfmTableCell",
            Name::GfmTableCellText => "GfmTableCellText",
            Name::GfmTableCellDivider => "GfmTableCellDivider",
            Name::GfmTableDelimiterRow => "GfmTableDelimiterRow",
            Name::GfmTableDelimiterMarker => "GfmTableDelimiterMarker",
            Name::GfmTableDelimiterCell => "GfmTableDelimiterCell",
            Name::GfmTableDelimiterCellValue => "GfmTableDelimiterCellValue",
            Name::GfmTableDelimiterFiller => "GfmTableDelimiterFiller",
            Name::GfmTableHead => "GfmTableHead",
            Name::GfmTableRow => "GfmTableRow",
            Name::GfmTaskListItemCheck => "GfmTaskListItemCheck",
            Name::GfmTaskListItemMarker => "GfmTaskListItemMarker",
            Name::GfmTaskListItemValueChecked => "GfmTaskListItemValueChecked",
            Name::GfmTaskListItemValueUnchecked => "GfmTaskListItemValueUnchecked",
            Name::HardBreakEscape => "HardBreakEscape",
            Name::HardBreakTrailing => "HardBreakTrailing",
            Name::HeadingAtx => "HeadingAtx",
            Name::HeadingAtxSequence => "HeadingAtxSequence",
            Name::HeadingAtxText => "HeadingAtxText",
            Name::HeadingSetext => "HeadingSetext",
            Name::HeadingSetextText => "HeadingSetextText",
            Name::HeadingSetextUnderline => "HeadingSetextUnderline",
            Name::HeadingSetextUnderlineSequence => "HeadingSetextUnderlineSequence",
            Name::HtmlFlow => "HtmlFlow",
            Name::HtmlFlowData => "HtmlFlowData",
            Name::HtmlText => "HtmlText",
            Name::HtmlTextData => "HtmlTextData",
            Name::Image => "Image",
            Name::Label => "Label",
            Name::LabelEnd => "LabelEnd",
            Name::LabelImage => "LabelImage",
            Name::LabelImageMarker => "LabelImageMarker",
            Name::LabelLink => "LabelLink",
            Name::LabelMarker => "LabelMarker",
            Name::LabelText => "LabelText",
            Name::LineEnding => "LineEnding",
            Name::Link => "Link",
            Name::ListItem => "ListItem",
            Name::ListItemMarker => "ListItemMarker",
            Name::ListItemPrefix => "ListItemPrefix",
            Name::ListItemValue => "ListItemValue",
            Name::ListOrdered => "ListOrdered",
            Name::ListUnordered => "ListUnordered",
            Name::MathFlow => "MathFlow",
            Name::MathFlowFence => "MathFlowFence",
            Name::MathFlowFenceMeta => "MathFlowFenceMeta",
            Name::MathFlowFenceSequence => "MathFlowFenceSequence",
            Name::MathFlowChunk => "MathFlowChunk",
            Name::MathText => "MathText",
            Name::MathTextData => "MathTextData",
            Name::MathTextSequence => "MathTextSequence",
            Name::Paragraph => "Paragraph",
            Name::Reference => "Reference",
            Name::ReferenceMarker => "ReferenceMarker",
            Name::ReferenceString => "ReferenceString",
            Name::Resource => "Resource",
            Name::ResourceDestination => "ResourceDestination",
            Name::ResourceDestinationLiteral => "ResourceDestinationLiteral",
            Name::ResourceDestinationLiteralMarker => "ResourceDestinationLiteralMarker",
            Name::ResourceDestinationRaw => "ResourceDestinationRaw",
            Name::ResourceDestinationString => "ResourceDestinationString",
            Name::ResourceMarker => "ResourceMarker",
            Name::ResourceTitle => "ResourceTitle",
            Name::ResourceTitleMarker => "ResourceTitleMarker",
            Name::ResourceTitleString => "ResourceTitleString",
            Name::SpaceOrTab => "SpaceOrTab",
            Name::Strong => "Strong",
            Name::StrongSequence => "StrongSequence",
            Name::StrongText => "StrongText",
            Name::ThematicBreak => "ThematicBreak",
            Name::ThematicBreakSequence => "ThematicBreakSequence",
            Name::LinePrefix => "LinePrefix",
        }
    }

    /// Whether it is void: a span of it holds no other.
    pub const fn is_void(self) -> bool {
        matches!(
            self,
            Name::AttentionSequence
                | Name::AutolinkEmail
                | Name::AutolinkMarker
                | Name::AutolinkProtocol
                | Name::BlankLineEnding
                | Name::BlockQuoteMarker
                | Name::ByteOrderMark
                | Name::CharacterEscapeMarker
                | Name::CharacterEscapeValue
                | Name::CharacterReferenceMarker
                | Name::CharacterReferenceMarkerHexadecimal
                | Name::CharacterReferenceMarkerNumeric
                | Name::CharacterReferenceMarkerSemi
                | Name::CharacterReferenceValue
                | Name::CodeFencedFenceSequence
                | Name::CodeFlowChunk
                | Name::CodeTextData
                | Name::CodeTextSequence
                | Name::Data
                | Name::DefinitionDestinationLiteralMarker
                | Name::DefinitionLabelMarker
                | Name::DefinitionMarker
                | Name::DefinitionTitleMarker
                | Name::EmphasisSequence
                | Name::FrontmatterChunk
                | Name::FrontmatterSequence
                | Name::GfmAutolinkLiteralEmail
                | Name::GfmAutolinkLiteralProtocol
                | Name::GfmAutolinkLiteralWww
                | Name::GfmFootnoteCallMarker
                | Name::GfmFootnoteDefinitionLabelMarker
                | Name::GfmFootnoteDefinitionMarker
                | Name::GfmStrikethroughSequence
                | Name::GfmTableCellDivider
                | Name::GfmTableDelimiterMarker
                | Name::GfmTableDelimiterFiller
                | Name::GfmTaskListItemMarker
                | Name::GfmTaskListItemValueChecked
                | Name::GfmTaskListItemValueUnchecked
                | Name::HardBreakEscape
                | Name::HardBreakTrailing
                | Name::HeadingAtxSequence
                | Name::HeadingSetextUnderlineSequence
                | Name::HtmlFlowData
                | Name::HtmlTextData
                | Name::LabelImageMarker
                | Name::LabelMarker
                | Name::LineEnding
                | Name::ListItemMarker
                | Name::ListItemValue
                | Name::MathFlowFenceSequence
                | Name::MathFlowChunk
                | Name::MathTextData
                | Name::MathTextSequence
                | Name::ReferenceMarker
                | Name::ResourceMarker
                | Name::ResourceTitleMarker
                | Name::SpaceOrTab
                | Name::StrongSequence
                | Name::ThematicBreakSequence
        )
    }

    /// The name of a number, if there is one.
    pub(crate) fn of(number: u32) -> Option<Name> {
        Name::ALL.get(usize::try_from(number).ok()?).copied()
    }
}

/// As it is declared.
impl fmt::Display for Machine {
    fn fmt(&self, f: &mut fmt::Formatter<'_>) -> fmt::Result {
        f.pad(self.as_str())
    }
}

/// From its name as it is declared.
impl FromStr for Machine {
    type Err = UnknownName;

    fn from_str(text: &str) -> Result<Machine, UnknownName> {
        let mut all = Machine::ALL.iter().chain(Machine::FOR_TESTS);
        all.find(|it| it.as_str() == text)
            .copied()
            .ok_or(UnknownName)
    }
}

/// As it is declared.
impl fmt::Display for Name {
    fn fmt(&self, f: &mut fmt::Formatter<'_>) -> fmt::Result {
        f.pad(self.as_str())
    }
}

/// From its name as it is declared.
impl FromStr for Name {
    type Err = UnknownName;

    fn from_str(text: &str) -> Result<Name, UnknownName> {
        let mut all = Name::ALL.iter();
        all.find(|it| it.as_str() == text)
            .copied()
            .ok_or(UnknownName)
    }
}

/// A text is the name of nothing.
#[derive(Clone, Copy, Debug, PartialEq, Eq)]
pub struct UnknownName;

impl fmt::Display for UnknownName {
    fn fmt(&self, f: &mut fmt::Formatter<'_>) -> fmt::Result {
        f.write_str("no such name")
    }
}

impl std::error::Error for UnknownName {}
