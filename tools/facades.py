#!/usr/bin/env python3
"""Holds specs/Lib.antt and proofs/Lib.antt of the two facades, `markdown` and `mdconstructs`, against the ones of their parts.

usage: tools/facades.py [--write]     prints which file is not as it would be written, and ends with 1 if one is not; --write writes these

A facade passes on each file of its parts under the file's own name. If two files have one name, or a file has the name of an item at
the facade's root (the machine Paragraphs), it gets a name of its own here.
"""

import os
import re
import sys

sys.dont_write_bytecode = True
import usage  # noqa: E402

TOP = os.path.dirname(os.path.dirname(os.path.realpath(__file__)))
PARTS = {
    "markdown": ["markdown_base", "markdown_edits", "markdown_tokenizer", "markdown_children"],
    "mdconstructs": ["mdconstructs_tables", "mdconstructs_machines", "mdinline_text_machine", "mdinline_labels", "mdinline_emphasis", "mdinline_characters", "mdinline_constructs", "mdinline_link_strings", "mdinline_machine", "mdblock_leaf_rows", "mdblock_leaf_machine", "mdblock_leaf_blocks", "mdblock_lines", "mdblock_containers", "mddocument", "mddocument_costs", "mddocument_laws", "mddocument_parts", "mddocument_link_targets", "mddocument_editing"],
}
NAMED = {
    ("markdown_children", "specs", "LawStatements"): "ChildrenLawStatements",
    ("mdinline_emphasis", "specs", "Costs"): "PairCosts",
    ("mdinline_emphasis", "specs", "Emphasis"): "EmphasisEvents",
    ("mdinline_emphasis", "specs", "LawStatements"): "EmphasisLawStatements",
    ("mdinline_emphasis", "proofs", "Markers"): "RunMarkers",
    ("mdinline_emphasis", "specs", "Places"): "RunPlaces",
    ("mdinline_emphasis", "specs", "Runs"): "DelimiterRuns",
    ("mdblock_leaf_blocks", "proofs", "Blocks"): "LeafReads",
    ("mdblock_leaf_blocks", "proofs", "Html"): "HtmlReads",
    ("mdblock_leaf_blocks", "proofs", "Lines"): "LineParts",
    ("mdblock_leaf_blocks", "proofs", "Looks"): "LineLooks",
    ("mdblock_leaf_blocks", "proofs", "Paragraphs"): "LeafParagraphs",
    ("mdconstructs_tables", "proofs", "Paragraphs"): "ParagraphLaws",
    ("mdconstructs_tables", "specs", "Laws"): "TableLaws",
    ("mdblock_leaf_rows", "specs", "Flow"): "FlowStates",
    ("mdinline_machine", "specs", "Over"): "InlinesOver",
    ("mdblock_leaf_rows", "specs", "LawStatements"): "FlowLawStatements",
    ("mdblock_leaf_rows", "specs", "Laws"): "FlowLaws",
    ("mdblock_leaf_rows", "specs", "Over"): "FlowOver",
    ("mdblock_leaf_rows", "specs", "Steps"): "FlowSteps",
    ("mdblock_leaf_machine", "proofs", "Called"): "FlowCalled",
    ("mdblock_leaf_rows", "proofs", "NoRefusals"): "FlowNoRefusals",
    ("mdinline_machine", "proofs", "Looks"): "InlineLooks",
    ("mdinline_machine", "specs", "Laws"): "InlineLaws",
    ("mdinline_machine", "specs", "LawStatements"): "InlineLawStatements",
    ("mdinline_characters", "proofs", "Tables"): "ReferenceTables",
    ("mdinline_characters", "proofs", "Parts"): "ReferenceParts",
    ("mdinline_characters", "proofs", "Orders"): "ReferenceOrders",
    ("mdinline_characters", "proofs", "Searches"): "ReferenceSearches",
    ("mddocument_costs", "specs", "Chains"): "ChainCosts",
    ("mddocument_costs", "specs", "Documents"): "DocumentCosts",
    ("mddocument_costs", "specs", "Examples"): "CostExamples",
    ("mddocument", "proofs", "Emphasis"): "InlineEmphasis",
    ("mddocument_laws", "proofs", "Examples"): "LineStartExamples",
    ("mdinline_labels", "specs", "Costs"): "LabelCosts",
    ("mdinline_labels", "specs", "Labels"): "NormalLabels",
    ("mdinline_labels", "proofs", "Fronts"): "LabelFronts",
    ("mdblock_lines", "specs", "Breaks"): "LineBreaks",
    ("mdblock_lines", "specs", "Lines"): "LineFunctions",
    ("mdblock_lines", "specs", "Views"): "ContainerViews",
    ("mdblock_containers", "specs", "Chunks"): "ContentChunks",
    ("mdblock_containers", "specs", "Parts"): "ContainerParts",
    ("mdblock_containers", "specs", "Spans"): "ContainerSpans",
    ("mdblock_containers", "specs", "Stretches"): "ContainerStretches",
    ("mdblock_containers", "specs", "Rows"): "ContainerRows",
    ("mdblock_containers", "specs", "Views"): "RowViews",
    ("mdblock_containers", "proofs", "Examples"): "SkeletonExamples",
    ("mdblock_containers", "proofs", "Innermost"): "InnermostInSkeletons",
    ("mdblock_containers", "specs", "Over"): "ContainersOver",
    ("mddocument", "proofs", "Innermost"): "InnermostInDocuments",
    ("mdblock_containers", "specs", "Costs"): "ContainerCosts",
    ("mdinline_link_strings", "specs", "Costs"): "StringCosts",
    ("mdinline_link_strings", "specs", "Laws"): "StringLaws",
    ("mdinline_link_strings", "proofs", "Fronts"): "StringFronts",
    ("mdinline_link_strings", "proofs", "Plain"): "StringPlain",
    ("mddocument_link_targets", "specs", "Costs"): "TargetCosts",
    ("mddocument_link_targets", "specs", "Defined"): "DefinedAt",
    ("mddocument_link_targets", "specs", "Examples"): "TargetExamples",
    ("mddocument_link_targets", "specs", "Spans"): "SpansInside",
    ("mddocument_link_targets", "specs", "Strings"): "StringTexts",
    ("mddocument_link_targets", "proofs", "CostLemmas"): "TargetCostLemmas",
    ("mddocument_link_targets", "proofs", "Examples"): "TargetExamples",
    ("mdinline_text_machine", "specs", "Laws"): "TextLaws",
    ("mdinline_text_machine", "proofs", "NoFurther"): "TextNoFurther",
    ("mdinline_text_machine", "proofs", "NoRefusals"): "TextNoRefusals",
    ("mdinline_text_machine", "proofs", "Paragraphs"): "TextParagraphs",
}
# generated files that no `pub use` of an item brings along: the constants of a type that a part re-exports
ALSO = {
    ("markdown", "specs"): ["pub use Rattle.markdown_base.specs.declared.state.TheConstants as StateConstants"],
}


def files(part, room):
    """Returns the public files of a part's folder, by name: their order there is that of rooms."""
    path = f"{TOP}/crates/{part}/{room}/Lib.antt"
    if not os.path.exists(path):
        return []
    with open(path, encoding="utf-8") as it:
        return sorted(re.findall(r"^pub mod (\w+)$", it.read(), flags=re.M))


def lib(facade, room):
    """Returns the text of a facade's Lib.antt."""
    lines, names = [], set()
    for part in PARTS[facade]:
        for name in files(part, room):
            given = NAMED.get((part, room, name))
            if (given or name) in names:
                sys.exit(f"facades: {facade} has two files {given or name} in {room}: name one of them in NAMED")
            names.add(given or name)
            lines.append(f"pub use Rattle.{part}.{room}.{name}" + (f" as {given}" if given else ""))
    return "\n".join(lines + ALSO.get((facade, room), [])) + "\n"


def main():
    parser = usage.Words(__doc__)
    parser.add_argument("--write", action="store_true")
    is_written, other = parser.parse_args().write, []
    for facade in PARTS:
        for room in ("specs", "proofs"):
            path, text = f"{TOP}/crates/{facade}/{room}/Lib.antt", lib(facade, room)
            with open(path, encoding="utf-8") as it:
                if it.read() == text:
                    continue
            other.append(path)
            if is_written:
                with open(path, "w", encoding="utf-8") as it:
                    it.write(text)
    for path in other:
        print(os.path.relpath(path, TOP))
    sys.exit(1 if other and not is_written else 0)


if __name__ == "__main__":
    main()
