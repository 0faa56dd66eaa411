"""What all tools do with their words: `--help` prints the comment of the tool and does nothing else, and words that it does not know print its
usage and end with 2. So a tool ends with 0 if all is well, with 1 if something differs, and with 2 if it is called wrongly."""

import argparse


class Words(argparse.ArgumentParser):
    """The words of a tool, whose help is the tool's comment."""

    def __init__(self, comment):
        super().__init__(allow_abbrev=False)
        self.comment = comment

    def format_help(self):
        return self.comment.strip() + "\n"

    def format_usage(self):
        """Returns the part of the comment that says how to call the tool."""
        return "usage: " + self.comment.partition("usage: ")[2].partition("\n\n")[0].rstrip() + "\n"
