"""gabzetu completions: what a shell completes."""
import argparse

from ..output import write_output

SUMMARY = 'write the completions for a shell'
DESCRIPTION = """Writes the completions for a shell. Where they go:

  bash: /usr/share/bash-completion/completions/gabzetu, or source <(gabzetu completions bash)
  zsh:  a file _gabzetu in a folder of $fpath
  fish: ~/.config/fish/completions/gabzetu.fish"""


def add_arguments(parser: argparse.ArgumentParser) -> None:
    """Adds the words of the command."""
    parser.add_argument('shell', choices=['bash', 'fish', 'zsh'], help='the shell')


def run(arguments: argparse.Namespace) -> int:
    """Runs the command, and returns the exit status."""
    from ..completions import SHELLS

    write_output(None, SHELLS[arguments.shell]())
    return 0
