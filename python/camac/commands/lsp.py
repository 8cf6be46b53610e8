"""lsp: the language server."""
import argparse
from typing import Any

ABOUT = """\
A language server (Language Server Protocol 3.17) for scripts and plans. An editor starts it: docs/EDITORS.md says how."""


def add_to(commands: Any) -> None:
    it = commands.add_parser("lsp", prog="camac-lsp", help="Serves editors over standard input and output", description=ABOUT)
    it.set_defaults(do=do, out=None)


def do(_: argparse.Namespace) -> int:
    # The modules of the server would take a fifth of the time in which every other command starts.
    from camac.lsp.server import serve

    return serve()
