"""Makes python/CALLS.md, the list of calls, from the signatures and docstrings; a test says whether it is up to date.

    PYTHONPATH=python python3 python/tests/api_page.py        writes it
"""
import inspect
import os

import psu
from psu import blocks
from psu.raw_socket import RawSocket
from psu.relay import Relay

PACKAGE = os.path.dirname(os.path.dirname(os.path.abspath(__file__)))
README, CALLS = os.path.join(PACKAGE, "README.md"), os.path.join(PACKAGE, "CALLS.md")
HEAD = """# All calls of the Python package `psu`

Made from the docstrings by `python/tests/api_page.py`. [README](README.md) says how they are used.
"""
PARTS = (
    ("`psu.Instrument`", psu.Instrument),
    ("`psu.Server`", psu.Server),
    ("`psu.relay.Relay` and `psu.raw_socket.RawSocket`, in a `with` block", (Relay, RawSocket)),
    ("`psu.blocks`", (blocks.definite_block, blocks.block_content)),
)


def shown_parameters(call):
    """Returns the parameters with their defaults, without `self`."""
    words, is_open = [], True
    for it in inspect.signature(call).parameters.values():
        if it.name in ("self", "cls"):
            continue
        if it.kind is it.KEYWORD_ONLY and is_open:
            words.append("*")
            is_open = False
        default = "" if it.default is it.empty else f"={it.default if isinstance(it.default, tuple) else repr(it.default)}"
        words.append(f"{it.name}{default.replace('=()', '=[]')}")
    return ", ".join(words)


def shown_result(call):
    """Returns what a call returns; nothing of a constructor and of what is for a `with` block."""
    result = inspect.signature(call).return_annotation
    has_none = inspect.isclass(call) or result in (inspect.Signature.empty, "None") or result.startswith("Iterator[")
    return "" if has_none else f" -> {result}"


def first_paragraph(call):
    return " ".join(inspect.getdoc(call).split("\n\n")[0].split())


def row(name, call):
    return f"| `{name}({shown_parameters(call)}){shown_result(call)}` | {first_paragraph(call)} |\n"


# What a program calls of its own loop; a test takes the `with` block.
OF_A_LOOP = ("start", "stop", "run", "serve", "report_full")


def rows_of(part):
    rows = [row(part.__name__, part)]
    for name, value in {} if inspect.isfunction(part) else vars(part).items():
        if name.startswith("_") or name in OF_A_LOOP and part is not psu.Server:
            continue
        if isinstance(value, property):
            rows.append(f"| `{name}` | {first_paragraph(value)} |\n")
        elif callable(getattr(part, name)):
            rows.append(row(name, getattr(part, name)))
    return rows


def page():
    text = HEAD
    for heading, parts in PARTS:
        text += f"\n{heading}:\n\n| call | |\n|---|---|\n"
        for part in parts if isinstance(parts, tuple) else (parts,):
            text += "".join(rows_of(part))
    return text


def main():
    with open(CALLS, "w", encoding="utf-8") as file:
        file.write(page())


if __name__ == "__main__":
    main()
