#!/usr/bin/env python3
"""Writes what shows the command line, from the one table of commands and options in options.py: the
texts of `cubed help` and of `cubed DIR COMMAND --help`, the completion for bash and zsh, and the page
for `man`. They lie in tools/manual.

usage: tools/manual.py [--check]     --check writes nothing, and ends with 1 where one isn't so
"""
from __future__ import annotations

import argparse
import os
import sys
from typing import Sequence

from options import COMMANDS, FLAGS, OPTIONS, OTHERS, Option, form_of, options_of

HERE = os.path.join(os.path.dirname(os.path.realpath(__file__)), "manual")
ALL = {**COMMANDS, **OTHERS}
ABOUT = "computes arrays of integers and truth values that are larger than memory"
DIR = "DIR is the folder of the arrays, as uncompressed Zarr"
FORM = ("An option may also be --name=N, stands at most once, and stands before or behind NAME or SIZE. "
        "The first -- ends the options.")
STATUS = "The exit status is 0, or the number of the answer."
# Words in the place of a folder.
WORDS = {
    "explain N [code=C]": "what the answer N means, and what to do; also the line as printed: cubed explain 'error 3 code=3 node=2'",
    "explain LINE WORDS": "also which of the words of a call is wrong: cubed explain 'error 2 code=2' DIR run --workers 65",
    "explain OP": "an operator of expressions, as cubed explain where",
    "help [COMMAND]": "these words, or those of a command; so do -h and --help (write ./help for a folder of that name)",
    "--version": "the version, and which program is run",
}
FIRST_WORDS = ("explain", "help", "--help", "--version")


def aligned(rows: Sequence[tuple[str, ...]], indent: str = "  ") -> str:
    """Rows of cells as lines in columns."""
    widths = [max(len(row[at]) for row in rows) for at in range(len(rows[0]) - 1)]
    return "".join(indent + "  ".join([cell.ljust(width) for cell, width in zip(row, widths)] + [row[-1]]) + "\n"
                   for row in rows)


def number_text(option: Option) -> tuple[str, str]:
    """The range of an option, and its number where it isn't given."""
    return f"{option.least} to {option.most}", "-" if option.default is None else str(option.default)


def help_text() -> str:
    """What `cubed help` prints."""
    parts = [f"cubed DIR COMMAND [OPTIONS]\n{ABOUT}. {DIR}.\n"]
    groups: dict[str, list[tuple[str, ...]]] = {}
    for name, it in ALL.items():
        groups.setdefault(it.group, []).append((form_of(name), it.does))
    parts += [f"\n{group}:\n{aligned(rows)}" for group, rows in groups.items()]
    rows = [("option", "meaning", "takes", "if it isn't given", "of")]
    rows += [(f"--{name} N", it.means, *number_text(it), ", ".join(it.takers)) for name, it in OPTIONS.items()]
    parts.append(f"\n{aligned(rows)}\n  {FORM}\n  cubed DIR COMMAND --help has those of a command.\n")
    parts.append("\n" + aligned([(f"cubed {words}", does) for words, does in WORDS.items()]))
    parts.append(f"\nArrays of NumPy and of other programs: tools/zarr --help\n{STATUS}\n")
    return "".join(parts)


def command_text(name: str) -> str:
    """What `cubed DIR COMMAND --help` prints."""
    it, own = ALL[name], options_of(name)
    rows: list[tuple[str, ...]] = [("option", "meaning", "takes", "if it isn't given")] if own else []
    rows += [(f"--{key} {option.letter}", option.means, *number_text(option)) for key, option in own.items()]
    flags = aligned(list(FLAGS[name].items())) if name in FLAGS else ""
    table = f"\n{aligned(rows)}\n  {FORM}\n" if rows else f"\n{flags}" if flags else ""
    reads = f"It reads {it.text}, a JSON text, from standard input.\n" if it.text else ""
    return f"usage: {form_of(name)}\n{it.does}. {DIR}.\n{reads}{table}\n{STATUS}\n"


def words_behind(name: str) -> list[str]:
    return [f"--{key}" for key in options_of(name)] + list(FLAGS.get(name, ())) + ["--help"]


BASH = r"""# Completes the words of cubed in bash: source this file, or put it where bash looks for it.
_cubed() {
    local word=${COMP_WORDS[COMP_CWORD]} command=${COMP_WORDS[2]-} found=
    COMPREPLY=()
    if [ "$COMP_CWORD" -eq 1 ]; then
        mapfile -t COMPREPLY < <(compgen -d -- "$word"; compgen -W "@FIRST@" -- "$word")
        return
    fi
    case ${COMP_WORDS[1]} in
    help) found="@COMMANDS@" ;;
    explain | -*) return ;;
    *) case $COMP_CWORD in 2) found="@COMMANDS@" ;; *) case $command in
@CASES@
        esac ;; esac ;;
    esac
    mapfile -t COMPREPLY < <(compgen -W "$found" -- "$word")
    case $command in
    print | remove | status)
        if [ "$COMP_CWORD" -gt 2 ] && [ "${word#-}" = "$word" ]; then
            mapfile -t COMPREPLY < <(cd -- "${COMP_WORDS[1]}" 2>/dev/null && compgen -d -X '[_.]*' -- "$word")
        fi
        ;;
    esac
}
complete -o filenames -F _cubed cubed ./cubed
"""
ZSH = r"""#compdef cubed
# Completes the words of cubed in zsh: put this file as _cubed into a folder of $fpath.
local -a found
if (( CURRENT == 2 )); then
    _files -/
    compadd -- @FIRST@
    return
fi
found=(@COMMANDS@)
if (( CURRENT == 3 )); then
    [[ ${words[2]} == (explain|-*) ]] || compadd -- $found
    return
fi
case ${words[3]} in
print|remove|status) _files -/ -W ${words[2]} -F '[_.]*' ;;
esac
case ${words[3]} in
@CASES@
esac
compadd -- $found
"""


def completion(form: str, case: str) -> str:
    """The completion of a shell, from its form and that of a command's row."""
    cases = "\n".join(case.format(name, " ".join(words_behind(name))) for name in ALL)
    return (form.replace("@FIRST@", " ".join(FIRST_WORDS)).replace("@COMMANDS@", " ".join(ALL))
            .replace("@CASES@", cases))


def roff(text: str) -> str:
    """A text as groff takes it."""
    text = text.replace("\\", "\\e").replace("-", "\\-")
    return "\n".join(f"\\&{line}" if line[:1] in (".", "'") else line for line in text.split("\n"))


def page() -> str:
    """The page for `man`."""
    parts = [".TH CUBED 1\n.SH NAME\n", roff(f"cubed - {ABOUT}\n"), ".SH SYNOPSIS\n"]
    forms = [form_of(name) for name in ALL] + [f"cubed {words}" for words in WORDS]
    parts += [f".B {roff(form)}\n.br\n" for form in forms]
    parts += [".SH DESCRIPTION\n", roff(f"{DIR}. {STATUS}\n"), ".SH COMMANDS\n"]
    parts += [f".TP\n.B {roff(name)}\n{roff(it.does)}.\n" for name, it in ALL.items()]
    parts += [f".TP\n.B {roff(words)}\n{roff(does)}.\n" for words, does in WORDS.items()]
    parts += [".SH OPTIONS\n", roff(FORM) + "\n"]
    for name, it in OPTIONS.items():
        takes, default = number_text(it)
        given = "must be given" if it.default is None else f"{default} if it isn't given"
        parts.append(f".TP\n.BI {roff(f'--{name}')} \" {it.letter}\"\n"
                     + roff(f"{it.means}: {takes}, {given}; of {', '.join(it.takers)}.\n"))
    for name, flags in FLAGS.items():
        parts += [f".TP\n.B {roff(flag)}\n" + roff(f"{means}; of {name}.\n") for flag, means in flags.items()]
    return "".join(parts)


def files() -> dict[str, str]:
    """Each file of tools/manual with what stands in it."""
    return {"help": help_text(), **{f"{name}.help": command_text(name) for name in ALL},
            "cubed.bash": completion(BASH, '        {0}) found="{1}" ;;'),
            "_cubed": completion(ZSH, "{0}) found=({1}) ;;"), "cubed.1": page()}


def held() -> dict[str, str]:
    """What lies in tools/manual."""
    found = {}
    for name in os.listdir(HERE) if os.path.isdir(HERE) else []:
        with open(os.path.join(HERE, name), encoding="utf-8") as file:
            found[name] = file.read()
    return found


def main() -> int:
    parser = argparse.ArgumentParser(usage="tools/manual.py [--check]", description=__doc__)
    parser.add_argument("--check", action="store_true")
    wanted = files()
    if parser.parse_args().check:
        other = [name for name, text in {**held(), **wanted}.items() if text != wanted.get(name) or held().get(name) != text]
        for name in other:
            print(f"tools/manual/{name} isn't what the table in tools/options.py says: tools/manual.py writes it")
        return 1 if other else 0
    os.makedirs(HERE, exist_ok=True)
    for name in set(held()) - set(wanted):
        os.remove(os.path.join(HERE, name))
    for name, text in wanted.items():
        with open(os.path.join(HERE, name), "w", encoding="utf-8") as file:
            file.write(text)
    return 0


if __name__ == "__main__":
    sys.exit(main())
