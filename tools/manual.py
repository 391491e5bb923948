#!/usr/bin/env python3
"""Makes the man page and the completions of shells from what `arrowstream --help` prints.

    tools/manual.py FOLDER PROGRAM      writes arrowstream.1, arrowstream.bash, arrowstream.fish
                                        and _arrowstream into the folder
"""
import pathlib
import re
import subprocess
import sys


# The documents that are installed beside the man page.
FILES = (
    ".TP", "share/doc/arrowstream/docs/GUIDE.md", "recipes",
    ".TP", "share/doc/arrowstream/docs/SCHEMA.md", "the form of a schema as JSON",
    ".TP", "share/doc/arrowstream/docs/FAULTS.md", "every refusal, and what to do",
)

# Where a reader finds more.
SEE_ALSO = (
    ".BR jq (1)",
    ".PP",
    "The format:",
    ".br",
    "https://arrow.apache.org/docs/format/Columnar.html#ipc\\-streaming\\-format",
)


def in_two(line):
    """The word of a line of a list, and what is said of it."""
    return re.split(r"\s{2,}", line.strip(), maxsplit=1)


class Page:
    """What the help of the program or of one subcommand says."""

    def __init__(self, program, *words):
        done = subprocess.run(
            [program, *words, "--help"], capture_output=True, text=True, check=True
        )
        self.name = " ".join(words)
        self.about, rest = done.stdout.split("\n\nUsage: ", 1)
        self.usage, rest = rest.split("\n", 1)
        self.commands, self.options, self.notes = {}, [], []
        for part in rest.strip("\n").split("\n\n"):
            self.read(part)

    def read(self, part):
        """Takes one part of the help: a list of commands or of options, or notes after them."""
        lines = part.split("\n")
        if lines[0] == "Commands:":
            self.commands = dict(map(in_two, lines[1:]))
        elif lines[0] == "Options:":
            self.options = list(map(in_two, lines[1:]))
        else:
            self.notes.append(lines)

    def long_options(self):
        """Each long option, the name of its value where it takes one, and its help."""
        for words, text in self.options:
            value = re.search(r"<([A-Z]+)>", words)
            yield re.search(r"--[a-z-]+", words).group(), value and value.group(1), text


def escaped(text):
    """A line for roff, in which no sign is a command."""
    text = text.replace("\\", "\\e").replace("-", "\\-")
    return "\\&" + text if text[:1] in ".'" else text


def options_of(page):
    """The options of a page as paragraphs of roff."""
    for words, text in page.options:
        yield from (".TP", f"\\fB{escaped(words)}\\fR", escaped(text))


def list_of(lines):
    """A list of a page's notes, without its first line."""
    yield from (".RS 4", ".nf", *(escaped(line.strip()) for line in lines[1:]), ".fi", ".RE")


def notes_of(page):
    """The notes after the options: paragraphs, and lists whose first line ends in a colon."""
    for lines in page.notes:
        if lines[0].endswith(":"):
            yield from (".PP", escaped(lines[0]), *list_of(lines))
        else:
            yield from (".PP", *map(escaped, lines))


def sections_of(page):
    """The lists of a page's notes as sections, by their names in capitals."""
    return {lines[0].rstrip(":").upper(): [*list_of(lines)] for lines in page.notes if lines[1:]}


def manual(version, top, pages):
    """The man page, for section 1."""
    lines = [f'.TH ARROWSTREAM 1 "" "{version}" "User Commands"', ".SH NAME"]
    lines += [f"arrowstream \\- {escaped(top.about)}", ".SH SYNOPSIS"]
    for page in pages:
        lines += [f"\\fB{escaped(page.usage)}\\fR", ".br"]
    lines += [".SH DESCRIPTION", *map(escaped, top.notes[0]), ".SH OPTIONS", *options_of(top)]
    for page in pages:
        lines += [f".SH {escaped(page.name.upper())}", escaped(page.about), *options_of(page)]
        lines += notes_of(page)
    sections = {**sections_of(top), "FILES": FILES, "SEE ALSO": SEE_ALSO}
    for name in ("EXIT STATUS", "FILES", "EXAMPLES", "SEE ALSO"):
        lines += [f".SH {name}", *sections[name]]
    return "\n".join(lines) + "\n"


def bash(top, pages):
    """Completion for bash: after an option with a value the value, else subcommands or options."""
    options = [
        (page.name, option, value) for page in pages for option, value, _ in page.long_options()
    ]
    paths = "|".join(f'"{name} {option}"' for name, option, value in options if value == "PATH")
    others = "|".join(
        sorted({f'*" {option}"' for _, option, value in options if value not in (None, "PATH")})
    )
    cases = [
        f"    {page.name}) words='{' '.join(option for option, _, _ in page.long_options())}' ;;"
        for page in pages
    ]
    first = " ".join([*top.commands, *(option for option, _, _ in top.long_options())])
    return "\n".join(
        [
            "# bash completion for arrowstream",
            "_arrowstream() {",
            "  local words current=${COMP_WORDS[COMP_CWORD]}",
            "  local previous=${COMP_WORDS[COMP_CWORD - 1]}",
            "  # bash takes --option=value for three words.",
            '  [ "$previous" != = ] || previous=${COMP_WORDS[COMP_CWORD - 2]}',
            '  [ "$current" != = ] || current=',
            "  COMPREPLY=()",
            '  case "${COMP_WORDS[1]} $previous" in',
            f"    {paths}) compopt -o filenames",
            '      mapfile -t COMPREPLY < <(compgen -f -- "$current")',
            "      return ;;",
            f"    {others}) return ;;",
            "  esac",
            '  case "${COMP_WORDS[1]}" in',
            *cases,
            f"    help) words='{' '.join(page.name for page in pages)}' ;;",
            "  esac",
            f'  [ "$COMP_CWORD" -gt 1 ] || words=\'{first}\'',
            '  mapfile -t COMPREPLY < <(compgen -W "$words" -- "$current")',
            "}",
            "complete -F _arrowstream arrowstream",
            "",
        ]
    )


def quoted(text):
    """A text between single quotes, as shells read it."""
    return "'" + text.replace("'", "'\\''") + "'"


def fish(top, pages):
    """Completion for fish. `-x` is an option with a value that is no file."""
    lines = ["# fish completion for arrowstream", "complete -c arrowstream -f"]
    for name, text in top.commands.items():
        where = "-n __fish_use_subcommand"
        lines.append(f"complete -c arrowstream {where} -a {name} -d {quoted(text)}")
    for page in pages:
        where = quoted(f"__fish_seen_subcommand_from {page.name}")
        for option, value, text in page.long_options():
            needs = {None: "", "PATH": " -r -F"}.get(value, " -x")
            lines.append(
                f"complete -c arrowstream -n {where} -l {option[2:]}{needs} -d {quoted(text)}"
            )
    return "\n".join(lines) + "\n"


def zsh_options(page):
    """The call that completes the options of a subcommand in zsh."""
    shown = []
    for option, value, text in page.long_options():
        text = text.replace("[", "(").replace("]", ")")
        message = {None: "", "PATH": ":file:_files", "N": ":number: "}.get(value, ":text: ")
        option += "=" if value else ""
        shown.append("    " + quoted(f"{option}[{text}]{message}"))
    return f"  {page.name}) _arguments \\\n" + " \\\n".join(shown) + " ;;"


def zsh(top, pages):
    """Completion for zsh. The words of a subcommand are completed as those of a command."""
    lines = ["#compdef arrowstream", "local -a commands", "commands=("]
    lines += ["  " + quoted(f"{name}:{text}") for name, text in top.commands.items()]
    lines += [")", "if (( CURRENT == 2 )); then", "  _describe command commands", "  return"]
    lines += ["fi", "shift words", "(( CURRENT-- ))", 'case "$words[1]" in']
    lines += [zsh_options(page) for page in pages]
    lines += ["  help) (( CURRENT == 2 )) && _describe command commands ;;", "esac", ""]
    return "\n".join(lines)


def main(folder, program):
    told = subprocess.run([program, "--version"], capture_output=True, text=True, check=True)
    top = Page(program)
    pages = [Page(program, name) for name in top.commands if name != "help"]
    made = {
        "arrowstream.1": manual(told.stdout.strip(), top, pages),
        "arrowstream.bash": bash(top, pages),
        "arrowstream.fish": fish(top, pages),
        "_arrowstream": zsh(top, pages),
    }
    home = pathlib.Path(folder)
    home.mkdir(parents=True, exist_ok=True)
    for name, text in made.items():
        (home / name).write_text(text, "utf-8")


if __name__ == "__main__":
    if len(sys.argv) != 3:
        sys.exit(__doc__)
    main(*sys.argv[1:])
