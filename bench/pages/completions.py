#!/usr/bin/env python3
"""Completions and the manual page of `pb_tool`, from the help that it prints: `completions.py PROGRAM [--check]`.

The program's help is made from its table of options, so the files in `share/` follow that table. With `--check` nothing
is written, and the status is 1 if a file is stale.

- `share/completions/pb_tool.bash`: source it, or put it into `/usr/share/bash-completion/completions/pb_tool`
- `share/completions/_pb_tool`: for zsh, into a folder of `$fpath`
- `share/completions/pb_tool.fish`: into `~/.config/fish/completions/`
- `share/man/pb_tool.1`: `man share/man/pb_tool.1`
"""
import os
import re
import subprocess
import sys
from collections import namedtuple

TOP = os.path.dirname(os.path.dirname(os.path.dirname(os.path.abspath(__file__))))
Option = namedtuple("Option", "short long value help")
Command = namedtuple("Command", "name about usage arguments options below")

# What a value is, by the name that help gives it.
FILES, FOLDERS = {"PATH", "FILE"}, {"FOLDER", "DIR"}


def help_of(program, *words):
    """The text that the program prints for `--help`."""
    return subprocess.run([program, *words, "--help"], check=True, capture_output=True, text=True).stdout


def options_in(text):
    """The options of a help text."""
    found = []
    for line in text.split("\n"):
        one = re.match(r"^  (?:(-\w), |    )(--[\w-]+)(?: <(\w+)>)?  +(.*)$", line)
        if one:
            found.append(Option(one[1] or "", one[2], one[3] or "", one[4]))
    return found


def section(text, name):
    """The lines of a section of a help text."""
    found = re.search(rf"^{name}:\n((?:  .*\n?)+)", text, re.M)
    return found[1].rstrip("\n").split("\n") if found else []


def command_of(program, name, about):
    """What the program says of a command."""
    text = help_of(program, name)
    usage = re.search(r"^Usage: \S+ (.*)$", text, re.M)[1]
    arguments = [re.match(r"^  <(\w+)>  +(.*)$", it) for it in section(text, "Arguments")]
    below = text[text.index("Print help") + len("Print help"):].strip("\n") if "Print help" in text else ""
    return Command(name, about, usage, [(it[1], it[2]) for it in arguments if it], options_in(text), below)


def commands_of(program):
    """The commands of the program, and its own options."""
    text = help_of(program)
    found = [re.match(r"^  (\S+)  +(.*)$", it) for it in section(text, "Commands")]
    return [command_of(program, it[1], it[2]) for it in found if it[1] != "help"], options_in(text)


def bash(commands, own):
    """Completions for bash."""
    lines = [
        "# Completions of pb_tool for bash. `bench/pages/completions.py` writes this file.",
        "_pb_tool() {",
        '    local word="${COMP_WORDS[COMP_CWORD]}" before="${COMP_WORDS[COMP_CWORD-1]}" words=""',
        '    case "${COMP_WORDS[1]}" in',
    ]
    for it in commands:
        words = " ".join(text for one in it.options for text in (one.short, one.long) if text)
        lines.append(f'        {it.name}) words="{words}" ;;')
    names = " ".join([it.name for it in commands] + [it.long for it in own])
    lines += [f'        *) words="{names}" ;;', "    esac", '    case "$before" in']
    valued = {one.long: one for it in commands for one in it.options if one.value}
    for kind, flag in ((FILES, "-f"), (FOLDERS, "-d")):
        longs = sorted(it for it, one in valued.items() if one.value in kind)
        if longs:
            lines.append(f'        {"|".join(longs)}) COMPREPLY=($(compgen {flag} -- "$word")); return ;;')
    files = sorted(it.name for it in commands if any(name in FILES for name, _ in it.arguments))
    if files:
        lines.append(f'        {"|".join(files)}) COMPREPLY=($(compgen -f -- "$word")); return ;;')
    lines += ["    esac", '    COMPREPLY=($(compgen -W "$words" -- "$word"))', "}", "complete -F _pb_tool pb_tool", ""]
    return "\n".join(lines)


def zsh_text(text):
    """A text in zsh's descriptions."""
    return text.replace("\\", "\\\\").replace("'", "'\\''").replace("[", "\\[").replace("]", "\\]").replace(":", "\\:")


def zsh_option(one):
    """An option as `_arguments` takes it."""
    names = f"{{{one.short},{one.long}}}" if one.short else one.long
    action = "_files" if one.value in FILES else "_files -/" if one.value in FOLDERS else " "
    value = f":{one.value.lower()}:{action}" if one.value else ""
    quoted = f"'[{zsh_text(one.help)}]{value}'"
    return f"            '*'{names}{quoted}" if one.value else f"            {names}{quoted}"


def zsh(commands, own):
    """Completions for zsh."""
    lines = ["#compdef pb_tool", "# Completions of pb_tool for zsh. `bench/pages/completions.py` writes this file.", "_pb_tool() {"]
    lines += ["    if (( CURRENT == 2 )); then", "        local -a commands=("]
    lines += [f"            '{it.name}:{zsh_text(it.about)}'" for it in commands]
    lines += ["        )", "        _describe command commands", "        return", "    fi", '    case "$words[2]" in']
    for it in commands:
        lines += [f"        {it.name})", "            shift words; (( CURRENT-- ))", "            _arguments \\"]
        shown = [zsh_option(one) for one in it.options]
        shown += [f"            ':{name.lower()}:{'_files' if name in FILES else ' '}'" for name, _ in it.arguments]
        lines += [" \\\n".join(shown), "            ;;"]
    lines += ["    esac", "}", '_pb_tool "$@"', ""]
    return "\n".join(lines)


def fish(commands, own):
    """Completions for fish."""
    def quoted(text):
        return "'" + text.replace("\\", "\\\\").replace("'", "\\'") + "'"
    lines = ["# Completions of pb_tool for fish. `bench/pages/completions.py` writes this file.", "complete -c pb_tool -f"]
    for it in commands:
        lines.append(f"complete -c pb_tool -n __fish_use_subcommand -a {it.name} -d {quoted(it.about)}")
    for it in commands:
        at = f"complete -c pb_tool -n '__fish_seen_subcommand_from {it.name}'"
        for one in it.options:
            short = f" -s {one.short[1:]}" if one.short else ""
            value = " -r -F" if one.value in FILES | FOLDERS else " -x" if one.value else ""
            lines.append(f"{at}{short} -l {one.long[2:]}{value} -d {quoted(one.help)}")
        lines += [f"{at} -F" for name, _ in it.arguments if name in FILES]
    return "\n".join(lines) + "\n"


def man_text(text):
    """A text as roff has it."""
    text = text.replace("\\", "\\\\").replace("-", "\\-")
    return re.sub(r"`([^`]*)`", r"\\fB\1\\fR", text)


def man(commands, own):
    """The manual page."""
    lines = ['.\\" bench/pages/completions.py writes this page.', '.TH PB_TOOL 1 "" "pb_tool" "User Commands"', ".SH NAME"]
    lines += ["pb_tool \\- builds workspaces of path packages, and is proved correct", ".SH SYNOPSIS"]
    for it in commands:
        lines += [".br", f".B pb_tool {it.name}", man_text(it.usage.removeprefix(it.name).strip())]
    for it in commands:
        lines += [f".SH {it.name.upper()}", man_text(it.about) + "."]
        for name, text in it.arguments:
            lines += [".TP", f".I {name}", man_text(text) + "."]
        for one in it.options:
            names = ", ".join(f"\\fB{man_text(text)}\\fR" for text in (one.short, one.long) if text)
            lines += [".TP", names + (f" \\fI{one.value}\\fR" if one.value else ""), man_text(one.help) + "."]
        if it.below:
            lines += [".PP", ".nf", man_text(it.below), ".fi"]
    lines += [".SH SEE ALSO", ".BR cargo (1),", ".BR rustc (1)", ""]
    return "\n".join(lines)


FILES_WRITTEN = {
    "share/completions/pb_tool.bash": bash,
    "share/completions/_pb_tool": zsh,
    "share/completions/pb_tool.fish": fish,
    "share/man/pb_tool.1": man,
}


def main():
    """Writes the files, or tells which are stale."""
    words = [it for it in sys.argv[1:] if it != "--check"]
    if len(words) != 1:
        sys.exit(__doc__)
    commands, own = commands_of(words[0])
    stale = []
    for name, make in FILES_WRITTEN.items():
        text, path = make(commands, own), f"{TOP}/{name}"
        if not os.path.exists(path) or open(path, encoding="utf-8").read() != text:
            stale.append(name)
            if "--check" not in sys.argv:
                os.makedirs(os.path.dirname(path), exist_ok=True)
                open(path, "w", encoding="utf-8").write(text)
    for name in stale:
        print(f"{name}: {'stale' if '--check' in sys.argv else 'written'}")
    sys.exit(1 if stale and "--check" in sys.argv else 0)


if __name__ == "__main__":
    main()
