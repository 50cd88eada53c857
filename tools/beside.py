#!/usr/bin/env python3
"""Writes what is installed beside the program, from the usage that it prints, which goes by the table of its language: completions for
bash and zsh, and the manual page, whose commands and options fill the gaps of docs/cha.1.in.

    tools/beside.py PROGRAM FOLDER
    tools/beside.py --check FOLDER      bash and the files are asked for the options of each command of docs/MANUAL.md
"""
import os
import re
import subprocess
import sys

TOP = os.path.dirname(os.path.dirname(os.path.abspath(__file__)))

BASH = """\
# Completion of the words of cha for bash: source this file. Written by tools/beside.py from `cha --help`.
_cha() {{
    local word=${{COMP_WORDS[COMP_CWORD]}} before=${{COMP_WORDS[COMP_CWORD - 1]}} command=${{COMP_WORDS[1]}} words=
    if [ "$COMP_CWORD" -eq 1 ]; then
        words='{commands}'
    elif [[ ! $before =~ ^({numbers})$ ]]; then
        case $command in
{cases}        esac
    fi
    mapfile -t COMPREPLY < <(compgen -W "$words" -- "$word")
}}
complete -F _cha cha
"""

ZSH = """\
#compdef cha
# Completion of the words of cha for zsh: put this file into a folder of $fpath. Written by tools/beside.py from `cha --help`.
if (( CURRENT == 2 )); then
    local -a commands
    commands=(
{commands}    )
    _describe 'command' commands
else
    shift words
    (( CURRENT-- ))
    case $words[1] in
{cases}    esac
fi
"""

# The options of a command, as bash is asked for them: the words that may stand behind it.
ASK = 'source "$0"; COMP_WORDS=(cha "$1" ""); COMP_CWORD=2; _cha; printf "%s\\n" "${COMPREPLY[@]}"'


def table(usage):
    """The commands of a usage: the name of each, what it does, and its further words and options as (name, whether a number follows, what it is)."""
    found = []
    for line in usage.splitlines():
        command = re.match(r"cha (\w+): (.*)", line)
        word = re.match(r"    (--[\w-]+|[A-Z]+)( N)?: (.*)", line)
        if command:
            found.append((command[1], command[2], []))
        elif word:
            found[-1][2].append((word[1], bool(word[2]), word[3]))
    return found


def is_option(name):
    return name.startswith("--")


def choices(what):
    """The words that a further word can be, where it is one of a few."""
    return re.fullmatch(r"(\w+) or (\w+)", what)


def for_bash(commands):
    cases = ""
    for name, _, words in commands:
        given = [it for word, _, what in words for it in ([word] if is_option(word) else choices(what).groups() if choices(what) else [])]
        if given:
            cases += f"            {name}) words='{' '.join(given)}' ;;\n"
    numbers = sorted({word for _, _, words in commands for word, has_number, _ in words if has_number})
    return BASH.format(commands=" ".join(name for name, _, _ in commands), numbers="|".join(numbers), cases=cases)


def for_zsh(commands):
    def quoted(text):
        return "'" + text.replace("'", "'\\''") + "'"

    def one(place, word, has_number, what):
        if not is_option(word):
            listed = choices(what)
            return quoted(f"{place}:{word.lower()}:" + (f"({listed[1]} {listed[2]})" if listed else ""))
        return quoted(f"{word}[{what.replace(':', ',')}]" + (":number:" if has_number else ""))

    cases = ""
    for name, _, words in commands:
        if words:
            given = " ".join(one(place, *word) for place, word in enumerate(words, 1))
            cases += f"        {name}) _arguments {given} ;;\n"
    listed = "".join(f"        {quoted(name + ':' + about.replace(':', ','))}\n" for name, about, _ in commands)
    return ZSH.format(commands=listed, cases=cases)


def synopsis(commands):
    """The commands of the manual page, each with its further words and its options."""
    lines = []
    for name, _, words in commands:
        lines += [".Nm", f".Cm {name}"]
        for word, has_number, what in words:
            listed = choices(what)
            if is_option(word):
                lines.append(f".Op Fl {word[1:]}" + (" Ar n" if has_number else ""))
            else:
                lines.append(f".Cm {listed[1]} | {listed[2]}" if listed else f".Ar {word.lower()}")
    return "\n".join(lines)


def options(commands):
    """The options of the manual page. Where the numbers of one are not the same for all commands, those of the first stand first."""
    of = {}
    for name, _, words in commands:
        for word, has_number, what in words:
            if is_option(word):
                numbers, text = what.split(": ", 1) if has_number else ("", what)
                of.setdefault(word, (text, {}))[1].setdefault(numbers, []).append(name)
    lines = []
    for word, (text, numbers) in of.items():
        (first, _), *others = numbers.items()
        lines += [f".It Fl {word[1:]}" + (" Ar n" if first else ""), text + (f": {first}" if first else "") + (";" if others else ".")]
        for place, (other, names) in enumerate(others, 1):
            lines += ["for", *[f".Cm {name}" for name in names], other + (";" if place < len(others) else ".")]
    return "\n".join(lines)


def page(commands):
    text = open(f"{TOP}/docs/cha.1.in", encoding="utf-8").read()
    return text.replace("@SYNOPSIS@", synopsis(commands)).replace("@OPTIONS@", options(commands))


def write(program, folder):
    commands = table(subprocess.run([program, "--help"], stdin=subprocess.DEVNULL, stderr=subprocess.PIPE, text=True).stderr)
    if not commands:
        return f"{program} --help prints no command"
    os.makedirs(folder, exist_ok=True)
    for name, text in ("cha.bash", for_bash(commands)), ("_cha", for_zsh(commands)), ("cha.1", page(commands)):
        with open(f"{folder}/{name}", "w", encoding="utf-8") as file:
            file.write(text)
    return None


def by_manual():
    """The options of each command by docs/MANUAL.md."""
    manual = open(f"{TOP}/docs/MANUAL.md", encoding="utf-8").read()
    every = re.findall(r"^\| `(--[\w-]+)", manual, re.M)
    listed = re.search(r"^\| Command \| Which options \|\n((?:\|.*\n)*)", manual, re.M)[1]
    rows = re.findall(r"^\| `(\w+)` \| (.*?)(?:;.*)? \|$", listed, re.M)
    named = {name: re.findall(r"`(--[\w-]+)`", cell) for name, cell in rows}
    return {name: {it for it in every if it not in named[name]} if cell.startswith("all but") else set(named[name]) for name, cell in rows}


def check(folder):
    zsh = open(f"{folder}/_cha", encoding="utf-8").read()
    wrong = run = 0
    for name, wanted in by_manual().items():
        said = subprocess.run(["bash", "-c", ASK, f"{folder}/cha.bash", name], stdout=subprocess.PIPE, text=True).stdout.split()
        line = re.search(rf"^        {name}\) (.*)$", zsh, re.M)
        for shell, got in ("bash", {it for it in said if is_option(it)}), ("zsh", set(re.findall(r"'(--[\w-]+)\[", line[1] if line else ""))):
            run += 1
            if got != wanted:
                wrong += 1
                print(f"{shell}, cha {name}: {sorted(got)} is offered, and the manual has {sorted(wanted)}")
    print(f"{run - wrong} passed, {wrong} failed")
    return 1 if wrong or not run else 0


def main():
    if len(sys.argv) != 3:
        sys.exit("usage: tools/beside.py PROGRAM FOLDER, or tools/beside.py --check FOLDER")
    if sys.argv[1] == "--check":
        return check(sys.argv[2])
    return write(sys.argv[1], sys.argv[2])


if __name__ == "__main__":
    sys.exit(main())
