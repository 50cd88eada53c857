#!/usr/bin/env python3
"""A second reader of the command words, which compares with `cha` on random lists of words.

    tools/second/words.py [PROGRAM] [COUNT] [SEED]

PROGRAM is the built cha (./cha). Each list is read by this program and given to PROGRAM with an empty input; PROGRAM must end with
status 1 exactly where the list is not in the language. The commands, their options and their numbers are those of the synopsis and of the
tables of docs/MANUAL.md, so a new row there is tried too.
"""

import os
import random
import re
import subprocess
import sys

HERE = os.path.dirname(os.path.abspath(__file__))


def rows(text, first):
    """The cells of the rows whose first cell begins with a word as `first`."""
    return [[cell.strip() for cell in line.strip().strip("|").split(" | ")] for line in text.splitlines() if re.match(rf"\| `{first}", line)]


def by_command(cell):
    """A number of the table by the commands that it is for, under '' the one for all others, as `2; 1 for \`mates\``."""
    number, *others = cell.replace(",", "").split("; ")
    return {"": int(number), **{re.search(r"`(\w+)`", other)[1]: int(other.split()[0]) for other in others}}


def options_of(cell, all_options):
    """The options of a command, by the cell that lists them."""
    listed = re.findall(r"`(--[\w-]+)`", cell)
    return [name for name in all_options if name not in listed] if cell.startswith("all but") else listed


def language():
    """The ranges of the options with a number, the flags, the options of each command, and the further words of each."""
    with open(os.path.join(HERE, "..", "..", "docs", "MANUAL.md"), encoding="utf-8") as file:
        text = file.read()
    options = text[text.index("| Option | From") : text.index("Any other words are refused")]
    listed = rows(options, "--")
    ranges = {row[0][1:-3]: [by_command(cell) for cell in row[1:3]] for row in listed if row[0].endswith(" N`")}
    flags = [row[0][1:-1] for row in listed if not row[0].endswith(" N`")]
    taken = {row[0][1:-1]: options_of(row[1], [*ranges, *flags]) for row in rows(options, r"\w")}
    further = {name: words.split() for name, words in re.findall(r"^    cha (\w+)((?: [A-Zwb|]+)*)(?= [\[<]|$)", text, re.MULTILINE)}
    return ranges, flags, taken, further


RANGES, FLAGS, TAKEN, FURTHER = language()


def number(word, least, most):
    return bool(re.fullmatch("[0-9]{1,20}", word, re.ASCII)) and least <= int(word) <= most


def range_of(command, name):
    least, most = RANGES[name]
    return least.get(command, least[""]), most.get(command, most[""])


def says(what, word):
    """Whether a word is what a further word of the synopsis has to be."""
    if what.isupper():
        return number(word, 0, 2**64 - 1) if what == "SEED" else number(word, 1, 1000)
    return word in what.split("|")


def is_ordered(words):
    """Whether a list of words is in the language."""
    if not words or words[0] not in TAKEN:
        return False
    command, rest, seen, plain = words[0], list(words[1:]), set(), []
    while rest:
        word = rest.pop(0)
        name, equals, value = word.partition("=")
        if word in FLAGS:
            if word in seen or word not in TAKEN[command]:
                return False
            seen.add(word)
        elif word in RANGES or (equals and name in RANGES):
            if not equals:
                if not rest:
                    return False
                value = rest.pop(0)
            if name in seen or name not in TAKEN[command] or not number(value, *range_of(command, name)):
                return False
            seen.add(name)
        else:
            plain.append(word)
    return len(plain) == len(FURTHER[command]) and all(map(says, FURTHER[command], plain))


def random_words():
    """A list of words, of which about a half is in the language."""
    values = ["0", "1", "2", "4", "8", "9", "16", "17", "007", "100000", "100001", "65536", "65537", "", "+1", "x", "00000000000000000002"]
    further = {"SEED": ["0", "7", "18446744073709551615", "18446744073709551616", "-1"], "COUNT": ["1", "2", "0", "1001"], "w|b": ["w", "b", "w", "b", "x"]}
    command = random.choice([*TAKEN, *TAKEN, "Position", "solve"])
    words = [command] + [random.choice(further[what]) for what in FURTHER.get(command, [])]
    if random.random() < 0.05:
        words = random.choice([words[:-1], [*words, "b"]])
    tried = random.choice([[*RANGES, *FLAGS], TAKEN.get(command, [])])
    names, flags = [name for name in RANGES if name in tried], [name for name in FLAGS if name in tried]
    for name in random.choices(names, k=random.choice([0, 0, 1, 1, 2, 3])) if names else []:
        least, most = range_of(command, name)
        value = random.choice([str(least), str(min(most, 4)), random.choice(values)])
        part = random.choice([[name, value], [name + "=" + value]])
        at = random.randint(1, max(1, len(words)))
        words[at:at] = part
    for flag in random.sample(flags, min(len(flags), random.choice([0, 0, 0, 1, 1, 2]))):
        words.insert(random.randint(1, max(1, len(words))), random.choice([flag] * 9 + [flag + "=1"]))
    if random.random() < 0.1:
        words.insert(random.randint(0, len(words)), random.choice(["--certs", "--json", "--", "--help", ""]))
    return words


def main(program, count, seed):
    random.seed(seed)
    good = 0
    for _ in range(count):
        words = random_words()
        ended = subprocess.run([program, *words], stdin=subprocess.DEVNULL, capture_output=True, check=False)
        if (ended.returncode != 1) != is_ordered(words) or (ended.returncode == 1 and ended.stdout):
            print(f"status {ended.returncode} on {words}")
            return 1
        good += is_ordered(words)
    print(f"lists of words: {count}, in the language: {good}, the same answers")
    return 0


if __name__ == "__main__":
    options = sys.argv[1:] + [os.path.join(HERE, "..", "..", "cha"), "1000", "1"][len(sys.argv) - 1:]
    sys.exit(main(options[0], int(options[1]), int(options[2])))
