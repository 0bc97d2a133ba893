"""The cases of scripts/, as the tools that ask other programs read them; scripts/README.md tells their form."""

import dataclasses
import pathlib
import re

ROOM = pathlib.Path(__file__).resolve().parent.parent / "scripts"


@dataclasses.dataclass
class Case:
    """A case: its name, the words of each of its runs, the lines of its script, each with what it answers, and whether the last one goes on."""

    name: str
    words: list
    lines: list
    is_open: bool = False

    def add(self, text, is_open):
        """Adds a line, or goes on with the last one."""
        if self.is_open:
            self.lines[-1][0] += text
        else:
            self.lines.append([text, []])
        self.is_open = is_open


def cases(*names):
    """The cases of these files of scripts/, of all where none is named."""
    files = [ROOM / name for name in names] or sorted(ROOM.glob("*.txt"))
    return [case for file in files for case in cases_of(file)]


def cases_of(file):
    found = []
    for line in file.read_bytes().decode(errors="replace").split("\n"):
        if line.startswith("== "):
            found.append(Case(line[3:], [], []))
        elif line and not line.startswith("# "):
            take(found[-1], line)
    return found


def lines_of(name):
    return (ROOM / f"{name}.sqla").read_text(encoding="utf-8").splitlines()


def take(case, line):
    """Takes a line of the case."""
    head, _, text = line.partition(" ")
    if head == "$":
        case.words.append(text.split())
    elif head == "<":
        for it in lines_of(text):
            case.add(it, False)
    elif head == "<*":
        times, _, name = text.partition(" ")
        for number in range(1, int(times) + 1):
            for it in lines_of(name):
                case.add(it.replace("%", str(number)), False)
    elif head == ">":
        case.add(text, False)
    elif head == ">*":
        times, _, piece = text.partition(" ")
        case.add(piece * int(times), True)
    elif line.startswith(">~"):
        case.add(line[2:], True)
    elif head not in ("$+", "$?") and case.lines:
        case.lines[-1][1].append(line)


def shown_values(text):
    """The values of a row or of marks, as they are shown; in PostgreSQL a mark's name stands before each."""
    return re.findall(r"(?:\w+=)?(x'[0-9a-f]*'|'(?:[^']|'')*'|null|true|false|-?\d+)", text)


def statements(answers):
    """The statements among answers, each with its shown values, in their order: those that are echoed, or the one that was compiled."""
    found = []
    for line in answers:
        if line.startswith("par> "):
            found[-1][1].extend(shown_values(line[6:-1]))
        elif line.startswith("sql> "):
            found.append((line[5:], []))
        elif re.match(r"(SELECT|INSERT|UPDATE|DELETE|CREATE) ", line):
            found.append((line, []))
    return found
