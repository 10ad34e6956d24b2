# Commands of crates/test_cases, and the lines that it must write for them. Used by cases.py.
import struct

from steps import programme_text

commands, expected = [], []  # what goes to stdin and to stdout


def command(letter, first=0, second=0, data=b""):
    commands.append(letter + struct.pack("<HH", first, second) + data)


def title(text):
    command(b"T", 0, len(text.encode()), text.encode())
    expected.append(text)


def clear():
    command(b"Z")


def build(network, finite=False, answer="A"):
    command(b"B", finite, len(network), network)
    expected.append(answer)


def counted(line):
    command(b"P")
    expected.append(line)


def step(data, answer="A", short=10):
    command(b"S", short, len(data), data)
    expected.append(answer)
    if short < 10:
        expected.append("work 704")  # 16 leaves the work run as it was


def listed(*programme):
    command(b"L")
    expected.extend(programme_text(*programme))


def change(run, at, old, new):
    command({"shape": b"H", "column": b"C", "start": b"R"}[run], at, new)
    expected.append("%s %d %d %d" % (run, at, old, new))
