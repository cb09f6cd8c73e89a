"""The mains of the programs that only move bytes have one text, but for names, and decide nothing (docs/STATEMENTS.md, `shell`): what comes next, from where on a
piece goes on and how much is printed are answers of `shell`, whose contracts say them."""
import pathlib
import re
import sys

FIRST = "ecntable"

# For each other program, what stands in its text in the place of the first one's: its names, the most that a block prints, and what its end is lent.
OTHERS = {
    "ecnforms": (
        ("usage: ecnforms <TRACE >TRACE", "usage: ecntable <TRACE >TABLE"),
        ("ecnforms", "ecntable"),
        ("forms::pieces::Progress", "convert::pieces::Progress"),
        ("const MOST: usize = BLOCK + BLOCK / 4;", "const MOST: usize = 1228;"),
        ("close(s: State, part: &[u8], piece", "close(s: State, piece"),
        ("progress.end(part, transfer", "progress.end(transfer"),
        ("finish(s: State, streams: &mut Streams, name: &[u8], part: &[u8], piece", "finish(s: State, streams: &mut Streams, name: &[u8], piece"),
        ("close(s, part, piece", "close(s, piece"),
        ("finish(s, streams, name, kept, piece", "finish(s, streams, name, piece"),
    ),
    "ecnstreams": (
        ("ecnstreams", "ecntable"),
        ("sources::pieces::Progress", "convert::pieces::Progress"),
        ("close(s: State, label: &[u8], piece", "close(s: State, piece"),
        ("progress.end(label, transfer", "progress.end(transfer"),
        ("finish(s: State, streams: &mut Streams, name: &[u8], label: &[u8], piece", "finish(s: State, streams: &mut Streams, name: &[u8], piece"),
        ("close(s, label, piece", "close(s, piece"),
        ("finish(s, streams, name, kept, piece", "finish(s, streams, name, piece"),
    ),
}

# The programs that copy blocks where they stand, and the functions that each has in the first one's words.
COPYING = ("ecnsalvage", "ecnlabel")
ALIKE = ("close", "finish", "step", "run")

# What a main may hold of tests and sums: the usage line's test, and the number of turns, which ends the loop.
ALLOWED = ("if has_arguments(", "while 0 < turns {", "turns -= 1;")
DECIDES = re.compile(r"\b(?:if|else|while|for)\b|[<>!+*/%^]|(?<!-)-(?!>)|==|&&|\|")


def code(text):
    """A main without its comments, in one line, however it is laid out; the lines that name a library first and in order."""
    text = re.sub(r"//[^\n]*", "", text)
    named = sorted(re.findall(r"^use .*$", text, re.M))
    rest = " ".join(re.sub(r"^use .*$", "", text, flags=re.M).split())
    return "\n".join(named) + "\n" + re.sub(r",? ?([)}\]])", r"\1", re.sub(r"([({\[]) ", r"\1", rest))


def statements(text):
    return re.split(r"(?<=[;{}])", code(text))


def differences(first, other, words):
    other = code(other)
    for its, ours in words:
        if its not in other:
            return [f"has no '{its}'"]
        other = other.replace(its, ours)
    one, two = statements(first), re.split(r"(?<=[;{}])", "\n".join(sorted(other.split("\n")[:-1])) + "\n" + other.split("\n")[-1])
    if len(one) != len(two):
        return [f"has {len(two)} statements, {FIRST} {len(one)}"]
    return [f"has '{b.strip()}' for '{a.strip()}'" for a, b in zip(one, two) if a != b]


def functions(text):
    return dict(re.findall(r"fn (\w+)(.*?)(?=\bfn |$)", code(text).split("\n")[-1]))


def unlike(first, other):
    """The functions of a program that copies which are not the first one's, but for what its call on blocks is lent."""
    one, two = functions(first), functions(other.replace("take(s, streams, name, kept, piece)", "take(s, streams, name, kept, piece, errors)"))
    return [f"has another '{name}' than {COPYING[0]}" for name in ALIKE if one[name] != two[name]]


def decisions(text):
    """What a main decides: each test and each sum outside its constants."""
    text = re.sub(r'b"(?:\\.|[^"\\])*"|const [^;]*;|#!\[[^\]]*\]', "", code(text).split("\n")[-1])
    for allowed in ALLOWED:
        if text.count(allowed) != 1:
            return [f"has '{allowed}' {text.count(allowed)} times"]
        text = text.replace(allowed, "")
    return [f"decides: '{text[max(0, found.start() - 30) : found.end() + 20]}'" for found in DECIDES.finditer(re.sub("[-=]>", "", text))]


# Copies in which one thing is turned: a test that cannot fail tells nothing.
TURNED = (
    ("transfer.rest(piece)", "transfer.left(piece)"),
    ("Turn::Read => State", "Turn::Print => State"),
    (".with_kept(answer, lines);\n    State {\n", ";\n    State {\n"),
    ("finish(s, streams, name, ", "close(s, streams, name, "),
)
DECIDING = (
    ("let used = out.end(lines.len());\n    let taken", "let used = out.used + 1;\n    let taken"),
    ("            Turn::Stop => {\n                return;", "            Turn::Stop => {\n                if name.len() == 0 { return; }\n                return;"),
    ("turns -= 1;", "turns -= 1;\n        turns -= 1;"),
)


# The same of the programs that copy.
TURNED_COPYING = (TURNED[0], TURNED[1], TURNED[3])
DECIDING_COPYING = (("let used = err.end(errors.len());\n    let refused", "let used = err.used + 1;\n    let refused"), *DECIDING[1:])


def broken(name, text, pairs, found):
    for old, new in pairs:
        assert text.count(old) == 1, (name, old)
        if not found(text.replace(old, new)):
            yield f"{name} with '{new}' for '{old}' is not found"


def main():
    crates = pathlib.Path(__file__).resolve().parent.parent / "crates"
    text = {name: (crates / name / "src" / "main.rt").read_text(encoding="utf-8") for name in (FIRST, *OTHERS)}
    wrong = [f"{name} {line}" for name, words in OTHERS.items() for line in differences(text[FIRST], text[name], words)]
    wrong += [f"{name} {line}" for name in text for line in decisions(text[name])]
    for name, words in OTHERS.items():
        wrong += broken(name, text[name], TURNED, lambda copy, words=words: differences(text[FIRST], copy, words))
    for name in text:
        wrong += broken(name, text[name], DECIDING, decisions)
    copying = {name: (crates / name / "src" / "main.rt").read_text(encoding="utf-8") for name in COPYING}
    first = copying[COPYING[0]]
    for name, other in copying.items():
        wrong += [f"{name} {line}" for line in unlike(first, other) + decisions(other)]
        wrong += broken(name, other, TURNED_COPYING, lambda copy: unlike(first, copy))
        wrong += broken(name, other, DECIDING_COPYING, decisions)
    for line in wrong:
        print("mains: FAILED,", line)
    if not wrong:
        copies = len(TURNED) * len(OTHERS) + len(DECIDING) * len(text) + (len(TURNED_COPYING) + len(DECIDING_COPYING)) * len(copying)
        print(f"mains: {len(text)} programs that write anew and {len(copying)} that copy have one text but for names, and decide nothing; {copies} broken copies are found")
    return 1 if wrong else 0


if __name__ == "__main__":
    sys.exit(main())
