"""The tries of bench/lint.sh. Each file is written to a folder of its own, as site.xml."""
import ast
import os
import random
import re
import subprocess
import sys
import tempfile
from pathlib import Path
from xml.parsers import expat

TOP = Path(__file__).resolve().parent.parent
sys.path.insert(0, str(TOP / "tools"))
from lint.asking import Program          # noqa: E402
from lint import points                  # noqa: E402
from lint.parts import parts_of          # noqa: E402
from lint.slips import BUILT_IN          # noqa: E402
import lint_others                       # noqa: E402
from metrics import UNITS                # noqa: E402
from site_lint import lint, lint_record, lint_super   # noqa: E402

SIGNS = {"␣": " ", "␉": "\t", "␊": "\n", "␍": "\r", "⏎": "\r\n", "␀": "\0", "␡": "\x7f"}
failed = 0


def judge(holds, text, more=""):
    global failed
    if not holds:
        failed += 1
        print(f"otherwise: {text}{more}")


def bytes_of(text):
    """The bytes that a text of the tables spells: signs for white space, and ‹41*3› for three times the byte 41."""
    text = re.sub("[␣␉␊␍⏎␀␡]", lambda found: SIGNS[found[0]], text)
    pieces = re.split("‹([0-9A-F]+)(?:\\*([0-9]+))?›", text)
    out = pieces[0].encode()
    for digits, times, rest in zip(pieces[1::3], pieces[2::3], pieces[3::3]):
        out += bytes.fromhex(digits) * int(times or 1) + rest.encode()
    return out


def say(data, program):
    """The status, and the lines that the lint prints of a file."""
    Path("site.xml").write_bytes(data)
    return lint("site.xml", program)


def say_case(name, data, program):
    """The same of a case of the table: a site, a config of `super`, or a site and a record."""
    if not name.startswith("record:"):
        Path("site.xml").write_bytes(data)
        return lint_super("site.xml", program, False) if name.startswith("super:") else lint("site.xml", program)
    for file, text in zip(("site.xml", "site.record"), data.split(b"\n=== RECORD\n")):
        Path(file).write_bytes(text)
    return lint_record("site.record", "site.xml", program)


def cases():
    """The cases of the table: a name, a document, a status, and the lines that are wanted."""
    for case in re.split("^### ", (TOP / "bench" / "lint_cases.txt").read_text(), flags=re.M)[1:]:
        name, _, rest = case.rstrip("\n").partition("\n")
        document, _, wanted = rest.rpartition("\n=> ")
        status, *lines = wanted.split("\n")
        yield name, bytes_of(document), int(status), lines


def rows(name):
    table = next((TOP / "crates").glob(f"ob_vectors*/data/{name}"))
    for line in table.read_text().split("\n"):
        if line and not line.startswith("###"):
            text, _, answer = line.partition(" =>")
            yield text, bytes_of(text), answer.strip()


def try_cases(program):
    """With lines of the file and carets where the case has them, else what is said and where alone."""
    count, said = 0, set()
    for name, data, status, wanted in cases():
        came, lines = say_case(name, data, program)
        heads = lines if any(it.startswith("    ") for it in wanted) else [it for it in lines if it.startswith("site.")]
        judge((came, heads) == (status, wanted), name, "\ncame out: " + "\n".join([f"=> {came}", *heads]))
        try_carets(name, data, lines)
        count, said = count + 1, said | {it[0] for it in re.findall(r"\[((?:Value )?(?:Contract )?\w+)(.*)\]$", "\n".join(lines), re.M)}
    print(f"{count} cases; refused for {', '.join(sorted(said))}")


def try_carets(name, data, lines):
    """Where the lines have one byte a character, the caret stands below the character of the place that is told."""
    text = data.decode(errors="replace").removeprefix("\ufeff")
    for head, source, caret in zip(lines, lines[1:], lines[2:]):
        found = re.match(r"site\.xml:(\d+):(\d+): ", head)
        if found and text.isascii():
            line, at = (text.split("\n") + [""])[int(found[1]) - 1].rstrip("\r"), int(found[2]) - 1
            there = line[at:at + 1]
            there = there if there.isprintable() or there == "\t" else "\ufffd"
            judge(source[len(caret) - 1:len(caret)] == there and caret.strip() == "^", f"{name}: the caret of {head}")


def try_rows(program):
    count = 0
    for text, data, answer in (*rows("loads.rows"), *rows("refused.rows")):
        came, lines = say(data, program)
        holds = came < 2 if answer == "opens" else came == 2 and lines[0].endswith(f"[{answer}]")
        judge(holds, f"{text[:200]} => {answer}", f"\ncame out: {came} {lines[0]}")
        count += 1
    for text, data, _ in rows("documents.rows"):
        say(data, program)
        count += 1
    print(f"{count} rows of ob_vectors: refused where the program refuses, with its words")


def try_places():
    """The starts of all tags, as expat tells them, of every document that both take."""
    documents = [it.read_bytes() for it in (TOP / "examples").glob("*.xml")] + [data for _, data, _ in rows("documents.rows")]
    documents += [data for name, data, _, wanted in cases() if not (name.startswith("record:") or any(re.search(r" at \d+\]$", it) for it in wanted))]
    count = 0
    for data in documents:
        starts, reader = [], expat.ParserCreate()
        reader.StartElementHandler = lambda kind, _: starts.append((reader.CurrentByteIndex, reader.CurrentLineNumber, kind))
        try:
            reader.Parse(data, True)
        except expat.ExpatError:
            continue
        parts = [(it.at, data.count(b"\n", 0, it.at) + 1, it.kind) for it in parts_of(data)[0]]
        judge(parts == starts, f"the parts of {data[:200]!r}", f"\ncame out: {parts}\nexpat: {starts}")
        count += len(starts)
    print(f"{count} parts are where expat has them")


def try_altered(program):
    """Files with bytes left out, doubled or altered: the first finding is the program's, and each has a place in the file."""
    draw, files, refused = random.Random(1), [it.read_bytes() for it in sorted((TOP / "examples").glob("*t*.xml"))], 0
    for _ in range(400):
        data = bytearray(draw.choice(files))
        for _ in range(draw.randint(1, 3)):
            at, many = draw.randrange(len(data)), draw.choice((1, 1, 2, 5, 20))
            other = draw.choice((b"<", b">", b'"', b"/", b"&", b"-->", b"\xc3", b"\0", b" x"))
            data[at:at + many] = draw.choice((b"", data[at:at + many] * 2, other))
        came, lines = say(bytes(data), program)
        cause = program.run("stdio", "--", "site.xml")[1]
        holds = came < 2 if cause is None else came == 2 and lines[0].endswith(f"[{cause}]")
        judge(holds, f"an altered file: {bytes(data)!r}", f"\ncame out: {lines[0]}")
        refused += came == 2
    print(f"400 altered files, {refused} of them refused: as the program says")


def start(words, path):
    """Status and standard error of the tool itself, with another path of programs and without a locale."""
    run = subprocess.run([sys.executable, str(TOP / "tools" / "site_lint.py"), *words], capture_output=True, text=True, env={"LC_ALL": "C", "PATH": path})
    return run.returncode, run.stderr


def try_statuses(program):
    Path("site.xml").write_bytes(b'<obj xmlns="http://obix.org/ns/schema/1.0" href="http://h/obix/" is="obix:Lobby"/>')
    Path("-odd.xml").write_bytes(Path("site.xml").read_bytes())
    Path("slow").write_text("#!/bin/sh\nexit 5\n")
    os.chmod("slow", 0o755)
    for status, *words in (
            (0, "site.xml"), (0, "--", "-odd.xml"), (0, "--help"), (3,), (3, "site.xml", "more"), (3, "--none", "site.xml"), (3, "missing.xml"), (3, "."),
            (3, "site.xml", "--obix", "missing"), (3, "site.xml", "--obix", "./slow"), (3, "site.xml", "--obix", ".")):
        words = words if "--obix" in words or not words or words[0] == "--help" else ["--obix", program.path, *words]
        came, said = start(words, os.environ["PATH"])
        judge(came == status and "Traceback" not in said and bool(said) == (status == 3), f"{words} => {status}", f"\ncame out: {came} {said}")
    run = subprocess.run(f"cat site.xml | {sys.executable} {TOP}/tools/site_lint.py /dev/stdin --obix {program.path}", shell=True, capture_output=True)
    judge((run.returncode, run.stdout) == (0, b"/dev/stdin: opens, 0 warnings\n"), "a file through a pipe", f"\ncame out: {run}")
    Path("obix").symlink_to(program.path)
    judge(start(["site.xml"], os.getcwd()) == (0, ""), "the program that is found without --obix")
    if not any((TOP / "out" / it / "obix").is_file() for it in ("bin", "quick")):
        judge(start(["site.xml"], "/nowhere")[0] == 3, "no program")


def try_tables():
    """The built-in contracts are those of docs/PROFILE.md; units that exporter.py converts are known; the tools are of Python 3.9, and
    of at most 250 lines each."""
    table = (TOP / "docs" / "PROFILE.md").read_text().partition("The built-in contracts")[2].partition("Every other word")[0]
    words = {it for row in table.split("\n") if row.startswith("| obix:") for it in re.findall("obix:\\w+", row.split("|")[1])}
    judge(words == {it for it in BUILT_IN if it[5:6].isupper()}, "the built-in contracts", f": {words ^ set(BUILT_IN)}")
    judge(set(UNITS) <= points.UNITS, "the units of exporter.py", f": {set(UNITS) - points.UNITS}")
    for tool in (TOP / "tools" / "site_lint.py", *(TOP / "tools" / "lint").glob("*.py")):
        judge(tool.read_text().count("\n") <= 250, f"{tool} has at most 250 lines")
        ast.parse(tool.read_text(), feature_version=(3, 9))


def main():
    program = Program(str(Path(sys.argv[1]).resolve()))
    with tempfile.TemporaryDirectory(prefix="obix-lint.") as room:
        os.chdir(room)
        try_cases(program)
        try_rows(program)
        try_places()
        try_altered(program)
        try_statuses(program)
        lint_others.try_schedules(program, judge)
        lint_others.try_asking(program, judge)
        lint_others.try_kept(program, judge)
        lint_others.try_altered(program, judge)
        try_tables()
        for example in sorted((TOP / "examples").glob("*.xml")):
            lines = say(example.read_bytes(), program)[1]
            print(f"examples/{example.name}: {next((it for it in lines if ': refused: ' in it), lines[-1]).partition(': ')[2]}")
        os.chdir("/")
    print("as it must be" if not failed else f"{failed} otherwise")
    return 1 if failed else 0


if __name__ == "__main__":
    sys.exit(main())
