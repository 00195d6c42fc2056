"""How the program is asked about a site file, and what follows from its answers: paths, contracts and roles."""
import re
import shutil
import subprocess
import tempfile
from pathlib import Path
from xml.sax.saxutils import quoteattr

from lint.parts import parts_of


class Trouble(Exception):
    """The program couldn't be asked."""


class Program:
    """The program `obix`: the path that is given, or one that is built beside the tools (proved, or else not), or the one on the PATH."""

    def __init__(self, path):
        built = Path(__file__).resolve().parents[2] / "out"
        beside = [str(it) for it in (built / "bin" / "obix", built / "quick" / "obix") if it.is_file()]
        self.path = path or (beside[0] if beside else shutil.which("obix"))
        if not self.path:
            raise Trouble("no program: none is built beside the tools (./obix builds one), and no obix is on the PATH; say where it is with --obix")

    def run(self, *words, requests=b"", may=()):
        """What it writes, and the refusal that it says, if it does (status 2, and those of `may`); anything else isn't an answer."""
        try:
            run = subprocess.run([self.path, *words], input=requests, capture_output=True, timeout=600)
        except (OSError, ValueError, subprocess.SubprocessError) as fault:
            raise Trouble(f"{self.path}: {getattr(fault, 'strerror', None) or fault}") from None
        said = run.stderr.decode(errors="replace").strip()
        refused = re.search("^obix: (?:refused: )?(.*)$", said, re.M)
        if run.returncode != 0 and not (run.returncode in (2, *may) and refused):
            raise Trouble(f"{self.path} {words[0]}: {said or 'no word'} (status {run.returncode})")
        return run.stdout, refused[1] if run.returncode else None

    def ask(self, site, paths):
        """The objects that the site of a file shows at these paths, as text."""
        requests = "".join(f"GET http://h{it} HTTP/1.1\r\n\r\n" for it in paths).encode()
        out, at, replies = self.run("stdio", site, requests=requests)[0], 0, []
        while at < len(out):
            body = out.index(b"\r\n\r\n", at) + 4
            at = body + int(re.search(rb"Content-Length: (\d+)", out[at:body])[1])
            replies.append(out[body:at])
        return replies

    def resolve(self, root, texts):
        """Where these texts lead, as paths from a root's URL; None where they don't lead to its site. They are asked
        as the hrefs of refs, since the site shows a ref's href as the path that it leads to, and any other as it is."""
        paths = {}
        for first in range(0, len(texts), 50_000):
            some = texts[first:first + 50_000]
            quoted = [quoteattr(it, {"\n": "&#10;", "\r": "&#13;", "\t": "&#9;"}) for it in (root, *some)]
            with tempfile.NamedTemporaryFile("w", suffix=".xml", encoding="utf-8") as file:
                file.write(f'<obj href={quoted[0]}><list href="/texts">{"".join(f"<ref href={it}/>" for it in quoted[1:])}</list></obj>')
                file.flush()
                refs = parts_of(self.ask(file.name, ["/texts"])[0])[0][1:]
            for text, ref in zip(some, refs):
                path = ref.has["href"]
                same = path == text and (text.startswith("//") or "#" in text)
                paths[text] = path if path.startswith("/") and not same else None
        return paths


class Site:
    """The parts of a file that is a document, with the values that the program reads, their paths, contracts and roles."""

    DERIVED = {"obix:Lobby": ["about", "batch", "watchService"], "obix:WritablePoint": ["writePoint"],
               "obix:History": ["count", "start", "end", "query", "feed"], "obix:AlarmSubject": ["count", "query", "feed"]}
    VALUES = "bool int real str enum uri abstime reltime date time".split()

    def __init__(self, copy, data, program):
        self.parts = parts_of(data)[0]
        self.root, self.written = self.parts[0], [it.has for it in self.parts]
        self.kept_sources, self.kept_children, self.kept_nodes, self.kept_ranged = {}, {}, None, None
        read = parts_of(program.run("check", copy)[0])[0]
        if [it.kind for it in read] != [it.kind for it in self.parts]:
            raise Trouble("the program reads other parts in the file than this tool")
        for part, it in zip(self.parts, read):
            part.has = it.has
        self.paths, self.contracts = {}, {}

    def find_paths(self, program):
        """Paths of hrefs, words and ranges, once the root's URL is known to be one."""
        texts = {""} | {text for part in self.parts for text in self.leading(part)}
        self.paths = program.resolve(self.root.has["href"], sorted(texts))
        for part in self.parts:
            if part.kind not in ("ref", "err") and "href" in part.has:
                part.path = self.paths[""] if part is self.root else self.paths[part.has["href"]]
        box = self.root.child("contracts")
        for part in box.children if box else []:
            if part.path is not None:
                self.contracts.setdefault(part.path, part)

    @staticmethod
    def leading(part):
        """The texts of a part that may lead to paths."""
        words = [it for name in ("is", "of", "in", "out") for it in part.words(name)]
        return [it for it in words if not it.startswith("obix:")] + [part.has[it] for it in ("href", "range") if it in part.has]

    def word(self, text):
        """What a word stands for: the path that it leads to, or itself."""
        return text if text.startswith("obix:") else self.paths.get(text) or text

    def words(self, part, name):
        return [self.word(it) for it in part.words(name)]

    # What an object inherits, as far as its roles ask: docs/PROFILE.md, "Contracts".

    def implied(self, part):
        """The words that a list or a feed gives to its children."""
        if part is None or part.kind not in ("list", "feed"):
            return None
        if "of" in part.has:
            return self.words(part, "of")
        return next((it for it in (self.implied(source) for source in self.sources(part)) if it is not None), None)

    def overridden(self, part):
        if part.parent is None or part.name is None:
            return None
        return next((it for it in (self.inherited(source, part.name) for source in self.sources(part.parent)) if it), None)

    def inherited(self, source, name):
        """The child of a name that a source has or inherits: contracts may name one another in many ways, so each is seen once."""
        if (source.number, name) not in self.kept_children:
            left, seen, found = [source], set(), None
            while left and found is None:
                it = left.pop()
                if it.number not in seen:
                    seen.add(it.number)
                    found = it.child(name)
                    left += self.sources(it)[::-1]
            self.kept_children[source.number, name] = found
        return self.kept_children[source.number, name]

    def sources(self, part):
        if part.number not in self.kept_sources:
            own = self.words(part, "is") if "is" in part.has else self.implied(part.parent) or []
            over = self.overridden(part)
            found = [self.contracts[it] for it in own if it in self.contracts] + ([over] if over else [])
            self.kept_sources[part.number] = [] if part.kind == "ref" else found
        return self.kept_sources[part.number]

    def own_words(self, part):
        if "is" in part.has:
            return self.words(part, "is")
        implied, over = self.implied(part.parent), self.overridden(part)
        return implied if implied is not None else self.own_words(over) if over else []

    def is_a(self, part, word):
        seen, left = set(), self.own_words(part)
        while left:
            it = left.pop()
            left += self.words(self.contracts[it], "is") if it in self.contracts and it not in seen else []
            seen.add(it)
        return word in seen

    def has_role(self, part, word):
        if part.inside or part.path is None or (word == "obix:Lobby" and part is not self.root):
            return False
        kinds = self.VALUES if word == "obix:WritablePoint" else ["obj"]
        return part.kind in kinds and self.is_a(part, word)

    def is_dropped(self, part):
        """Whether an own child, or one round it, gives way to what the server makes, or is taken out of the tree."""
        up = part.parent
        return up is not None and (self.is_taken(part) or any(
            part.name in names and self.has_role(up, word) for word, names in self.DERIVED.items()) or self.is_dropped(up))

    def is_taken(self, part):
        """Whether a child is read when the site opens, and isn't shown: records, rules, the texts of About."""
        up = part.parent
        return ((part.name, part.kind) == ("data", "list") and self.has_role(up, "obix:History")
                or (part.name, part.kind) == ("rules", "list") and self.has_role(up, "obix:AlarmSubject")
                or (part.name, part.kind) == ("about", "obj") and up is self.root)

    @property
    def nodes(self):
        """The objects of the site's tree by their paths."""
        if self.kept_nodes is None:
            self.kept_nodes = {it.path: it for it in self.parts if it.path is not None and not self.is_dropped(it)}
        return self.kept_nodes

    def node(self, path, kinds):
        """The node of a path and one of these kinds outside the contracts, as the rules of roles ask for it."""
        found = self.nodes.get(path)
        return found if found and found.kind in kinds and not found.inside else None
