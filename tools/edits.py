"""The must-fail edits: their text, what each changes, what the places that it names speak of, and the places of a
prover's log. For tools/bundle-edits, tools/check-edits and tools/check-claims.

An edit is a file crates/CRATE/edits/NAME.edit in the form of `rt`: a line "file: PATH" holds for the pairs of lines
"old: TEXT" and "new: TEXT" behind it, and each old text stands once in its file. The name is that of no other edit,
in any crate. A line "refused: PLACE PLACE .." names the places where its fact is looked at. A place is a function
of the crate, as engine/open_end, or a law, as EndLaws:unopened: the file in proofs/ and the law's name. Where it is
a law, a line "fails: .." says a value at which the law is false under the edit. The last step of a function's proof
is not looked at while a function below it is not proved, nor a law while one that its proof cites is not: where the
edit's error stands there, a line "apart: callees" keeps the edit out of bundles that reach one of these.
"""
import functools
import glob
import itertools
import os
import re

ROOT = os.path.join(os.path.dirname(os.path.abspath(__file__)), "..")

# ---- a prover's log

ENTRY = re.compile(r"(?:\S*/)?proofs/(\S+?)\.antt:\d+:\d+: (error|note): ")
FOLLOWS = re.compile(r"was not admitted \(|has no `[^`]*` that can be named|has no field")
UNPROVED = re.compile(r"^fn \w+::(\S+): no proof: .*`search` did not prove")
ANSWERS = re.compile(r"/(?:Answers|Invariants|Proof)$")


def places(log):
    """The places of a log that have an error of their own, in their order. An error that only follows from another
    one is none, nor one that only says that a proof names a place which the code does not have."""
    found, lines = [], log.splitlines()
    for number, line in enumerate(lines):
        entry, unproved = ENTRY.match(line), UNPROVED.match(line)
        own = None
        if entry and entry.group(2) == "error":
            if not line.startswith("`", entry.end()):
                continue  # "2 declarations that depend on `x` were not checked"
            law, _, text = line[entry.end() + 1 :].partition("`")
            more = itertools.takewhile(lambda next: next.startswith(" "), lines[number + 1 :])
            if not FOLLOWS.search(" ".join([text, *more])):
                file = ANSWERS.sub("", entry.group(1))
                own = file if entry.group(1) != file else f"{file}:{law}"
        elif unproved:
            own = unproved.group(1).replace("::", "/")
        if own and own.replace("+", "") not in found:
            found.append(own.replace("+", ""))
    return found


# ---- the text of a crate

WORD = r"[^\W\d][\w'-]*"
NAMED = re.compile(r"\bcrate::proofs::(\w+)::(\w+)")  # the laws that an attribute names for the search
FUNCTION = re.compile(r"( *)(?:pub(?:\(crate\))? )?(?:extern \"C\" )?fn (\w+)")
TRAIT = re.compile(r"(?:pub(?:\(crate\))? )?trait (\w+)")
# an impl: its parameters, of a trait and of what, for which type with which parts
METHODS = re.compile(r"impl(<[^>]*>)? (?:(\w+)(<.*>)? for )?(\w+)(?:(<.*>) \{)?")
MARKS = r"(?:(?:abbrev|unfoldable|opaque|pub) )*"
NAME = r"(?:«[^»]+»|" + WORD + r"|◌[^\s(){}]+◌)"
DECLARED = re.compile(r" *" + MARKS + r"(?:(?:data|record) (" + NAME + r")(?: .*)?|(" + NAME + r"(?: " + NAME + r")*)) :(?: |$)")
IMPORT = re.compile(r" *(?:pub )?(?:ghost )?(?:use|mod) ")
OTHERS = re.compile(r"(?m)^(?:ghost )?use Rattle\.(\w+)\.[\w.]+\.\{([^}]*)\}")
MARKED = re.compile(r" *(?:pub )?(?:abbrev|unfoldable|opaque|data|record) ")


def words(text, fields=False):
    """The names of a text, and its signs, without comments and, unless they are asked for, without fields, as in
    `e.phase` and `(f x).phase`."""
    text = re.sub(r"(?m)--.*$|//.*$", "", text)
    if not fields:
        text = re.sub(r"(?:(?<![\w.'-])([a-z][\w'-]*)|(\)))(?:\.[\w«»'-]+)+", r"\1\2", text)
    return set(re.findall(r"(?<![\w'-])" + WORD, text)) | set(re.findall(r"[^\s\w(){}\[\],;.:«»'\"]+", text))


def of_others(text, own):
    """The names that a file of code takes from another crate's specifications, by their own names: in its contracts
    they are no definition of this crate, whatever is called so here."""
    others = [names for crate, names in OTHERS.findall(text) if crate not in (own, "std")]
    return {name.strip() for names in others for name in names.split(",") if " as " not in name}


def implemented(own, trait, of, kind, parts):
    """How the prover names an impl: after its type, or after the type and the trait with all their parts but the impl's
    own parameters, as SparkleVariantTryFromU8."""
    text = f"{kind} {parts or ''} {trait} {of or ''}" if trait else kind
    words = re.findall(r"(?<!')\b\w+", text.replace("()", "Unit"))
    own = re.findall(r"(\w+)(?::[^,>]*)?[,>]", own or "")
    return "".join(word[:1].upper() + word[1:] for word in words if word not in own)


def indent(line):
    return len(line) - len(line.lstrip(" "))


class Crate:
    """A crate's files, its functions by place, its definitions by name, and what its lines belong to."""

    def __init__(self, name):
        self.name, self.files, self.functions = name, {}, {}
        self.definitions, self.renamed = {}, {}
        self.proofs = {}  # a law's place -> its statement and its proof
        self.owners = {}  # (file, line) -> what a change of that line changes
        for part in ("src", "specs", "proofs"):
            for path in sorted(glob.glob(f"crates/{name}/{part}/**/*", recursive=True)):
                if path.endswith((".rt", ".antt")):
                    with open(path, encoding="utf-8") as file:
                        self.files[path.split("/", 2)[2]] = file.read()
        for path, text in self.files.items():
            (self.read_code if path.endswith(".rt") else self.read_text)(path, text.splitlines(), of_others(text, name))
            for old, new in re.findall(r"(" + WORD + r") as (" + WORD + r")", text):
                self.renamed.setdefault(new, set()).add(old)

    def read_code(self, path, lines, others):
        """Each function's contract and body. The ghost members of an impl are in the contracts of its functions. What
        stands outside belongs to the file."""
        module = path.removeprefix("src/").removesuffix(".rt")
        module = "" if module in ("lib", "main") else module + "/"
        kind, place, depth, closing, named = "", None, 0, "", []
        member, ghosts, ghost = "", [], 0  # the ghost members of an impl, what their lines change, braces that are open
        for number, line in enumerate(lines):
            head = line if line.endswith("{") else " ".join(text.strip() for text in lines[number : number + 3])
            found, methods = FUNCTION.match(line), METHODS.match(head) if line.startswith("impl") else None
            if methods:
                kind, member, ghosts = implemented(*methods.groups()) + "/", "", []
            elif place is None and TRAIT.match(line):
                kind, member, ghosts = TRAIT.match(line).group(1) + "/", "", []
            elif line == "}" and place is None:
                kind = ""
            if place is None and kind and (ghost or re.match(r" *ghost \w+(?: = |: )", line)):
                ghost += line.count("{") - line.count("}")
                member += line + "\n"
                self.owners[path, number] = ghosts
                continue
            if place is None and found:
                closing, place, declared = found.group(1) + "}", module + (kind if found.group(1) else "") + found.group(2), True
                self.functions[place] = {"contract": "", "body": "", "others": others, "laws": named}
                if kind and found.group(1) and member:
                    self.functions[place]["contract"] = member
                    ghosts.append(("contract", place))
            if place is None or line.lstrip().startswith("#["):
                named = NAMED.findall(line) if line.lstrip().startswith("#[") else []
            if place is None:
                self.owners[path, number] = [] if IMPORT.match(line) else [("file", path)]
                continue
            contract = depth > 0 or re.match(r" *(requires|ensures)(?: \w+)? \{", line)
            depth += (line.count("{") - line.count("}")) if contract else 0
            part = "contract" if contract else "body"
            self.functions[place][part] += line + "\n"
            self.owners[path, number] = [(part, place)]
            declared = declared and not (line.endswith("{") and not contract)  # so far: a trait's function has no body
            if line == closing or declared and depth == 0 and line.endswith(";"):
                place = None

    def read_text(self, path, lines, _):
        """The definitions of a file: every declaration of specs/, and of proofs/ those that are marked as one. A
        line belongs to all the declarations that it stands in."""
        around = []  # the declarations around a line: depth, names, whether they are definitions
        for number, line in enumerate(lines):
            if not line.strip() or IMPORT.match(line) or line.lstrip().startswith("--"):
                continue
            declared, depth = DECLARED.match(line), indent(line)
            opens = declared or line.lstrip().startswith("module ")
            around = [one for one in around if one[0] < depth or one[0] == depth and not opens]
            if declared:
                names = [name.strip("«»◌") for name in (declared.group(1) or declared.group(2)).split()]
                around.append((depth, names, path.startswith("specs/") or bool(MARKED.match(line))))
            self.owners[path, number] = [("definition", name) for _, names, _ in around for name in names]
            for _, names, _ in around if path.startswith("proofs/") else ():
                for name in names:
                    place = path.removeprefix("proofs/").removesuffix(".antt") + ":" + name
                    self.proofs[place] = self.proofs.get(place, "") + line + "\n"
            for _, names, definition in around:
                for name in names if definition else ():
                    self.definitions[name] = self.definitions.get(name, "") + line + "\n"

    def law(self, file, name):
        """The statement of a law, with the premises of the modules around it."""
        lines = self.files.get(f"proofs/{file}.antt", "").splitlines()
        starts = [n for n, line in enumerate(lines) if re.match(r" *" + MARKS + re.escape(name) + r" :(?: |$)", line)]
        if not starts:
            return None
        depth, text = indent(lines[starts[0]]), lines[starts[0]]
        for line in lines[starts[0] + 1 :]:
            if indent(line) <= depth:
                break
            text += "\n" + line
        for number in range(starts[0] - 1, -1, -1):
            line = lines[number]
            if line.strip().startswith("module ") and indent(line) < depth:
                depth, end = indent(line), number
                while not lines[end].rstrip().endswith("where"):
                    end += 1
                text += "\n" + "\n".join(lines[number : end + 1])
        return text

    def stated(self, file, name):
        """The statement of a law that is named for the search, or of the laws of a set."""
        of = re.search(rf"ruleset {name} = \(?([^)\n]*)", self.files.get(f"proofs/{file}.antt", ""))
        names = [one.strip() for one in of.group(1).split(",")] if of else [name]
        return "\n".join(self.law(file, one) or "" for one in names)

    def leads_to(self, names):
        """The definitions that names lead to."""
        todo, seen = set(names), set()
        while todo:
            word = todo.pop()
            seen.add(word)
            todo |= (words(self.definitions.get(word, "")) | self.renamed.get(word, set())) - seen
        return {("definition", word) for word in seen if word in self.definitions}

    def cited(self, place):
        """The names in a function's contract, without those that are another crate's."""
        return words(self.functions[place]["contract"]) - self.functions[place]["others"]

    def called(self, place):
        """The functions that one calls, by the last part of their names; of a law, the laws that its proof cites."""
        if ":" in place:
            return self.laws_cited(place)
        names = words(self.functions[place]["body"], fields=True)
        return {other for other in self.functions if other != place and other.split("/")[-1] in names}

    def laws_cited(self, place):
        """The laws that a law's proof cites: those of its own file, and those that the file imports."""
        file, names = place.split(":")[0], words(self.proofs.get(place, ""))
        imported = {
            f"{other}:{name.strip()}"
            for other, group in re.findall(rf"Rattle\.{self.name}\.proofs\.(\w+)\.\{{([^}}]*)\}}", self.files.get(f"proofs/{file}.antt", ""))
            for name in group.split(",")
        }
        near = {other for other in self.proofs if other in imported or other.startswith(file + ":")}
        return {other for other in near if other != place and other.split(":")[1] in names}

    @functools.cache
    def speaks_of(self, place):
        """What the statement at a place depends on: definitions, and for a function its body and contract and the
        contracts of what it calls. None where there is no such place."""
        if ":" in place:
            text = self.law(*place.split(":", 1))
            return text and self.leads_to(words(text))
        if place not in self.functions:
            return None
        called, own = self.called(place), self.functions[place]
        names = words(own["body"], fields=True).union(*(self.cited(one) for one in {place} | called))
        found = {("body", place), ("contract", place), *(("contract", other) for other in called)}
        for file, law in own["laws"]:
            found |= self.leads_to(words(self.stated(file, law)))
        return found | self.leads_to(names) | {("file", path) for path in self.files if path.endswith(".rt")}

    @functools.cache
    def below(self, place):
        """The functions that one calls, those that these call, and so on; of a law, the laws that it rests on."""
        todo, seen = self.called(place), set()
        while todo:
            seen.add(one := todo.pop())
            todo |= self.called(one) - seen
        return seen

    def rests_on(self, place):
        """What a function rests on: what it speaks of, and the functions below it."""
        return set().union(*(self.speaks_of(one) for one in {place} | self.below(place)))


# ---- an edit


class Edit:
    def __init__(self, path):
        _, self.crate, _, name = path.split("/")
        self.path, self.name = path, name.removesuffix(".edit")
        self.pairs, self.places, self.fails, self.apart, self.other = [], [], "", False, []
        file, old = None, None
        with open(path, encoding="utf-8") as text:
            self.text = text.read()
        for line in self.text.splitlines():
            key, _, rest = line.partition(": ")
            if key == "file":
                file = rest
            elif key == "old":
                old = rest
            elif key == "new":
                self.pairs.append((file, old, rest))
            elif key == "refused":
                self.places += rest.split()
            elif key == "fails":
                self.fails = rest
            elif line == "apart: callees":
                self.apart = True
            else:
                self.other.append(line)

    def apply(self, files):
        """The files with the edit's replacements, or an exception that says what is wrong."""
        files = dict(files)
        for file, old, new in self.pairs:
            count = files.get(file, "").count(old) if old else 0
            if count != 1:
                raise ValueError(f"{self.path}: '{old}' stands {count} times in {file}")
            files[file] = files[file].replace(old, new)
        return files

    def lines(self, crate):
        """The lines that it changes: (file, number) -> the new line. An edit leaves the number of lines."""
        changed = {}
        for file, text in self.apply(crate.files).items():
            for number, (old, new) in enumerate(zip(crate.files[file].splitlines(), text.splitlines())):
                if old != new:
                    changed[file, number] = new
        return changed

    def changes(self, crate):
        """What it changes: contracts, bodies, definitions. What a file imports is none of these."""
        return {what for at in self.lines(crate) for what in crate.owners.get(at, [])}


def edits(crate):
    return [Edit(path) for path in sorted(glob.glob(f"crates/{crate}/edits/*.edit"))]


def named_twice():
    """The names that edits of all crates share, each with the paths of these edits."""
    found = {}
    for path in sorted(glob.glob("crates/*/edits/*.edit")):
        found.setdefault(os.path.basename(path).removesuffix(".edit"), []).append(path)
    return [(name, paths) for name, paths in found.items() if len(paths) > 1]


def listed():
    """The crates of crates.txt, each with the crates that its line names."""
    found = {}
    with open("crates.txt", encoding="utf-8") as file:
        for line in file:
            if ":" in line and not line.startswith("#"):
                head, _, deps = line.partition(":")
                found[head.split()[0]] = deps.split()
    return found


def below(crate):
    """A crate and those of the repository that it stands on."""
    of, found, todo = listed(), [], [crate]
    while todo:
        name = todo.pop()
        if name in of and name not in found:
            found.append(name)
            todo += of[name]
    return found


def crates():
    """The crates that have edits, in the order of crates.txt."""
    return [name for name in listed() if glob.glob(f"crates/{name}/edits/*.edit")]


def bundles(crate):
    """The bundles of a crate, as they stand: the path of each, and the names of its edits."""
    found = {}
    for path in sorted(glob.glob(f"crates/{crate}/must-fail/*.edit")):
        with open(path, encoding="utf-8") as file:
            found[path] = re.findall(r"^edit: (\S+)$", file.read(), re.MULTILINE)
    return found
