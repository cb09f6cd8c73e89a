"""tests/reach.py: what of a crate can see a change, so that tests/edits can try many edits in one check and tell their refusals apart.

Modules: the modules of a checked crate, each with those that it imports or saw, as the checker wrote them down. A function is proved from what the others
promise, so a proof sees its own function's body and no other's.
Files: the files of definitions and laws at the top of specs/ and proofs/, of which copies under other names can stand beside the files themselves.
"""
import os
import re


def read(path):
    with open(path, encoding="utf-8") as file:
        return file.read()


# ---- modules

# What no other function's proof rests on.
OWN = re.compile(r"\.(?:Proof|Answers|Invariants|Goals(?:\..+)?|Given|Lts(?:\..+)?|Tie|Named|Layout|TheLink|Code(?:\..+)?)")


def contract_of(function):
    """The module of the contract of the function whose proof's modules begin so."""
    return function.replace("-proofs.", "-specs.contracts.", 1)


def imports(path):
    """The modules that a checked module imports or saw."""
    found = set()
    with open(path, encoding="utf-8", errors="replace") as lines:
        for line in lines:
            if line.startswith(("--@ import ", "--@ saw ")):
                found.add(line.split()[2])
            elif line.startswith(("--@ stands", "--@ reaches")):
                return found
    return found


def checked(folder):
    """The modules of a folder of checked ones, with their files."""
    return {file[:-6]: os.path.join(folder, file) for file in os.listdir(folder) if file.endswith(".oantt")}


class Modules:
    """The modules of a crate, those of its files of proofs among them, and what each rests on."""

    def __init__(self, crate, folder, texts):
        self.crate, self.texts = crate, texts
        self.edges = {module: imports(path) for module, path in checked(folder).items() if module.startswith(f"Rattle-{crate}-")}
        contracts = [module[:-10] for module in self.edges if module.endswith(".Statement")]
        names = ["/".join(("src." + each.split("-proofs.", 1)[1]).split(".")[-2:]) for each in contracts]
        # By function, as its folder of proofs is named, with the type or the module that it belongs to: how its modules' names begin. None of a name that
        # two have.
        self.functions = {name: each for name, each in zip(names, contracts) if names.count(name) == 1}
        self.all = set(contracts)
        self.owner = {module: self.owned(module) for module in self.edges}
        self.rests = {}

    def owned(self, module):
        """The function that a module belongs to, or nothing."""
        while module and module not in self.all:
            module = module.rpartition(".")[0]
        return module

    def joined(self, changed):
        """The same with what some modules import since they were checked again."""
        other = object.__new__(Modules)
        other.__dict__.update(self.__dict__, edges=dict(self.edges), rests={})
        for module, path in changed.items():
            if module in other.edges:
                other.edges[module] = other.edges[module] | imports(path)
        return other

    def directly(self, module):
        """What a module rests on directly: of a theorem on a function, as others use it, its statement."""
        owner = self.owner[module]
        if owner and module == owner + ".Met":
            return {owner + ".Statement"}
        return {
            other for other in self.edges[module] if other in self.edges
            and (self.owner[other] in ("", owner) or not OWN.fullmatch(other[len(self.owner[other]):]))
        }

    def all_below(self, module):
        """A module and all that it rests on."""
        if module not in self.rests:
            found, todo = {module}, [module]
            while todo:
                new = self.directly(todo.pop()) - found
                found |= new
                todo += new
            self.rests[module] = found
        return self.rests[module]

    def sees(self, module, change):
        """Whether a module can tell a change: (True, the function whose body it is) or (False, the module whose text it is)."""
        body, place = change
        return self.owner.get(module) == place if body else module in self.edges and place in self.all_below(module)

    def judged(self):
        """The modules that an error may be of: laws, and the proofs of functions."""
        return [module for module in self.edges if module == self.owner[module] + ".Proof" or (not self.owner[module] and module in self.texts)]

    def near(self, change):
        """Those of them where an error is looked for first: a function's own proof, or what names the module."""
        body, place = change
        own = place if body else next((each for each in self.all if contract_of(each) == place), "")
        if own:
            return {own + ".Proof"} & self.edges.keys()
        judged = [module for module in self.judged() if self.sees(module, change)]
        return {module for module in judged if place in self.edges[module]} or set(judged)


# ---- files

WORD = re.compile(r"[^\s(){}\[\],;.`\"]+")
FEW = 6  # files that are copied for an edit, where a law needs no more
KEYWORDS = {"pub", "abbrev", "unfoldable", "data", "record", "module", "use"}


def words(text):
    return set(WORD.findall(text))


class Files:
    """The files of definitions and laws of a crate, `specs.NAME` and `proofs.NAME`, with what each uses of the others."""

    def __init__(self, folder):
        self.name = re.compile(rf"Rattle\.{os.path.basename(folder)}\.((?:specs|proofs)\.(\w+))((?:\.[\w-]+)*)")
        self.texts = {
            f"{part}.{file[:-5]}": read(os.path.join(folder, part, file))
            for part in ("specs", "proofs") if os.path.isdir(os.path.join(folder, part)) for file in sorted(os.listdir(os.path.join(folder, part)))
            if file.endswith(".antt") and file != "Lib.antt" and re.search(rf"^(?:pub )?mod {file[:-5]}$", read(os.path.join(folder, part, "Lib.antt")), re.M)
        }
        self.uses = {file: {found.group(1) for found in self.name.finditer(text)} & self.texts.keys() for file, text in self.texts.items()}
        # Those that name something of this crate that is no such file, as a function, of which there can be no copy.
        self.bound = {
            file for file, text in self.texts.items()
            if any(found.group(1) not in self.texts and found.group(2) != "declared" for found in self.name.finditer(text))
        }

    def seeing(self, changed):
        """Files, and all that use them, directly or through others."""
        found = set(changed)
        while more := {file for file in self.texts if file not in found and self.uses[file] & found}:
            found |= more
        return found

    def tried(self, changed):
        """The files to copy where parts of files, (file, where), are changed: the laws that name a definition that is changed, or else that use its file,
        and all between. Nothing where no law can be copied."""
        files = {file for file, _ in changed}
        seeing, free = self.seeing(files), set(files)
        while more := {file for file in seeing - free - self.bound if self.uses[file] & seeing <= free}:
            free |= more
        laws = {file for file in free if file.startswith("proofs.")}
        using = {file for file in laws if self.uses[file] & files}
        naming = {law for law in using for file, at in changed if file in self.uses[law] and self.definition(file, at) in words(self.texts[law])}
        chosen = set()
        for more in sorted((self.with_between(law, seeing) for law in naming or using or laws), key=lambda more: (len(more), sorted(more))):
            if not chosen or len(chosen | more) <= FEW:
                chosen |= more
        return chosen | files if chosen else set()

    def with_between(self, law, seeing):
        """A law, and those of some files that it uses, directly or through others."""
        found = {law}
        while more := {other for file in found for other in self.uses[file] & seeing} - found:
            found |= more
        return found

    def definition(self, file, at):
        """The name that the definition around a place of a file begins with."""
        lines = [line for line in self.texts[file][: self.texts[file].find("\n", at)].splitlines() if line[:1].strip() and not line.startswith("--")]
        return next((word for word in WORD.findall(lines[-1]) if word not in KEYWORDS), "") if lines else ""

    def renamed(self, text, files, suffix):
        """A text that names the copies of some files instead of the files. A file's last name may stand alone before a dot, unless it is that of a type."""
        names = {file.split(".")[1] for file in files} - {word for found in re.findall(r"\{([^{}]*)\}", text) for word in re.split(r"[\s,]+", found)}
        text = re.sub(r"(?<![\w.·-])(\w+)(?=\.[^\s.])", lambda found: found.group(1) + suffix if found.group(1) in names else found.group(1), text)
        return self.name.sub(lambda found: found.group(0)[: found.end(1) - found.start()] + suffix + found.group(3) if found.group(1) in files else found.group(0), text)
