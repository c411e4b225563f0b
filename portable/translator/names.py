"""Names the functions of mscp.c as their sources do, and says where those stand.

A function of the module is named mscp_queue::candidates::Candidates::serve, or of a trait
mscp_queue::picker::SweepPicker::pick. One for some types has these behind it. In C it is Candidates_serve, with a number
behind that if another one has that name already."""

import re

from .wasm import Refusal

GENERIC = re.compile(r"::<.*")
EXPORT = "rattle::export "


def parts_of(name):
    """The words of a path, without the types that a function or a type is for."""
    return [it.split("+")[0] for it in GENERIC.sub("", name.removeprefix(EXPORT)).split("::")]


def path_of(name):
    """The same with the crate, which the function of a call hasn't before it."""
    return (["mscp_c"] if name.startswith(EXPORT) else []) + parts_of(name)


def in_c(name):
    """Its last two words as one name of C. The function of a call of mscp.h has that call's, behind a word."""
    if name.startswith(EXPORT):
        return "export_" + name.removeprefix(EXPORT)
    return re.sub(r"\W", "_", "_".join(parts_of(name)[-2:])).strip("_")


class Sources:
    """The sources in crates/NAME/src below this folder."""

    def __init__(self, folder):
        self.folder, self.texts = folder, {}

    def lines(self, path):
        if path not in self.texts:
            self.texts[path] = path.read_text(encoding="utf-8").split("\n")
        return self.texts[path]

    def place(self, name):
        """Where a function stands: its file, and the line. It is the kit's if its crate isn't among the sources."""
        crate, *words = path_of(name)
        top = self.folder / crate / "src"
        if not words or not top.is_dir():
            return "of the kit"
        *modules, function = words
        of = modules.pop() if modules and modules[-1][0].isupper() else None
        found = self.search(self.files(top, modules), function, of)
        if found is None:
            raise Refusal(f"no source has {name}")
        return f"crates/{found[0].relative_to(self.folder)}:{found[1]}"

    @staticmethod
    def files(top, modules):
        """Those of a module, then those of its parts, and then all others, as what a type has may stand anywhere."""
        at = top.joinpath(*modules)
        near = [it for it in [at.with_suffix(".rt")] if modules and it.exists()] + (sorted(at.rglob("*.rt")) if modules else [])
        return near + [it for it in sorted(top.rglob("*.rt")) if it not in near]

    def search(self, paths, function, of):
        """The first that has this function, of a type if one is named."""
        said = re.compile(rf'\s*(pub(\(\w+\))? )?(const )?(extern "C" )?fn {function}\b')
        for path in paths:
            head = ""
            for number, line in enumerate(self.lines(path), 1):
                head = line if re.match(r"impl\b|\w", line) and not said.match(line) else head
                if said.match(line) and (line[0] != " " if of is None else is_of(head, of)):
                    return path, number
        return None


def is_of(head, name):
    """Whether an impl is that of a type, or of a trait for a type, by this name."""
    words = re.findall(r"\w+", re.sub(r"<[^>]*>", "", head))
    return words[:1] == ["impl"] and (words[1:2] == [name] or (words[2:3] == ["for"] and words[3] + words[1] == name))


class Names:
    """The names of functions in C, each given once, and a comment on each."""

    def __init__(self, told, folder):
        self.told, self.sources, self.taken = told, Sources(folder), set()

    def name(self, number):
        """That of a function of the module, of which the first with a name gets it alone."""
        base = in_c(self.told[number]) if number in self.told else f"f{number}"
        name, count = base, 1
        while name in self.taken:
            count += 1
            name = f"{base}_{count}"
        self.taken.add(name)
        return name

    def comment(self, number):
        """Which function it is, and where that stands; nothing of one without a name."""
        name = self.told.get(number)
        if name is None:
            return []
        return [f"/* {'::'.join(path_of(name))}, {self.sources.place(name)} */"]
