"""What crates.txt says: each crate with the libraries that its line names."""
import pathlib

FILE = pathlib.Path(__file__).resolve().parent.parent / "crates.txt"


class CrateList:
    """The crates of the repository."""

    def __init__(self, file=FILE):
        lines = [line.partition("#")[0] for line in file.read_text().splitlines()]
        pairs = [(head.split(), tail.split()) for head, colon, tail in (it.partition(":") for it in lines) if colon]
        self.uses = {head[0]: tail for head, tail in pairs}
        self.static = {head[0] for head, _ in pairs if "staticlib" in head}

    def own(self, name):
        """Returns the crates of the repository that the line of a crate names."""
        return [it for it in self.uses[name] if it in self.uses]

    def foreign(self, name):
        """Returns the other libraries that it names."""
        return [it for it in self.uses[name] if it not in self.uses]

    def below(self, name):
        """Returns the crates of the repository that a crate stands on, the lowest first."""
        found = {}
        for one in self.own(name):
            found.update(dict.fromkeys([*self.below(one), one]))
        return list(found)
