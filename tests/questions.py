"""What an oracle reads of the program that it answers for: its constants and its calls, not its code."""
import pathlib
import re


class Questions:
    """The questions of crates/PROGRAM: rows of its tables."""

    def __init__(self, program):
        self.source = pathlib.Path(f"crates/{program}/src/main.rt").read_text()

    def constant(self, name):
        found = re.search(rf'^const {name}: .*?b"(.*?)";', self.source, re.M | re.S)
        return bytes.fromhex(found[1].replace("\\x", ""))

    def words(self, name):
        found = re.search(rf"^const {name}: .*?= \[(.*?)\];", self.source, re.M | re.S)
        return [int(n) for n in found[1].replace(",", " ").split()]

    def table(self, name):
        """The rows of a table, in the order of the source."""
        found = re.search(rf"^const {name}: .*?= \[\n(.*?)^\];", self.source, re.M | re.S)
        for row in re.findall(r"^    \((.*)\),$", found[1], re.M):
            yield [int(n, 0) for n in row.split(",")]


def hexed(data):
    return data.hex() or "-"


def bits_of(data):
    return "".join(f"{byte:08b}" for byte in data)
