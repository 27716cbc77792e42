"""The records of the claims in examples/, one claim after another and again from the first. The benches of large files import it."""
import itertools
import pathlib

TOP = pathlib.Path(__file__).resolve().parent.parent
CLAIM = TOP / "examples/phenoxy_acids/claim.rgf"


def example_records():
    return [text + "$$$$\n" for file in sorted(TOP.glob("examples/*/compounds.sdf")) for text in file.read_text(encoding="utf-8").split("$$$$\n")[:-1]]


def put(path, records, count):
    """Writes a file of the next so many records."""
    with open(path, "w", encoding="utf-8") as out:
        out.writelines(itertools.islice(records, count))
