"""Files of compounds: how they are cut, what a judge's answers narrow, and what a fault says."""
import gzip
import io
import lzma
import pickle
import re
from pathlib import Path

import pytest

from markush.answers import read_refusal
from markush.errors import ProgramEnded, Refused
from markush.refusals import record_fault
from markush.records import RecordText, create, judge, open_text, program_judge, read_records, split, split_all

TOP = Path(__file__).resolve().parents[2]
VENDOR = TOP / "examples/vendor/vendor.sdf"
FILES = sorted(TOP.glob("examples/*/*.sdf"))


def record(name: str, symbol: str = "C") -> bytes:
    return f"{name}\n\n\n  1  0\n{'':31}{symbol}\nM  END\n> <ID>\n7\n\n$$$$\n".encode()


@pytest.mark.parametrize("path", FILES, ids=[path.parent.name for path in FILES])
def test_records_are_all_bytes_of_a_file_in_order(path: Path) -> None:
    found = list(read_records(path))
    assert b"".join(it.raw for it in found) == path.read_bytes()
    assert [it.number for it in found] == list(range(1, 1 + len(found)))
    lines = path.read_bytes().split(b"\n")
    assert all(it.raw.split(b"\n", 1)[0] == lines[it.line - 1] for it in found)


def test_names_and_data_of_a_vendors_file() -> None:
    found = list(read_records(VENDOR))
    assert [it.name for it in found][:4] == ["phenoxyacetic acid", "mecoprop-P", "2,4-D", "chloromethyl resin"]
    assert pickle.loads(pickle.dumps(found[1])) == found[1]


@pytest.mark.parametrize("pack", [gzip.compress, lzma.compress], ids=["gz", "xz"])
def test_packed_files_are_told_by_their_bytes(tmp_path: Path, pack) -> None:
    (tmp_path / "packed").write_bytes(pack(VENDOR.read_bytes()))
    assert [it.raw for it in read_records(tmp_path / "packed")] == [it.raw for it in read_records(VENDOR)]
    with open_text(tmp_path / "packed") as file:
        assert file.read().encode() == VENDOR.read_bytes()
    (tmp_path / "cut").write_bytes(pack(VENDOR.read_bytes())[:-30])
    with pytest.raises(Refused, match="damaged or ends too early"):
        list(read_records(tmp_path / "cut"))


def test_a_stream_is_read_too() -> None:
    assert [it.name for it in read_records(io.BytesIO(record("a") + record("b")))] == ["a", "b"]


# the bytes, and the names of the records that they are cut into
CUTS = [
    ("nothing", b"", []),
    ("blank lines alone", b"\n \n\n", []),
    ("no separator behind the last", record("a") + record("b")[:-5], ["a", "b"]),
    ("blank lines behind the last", record("a") + b"\n\n", ["a"]),
    ("a name that looks like a separator", record("a") + record("$$$$") + record("b"), ["a", "$$$$", "b"]),
    ("a name that begins like one", record("$$$$ 7") + record("b"), ["$$$$ 7", "b"]),
    ("a separator in the text of an alias", record("a").replace(b"M  END", b"A    1\n$$$$\nM  END") + record("b"), ["a", "b"]),
    ("a separator with words behind it", record("a").replace(b"$$$$", b"$$$$ end") + record("b"), ["a", "b"]),
    ("a record without a table", b"a\n$$$$\n" + record("b"), ["a", "b"]),
    ("CR at the ends", (record("a") + record("b")).replace(b"\n", b"\r\n"), ["a", "b"]),
    ("Latin-1", record("a").replace(b"a\n\n\n", b"\xb5\n\n\n"), ["\xb5"]),
]


@pytest.mark.parametrize("what, data, names", CUTS, ids=[what for what, *_ in CUTS])
def test_how_a_file_is_cut(tmp_path: Path, what: str, data: bytes, names: list) -> None:
    (tmp_path / "file.sdf").write_bytes(data)
    found = list(read_records(tmp_path / "file.sdf"))
    assert [it.name for it in found] == names
    assert not names or b"".join(it.raw for it in found) == data


def test_a_record_that_lies_across_the_pieces_that_are_read(tmp_path: Path, monkeypatch) -> None:
    data = b"".join(record(f"{n}") for n in range(50)) + record("$$$$") + record("z")
    (tmp_path / "file.sdf").write_bytes(data)
    for size in (1, 7, 64, 1000):
        monkeypatch.setattr("markush.records.CHUNK", size)
        assert [it.name for it in read_records(tmp_path / "file.sdf")] == [f"{n}" for n in range(50)] + ["$$$$", "z"]


class Stub:
    """A judge that takes records of carbon, and answers as the program does."""

    def __init__(self) -> None:
        self.runs, self.blocks = 0, 0

    def __call__(self, blocks):
        self.runs += 1
        self.blocks += len(blocks)
        return [self.answer(block) for block in blocks]

    def answer(self, block: bytes) -> bytes:
        symbols = [line[31:34].strip() for line in block.split(b"\n") if line.startswith(b" " * 31)]
        at = next((n for n, line in enumerate(block.split(b"\n"), 1) if line.startswith(b" " * 31 + b"?")), None)
        if at:
            return f"refused 2 molecules line {at}\n".encode()
        bad = next((n for n, symbol in enumerate(symbols, 1) if symbol != b"C"), None)
        return f"refused 3 molecules record {bad} check V1 item 1\n".encode() if bad else f"loaded {block.count(b'M  END')} first 1\n".encode()


def test_a_judge_is_asked_over_blocks_and_each_bad_record_is_found() -> None:
    symbols = ["C"] * 1000
    for at in (0, 57, 58, 59, 60, 500, 999):
        symbols[at] = "R1"
    for at in (3, 61, 998):
        symbols[at] = "?"
    stub = Stub()
    records = [RecordText(n, record(f"n{n}", symbol), 1) for n, symbol in enumerate(symbols, 1)]
    told = list(judge(records, stub, "file.sdf"))
    assert [it.number for it, _ in told] == list(range(1, 1001))
    assert [it.number for it, fault in told if fault] == [n for n, symbol in enumerate(symbols, 1) if symbol != "C"]
    assert stub.runs <= 8 and stub.blocks < 100
    fault = next(fault for it, fault in told if it.number == 501)
    assert str(fault) == "atom 1 has the symbol R1, which is no element; file.sdf, record 501 'n501', line 5"
    assert (fault.record, fault.line, fault.atom, fault.name, fault.code) == (501, 5, 1, "n501", 3)


def test_many_records_with_one_bad_in_a_hundred_take_few_runs_of_the_program(tmp_path: Path) -> None:
    good = [it.raw for path in sorted(TOP.glob("examples/*/compounds.sdf")) for it in read_records(path)]
    bad = [
        record("an R group", "R1"), good[0].replace(b"V2000", b"V2O00"), good[0].replace(b"M  END\n", b""), b"no table\n$$$$\n",
        [it.raw for it in read_records(VENDOR)][3],
    ]
    pieces = [bad[n // 100 % 5] if n % 100 == 50 else good[n % len(good)] for n in range(12_500)]
    (tmp_path / "many.sdf").write_bytes(b"".join(pieces))
    ask, runs, handed = program_judge(), [], []

    def counted(blocks):
        runs.append(len(blocks))
        handed.append(sum(map(len, blocks)))
        return ask(blocks)

    done = split(tmp_path / "many.sdf", tmp_path / "good.sdf", tmp_path / "bad.sdf", counted)
    assert [fault.record for fault in done.refused] == list(range(51, 12_501, 100)) and done.taken == 12_375
    assert (tmp_path / "good.sdf").read_bytes() == b"".join(it for n, it in enumerate(pieces) if n % 100 != 50)
    assert (tmp_path / "bad.sdf").read_bytes() == b"".join(pieces[50::100])
    # each record is read by the program about twice, and not once for each bad one
    assert len(runs) <= 5 and sum(runs) < 800 and sum(handed) < 2.5 * sum(map(len, pieces))


def test_the_program_judges_as_it_loads() -> None:
    told = list(judge(read_records(VENDOR), None, "vendor.sdf"))
    bad = [(it.number, str(fault)) for it, fault in told if fault]
    answers = program_judge()([it.raw for it in read_records(VENDOR)])
    assert [number for number, _ in bad] == [n for n, answer in enumerate(answers, 1) if not answer.startswith(b"loaded 1 ")]
    assert bad[0] == (4, "atom 1 has the symbol R, which is no element; vendor.sdf, record 4 'chloromethyl resin', line 124")


def test_a_split_leaves_each_byte_in_one_of_two_files(tmp_path: Path) -> None:
    done = split(VENDOR, tmp_path / "good.sdf", tmp_path / "bad.sdf.gz")
    good = (tmp_path / "good.sdf").read_bytes()
    with gzip.open(tmp_path / "bad.sdf.gz") as file:
        bad = file.read()
    pieces = [it.raw for it in read_records(VENDOR)]
    refused = {fault.record for fault in done.refused}
    assert good == b"".join(it for n, it in enumerate(pieces, 1) if n not in refused)
    assert bad == b"".join(it for n, it in enumerate(pieces, 1) if n in refused)
    assert (done.records, done.taken) == (9, 9 - len(refused)) and len(refused) == 4


def test_several_files_are_split_at_a_time(tmp_path: Path) -> None:
    jobs = [(path, tmp_path / f"{number}.good", tmp_path / f"{number}.bad") for number, path in enumerate(FILES)]
    done = split_all(jobs, workers=4)
    assert [it.records for it in done] == [len(list(read_records(path))) for path in FILES]
    assert all(good.stat().st_size + bad.stat().st_size == path.stat().st_size for path, good, bad in jobs)


def test_two_splits_into_one_file_are_refused_before_anything_is_written(tmp_path: Path) -> None:
    jobs = [(path, tmp_path / f"{number}.good", tmp_path / "bad") for number, path in enumerate(FILES)]
    with pytest.raises(Refused, match="bad would be written twice$"):
        split_all(jobs)
    (tmp_path / "one.sdf").write_bytes(record("a"))
    with pytest.raises(Refused, match="one.sdf would be written while it is read$"):
        split_all([(VENDOR, tmp_path / "good", tmp_path / "one.sdf"), (tmp_path / "one.sdf", tmp_path / "g", tmp_path / "b")])
    assert [path.name for path in tmp_path.iterdir()] == ["one.sdf"] and (tmp_path / "one.sdf").read_bytes() == record("a")


def test_a_split_into_its_own_file_is_refused(tmp_path: Path) -> None:
    with pytest.raises(Refused, match="have to be three"):
        split(VENDOR, tmp_path / "one", tmp_path / "one")
    assert not (tmp_path / "one").exists()


def test_a_program_that_ends_is_an_error(tmp_path: Path) -> None:
    program = tmp_path / "program"
    program.write_text("#!/bin/sh\necho broken >&2\nexit 4\n")
    program.chmod(0o755)
    with pytest.raises(ProgramEnded, match="status 4 while records were tried: broken") as told:
        program_judge(program)([record("a")])
    assert told.value.status == 4


def test_a_list_of_smiles_is_records(tmp_path: Path) -> None:
    (tmp_path / "list.smi").write_text("# compounds\nCCO ethanol\nc1ccccc1O\tphenol\tC6H6O\n\nCC(C\tnone\n")
    told = list(judge(read_records(tmp_path / "list.smi"), Stub(), "list.smi"))
    assert [(it.number, it.line) for it, _ in told] == [(1, 2), (2, 3), (3, 5)]
    assert [it.name for it, _ in told[:2]] == ["ethanol", "phenol"]
    assert str(told[2][1]) == "RDKit doesn't read the SMILES CC(C; list.smi, record 3 'none', line 5"


def test_files_are_packed_by_their_names(tmp_path: Path) -> None:
    for name in ("a.sdf", "a.sdf.gz", "a.sdf.xz"):
        with create(tmp_path / name) as file:
            file.write(record("a"))
        assert [it.name for it in read_records(tmp_path / name)] == ["a"]


# what is wrong, the record's bytes, the program's answer, what the message says, and its line
FAULTS = [
    ("no element", record("a", "R#"), "refused 3 molecules record 1 check V1 item 1", "atom 1 has the symbol R#, which is no element", 5),
    ("capitals", record("a", "CL"), "refused 3 molecules record 1 check V1 item 1", "no element; write Cl", 5),
    ("type 9", b"a\n\n\n  2  1\n" + (b" " * 31 + b"C\n") * 2 + b"  1  2  9\nM  END\n", "refused 3 molecules record 1 check V3 item 1", "drawn with type 1", 7),
    ("twice", b"a\n\n\n  2  2\n" + (b" " * 31 + b"C\n") * 2 + b"  1  2  1\n  2  1  1\nM  END\n", "refused 3 molecules record 1 check V2 item 2", "as bond 1 does", 8),
    ("beyond", b"a\n\n\n  1  1\n" + b" " * 31 + b"C\n  1  2  1\nM  END\n", "refused 3 molecules record 1 check V2 item 1", "the table has 1 atoms", 6),
    ("a query", record("a").replace(b"M  END", b"M  RGP  1   1   1\nM  END"), "refused 3 molecules record 1 check V7 item 1", "asks something", 6),
    ("a charge", record("a").replace(b"M  END", b"M  CHG  1   1  16\nM  END"), "refused 3 molecules record 1 check V6 item 1", "beyond -15 to 15", 6),
    ("cut", b"a\n\n\n  3  0\n" + b" " * 31 + b"C\n", "refused 2 molecules line 6", "ends too early", 5),
    ("counts", b"a\n\n\nno counts\nM  END\n", "refused 2 molecules line 4", "a counts line is due", 4),
    ("atoms", b"a\n\n\n  2  0\n" + b" " * 31 + b"C\nM  END\n", "refused 2 molecules line 6", "the line of atom 2 is due", 6),
    ("properties", b"a\n\n\n  0  0\nx\nM  END\n", "refused 2 molecules line 5", "a property line or `M  END` is due", 5),
]


@pytest.mark.parametrize("what, raw, answer, words, line", FAULTS, ids=[what for what, *_ in FAULTS])
def test_a_fault_in_words(what: str, raw: bytes, answer: str, words: str, line: int) -> None:
    fault = record_fault(read_refusal(f"{answer}\n".encode()), RecordText(7, raw, 101))
    assert words in str(fault) and fault.line == 100 + line and fault.record == 7
    assert re.search(r"; record 7 'a', line \d+$", str(fault))


@pytest.mark.parametrize("what, raw, answer, words, line", FAULTS, ids=[what for what, *_ in FAULTS])
def test_the_program_answers_so(what: str, raw: bytes, answer: str, words: str, line: int) -> None:
    assert program_judge()([raw]) == [f"{answer}\n".encode()]
