"""Scans: the same hits as a library's, in order, whatever the blocks do; and their end."""
from __future__ import annotations

import concurrent.futures
import gzip
import importlib
import io
import os
import threading
from pathlib import Path
from typing import Any, Callable, List, Tuple

import pytest

from markush import Claim, Library, MarkushError, Refused, scan
from markush.answers import RawHit
from markush.scan import Found, Scan


# the module, whose name in the package is that of its function
MODULE = importlib.import_module("markush.scan")


def raw(hits: Any) -> "List[RawHit]":
    return [RawHit(hit.record, hit.choice, hit.map) for hit in hits]


@pytest.fixture(autouse=True)
def _small_blocks(monkeypatch: pytest.MonkeyPatch) -> None:
    monkeypatch.setattr(MODULE, "_RECORDS", 5)


@pytest.fixture
def wanted(loaded: Library, acids: Claim) -> "List[RawHit]":
    return raw(loaded.search(acids))


class Late:
    """A block that is worked on when it is waited for, and not before."""

    def __init__(self, work: Callable[[], Any], counts: "Counting") -> None:
        self.work, self.counts = work, counts

    def result(self) -> Any:
        self.counts.under_way -= 1
        return self.work()

    def cancel(self) -> bool:
        self.counts.cancelled += 1
        return True


class Counting:
    """An executor by `submit` alone, which counts."""

    def __init__(self, fails: int = 0) -> None:
        self.under_way = self.most = self.cancelled = self.submitted = 0
        self.fails = fails

    def submit(self, work: Callable[..., Any], *words: Any) -> Late:
        self.submitted += 1
        self.under_way += 1
        self.most = max(self.most, self.under_way)
        if self.submitted == self.fails:

            def failing() -> Any:
                raise OSError("no space left on the worker")

            return Late(failing, self)
        return Late(lambda: work(*words), self)


def test_hits_are_those_of_a_library(acids: Claim, acids_sdf: Path, wanted: "List[RawHit]") -> None:
    with scan(acids_sdf, acids) as hits:
        assert raw(hits) == wanted
        assert (hits.records, hits.hits, hits.refused) == (33, len(wanted), [])
        assert hits.bytes_read == acids_sdf.stat().st_size
        assert list(hits) == []


@pytest.mark.parametrize("per", ["record", "map"])
def test_per(acids: Claim, acids_sdf: Path, loaded: Library, per: str) -> None:
    with scan(acids_sdf, acids, per=per) as hits:
        assert raw(hits) == raw(loaded.search(acids, per=per))


def test_pages_that_fill_are_gone_on_with(
    acids: Claim, acids_sdf: Path, wanted: "List[RawHit]", monkeypatch: pytest.MonkeyPatch
) -> None:
    monkeypatch.setattr(MODULE, "_PAGE", 2)
    with scan(acids_sdf, acids) as hits:
        assert raw(hits) == wanted


def test_records_count_over_all_files(acids: Claim, acids_sdf: Path, wanted: "List[RawHit]", tmp_path: Path) -> None:
    packed = tmp_path / "a.sdf.gz"
    packed.write_bytes(gzip.compress(acids_sdf.read_bytes()))
    stream = io.BytesIO(acids_sdf.read_bytes())
    with scan([acids_sdf, packed, stream], acids) as hits:
        shifted = [RawHit(hit.record + add, hit.choice, hit.map) for add in (0, 33, 66) for hit in wanted]
        assert raw(hits) == shifted and hits.records == 99


def test_bad_records_are_passed_over_and_named(acids: Claim, examples: Path) -> None:
    vendor = examples / "vendor" / "vendor.sdf"
    with scan(vendor, acids) as hits:
        found = [hit.record for hit in hits]
        assert hits.records == 9
        assert [(fault.record, fault.code) for fault in hits.refused] == [(4, 3), (6, 2), (7, 3), (8, 2)]
    assert not set(found) & {4, 6, 7, 8}
    with scan(vendor, acids, bad="refuse") as hits:
        with pytest.raises(Refused, match="record 4 'chloromethyl resin'"):
            list(hits)
        assert list(hits) == []


def test_a_claim_that_is_refused_is_so_before_anything_is_read(tmp_path: Path) -> None:
    with pytest.raises(Refused, match="line 4"):
        scan(tmp_path / "none.sdf", Claim("no claim\n\n\n\n"))
    with pytest.raises(TypeError, match="an executor has submit"):
        scan(tmp_path / "none.sdf", Claim.from_list("root C"), executor=3)
    with pytest.raises(ValueError, match="window"):
        scan(tmp_path / "none.sdf", Claim.from_list("root C"), window=0)


@pytest.mark.parametrize("window", [1, 3, 50])
def test_so_many_blocks_are_under_way_and_no_more(
    acids: Claim, acids_sdf: Path, wanted: "List[RawHit]", window: int
) -> None:
    executor = Counting()
    with scan(acids_sdf, acids, executor=executor, window=window) as hits:
        assert raw(hits) == wanted
    assert executor.most == min(window, 7) and executor.submitted == 7 and executor.under_way == 0


def test_a_slow_block_keeps_its_place(acids: Claim, acids_sdf: Path, wanted: "List[RawHit]") -> None:
    """The first block ends behind all the others that the window takes."""
    others = threading.Semaphore(0)

    class Slow(concurrent.futures.ThreadPoolExecutor):
        first = True

        def submit(self, work: Any, *words: Any, **more: Any) -> Any:
            is_first, self.first = self.first, False

            def waits() -> Any:
                if is_first:
                    for _ in range(3):
                        others.acquire()
                found = work(*words)
                if not is_first:
                    others.release()
                return found

            return super().submit(waits)

    with Slow(4) as executor:
        with scan(acids_sdf, acids, executor=executor, window=4) as hits:
            assert raw(hits) == wanted


def test_a_block_that_fails_is_named_and_ends_the_scan(acids: Claim, acids_sdf: Path, wanted: "List[RawHit]") -> None:
    executor = Counting(fails=2)
    with scan(acids_sdf, acids, executor=executor, window=4) as hits:
        found = []
        with pytest.raises(MarkushError, match="the block of the records 6 to 10 failed: no space left on the worker"):
            for hit in hits:
                found.append(hit)
        assert raw(found) == [hit for hit in wanted if hit.record <= 5]
        assert list(hits) == [] and executor.cancelled == 4


def ended(*_: Any) -> None:
    os._exit(1)


def test_a_worker_that_is_killed_ends_the_scan(acids: Claim, acids_sdf: Path, monkeypatch: pytest.MonkeyPatch) -> None:
    monkeypatch.setattr(MODULE, "search_block", ended)
    with concurrent.futures.ProcessPoolExecutor(2) as executor:
        with scan(acids_sdf, acids, executor=executor) as hits:
            with pytest.raises(MarkushError, match="the block of the records 1 to 5 failed"):
                next(hits)


def test_by_processes(acids: Claim, acids_sdf: Path, wanted: "List[RawHit]") -> None:
    with concurrent.futures.ProcessPoolExecutor(2) as executor:
        with scan(acids_sdf, acids, executor=executor) as hits:
            assert raw(hits) == wanted


def test_by_dask(acids: Claim, acids_sdf: Path, wanted: "List[RawHit]") -> None:
    """The workers are threads of this process, so that none has to start in time; that blocks are pickled is tried by processes."""
    from distributed import Client, LocalCluster

    with LocalCluster(n_workers=2, threads_per_worker=1, processes=False, dashboard_address=None) as cluster, Client(cluster) as client:
        with scan(acids_sdf, acids, executor=client.get_executor(), window=3) as hits:
            assert raw(hits) == wanted


def test_closing_ends_what_is_under_way(acids: Claim, acids_sdf: Path) -> None:
    hits = scan(acids_sdf, acids)
    assert next(hits).record == 1
    hits.close()
    hits.close()
    assert list(hits) == [] and hits._live == set()


def test_a_file_that_is_not_there(acids: Claim, tmp_path: Path) -> None:
    with scan(tmp_path / "none.sdf", acids) as hits:
        with pytest.raises(FileNotFoundError):
            next(hits)


# ---- what goes wrong, in its order, by blocks in which each record is a hit


@pytest.fixture
def _each_is_a_hit(monkeypatch: pytest.MonkeyPatch) -> None:
    monkeypatch.setattr(MODULE, "search_block", lambda records, *_: Found(tuple((place, (), (1,)) for place in range(len(records))), ()))


def begun(files: "List[Any]", claim: Claim, executor: Any = None) -> Scan:
    return Scan(files, claim, executor or Counting(), 4, "skip", "choice", None, False)


def numbers_and_fault(hits: Scan) -> "Tuple[List[int], Any]":
    found: List[int] = []
    try:
        for hit in hits:
            found.append(hit.record)
    except Exception as fault:
        return found, fault
    return found, None


@pytest.mark.usefixtures("_each_is_a_hit")
def test_an_executor_that_takes_no_more_ends_the_scan(acids: Claim, acids_sdf: Path) -> None:
    class Broken(Counting):
        def submit(self, work: Callable[..., Any], *words: Any) -> Late:
            if self.submitted == 2:
                raise RuntimeError("a worker was killed")
            return super().submit(work, *words)

    hits = begun([acids_sdf], acids, Broken())
    found, fault = numbers_and_fault(hits)
    assert found == list(range(1, 11)) and isinstance(fault, MarkushError)
    assert str(fault) == f"{acids_sdf}: the block of the records 11 to 15 failed: a worker was killed"
    assert list(hits) == []


@pytest.mark.usefixtures("_each_is_a_hit")
@pytest.mark.parametrize("kind", ["missing", "cut"])
def test_a_file_that_is_not_read_is_told_behind_the_hits_before_it(acids: Claim, acids_sdf: Path, tmp_path: Path, kind: str) -> None:
    second = tmp_path / "second.sdf.gz"
    if kind == "cut":
        second.write_bytes(gzip.compress(acids_sdf.read_bytes())[:-9])
    hits = begun([acids_sdf, second], acids)
    found, fault = numbers_and_fault(hits)
    assert found[:33] == list(range(1, 34)) and found == list(range(1, len(found) + 1))
    if kind == "cut":
        assert isinstance(fault, Refused) and "second.sdf.gz: the packed file is damaged or ends too early" in str(fault)
    else:
        assert isinstance(fault, FileNotFoundError)
    assert list(hits) == []


@pytest.mark.usefixtures("_each_is_a_hit")
def test_an_interrupted_scan_does_not_end_as_if_all_were_read(acids: Claim, acids_sdf: Path, monkeypatch: pytest.MonkeyPatch) -> None:
    read = MODULE.read_records

    def interrupted(file: Any) -> Any:
        for record in read(file):
            if record.number == 13:
                raise KeyboardInterrupt
            yield record

    monkeypatch.setattr(MODULE, "read_records", interrupted)
    hits = begun([acids_sdf], acids)
    with pytest.raises(KeyboardInterrupt):
        next(hits)
    for _ in range(2):
        with pytest.raises(MarkushError, match="interrupted while it read its files"):
            next(hits)
