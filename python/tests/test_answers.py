"""The grammar of what the session program writes: what it takes, and what it refuses."""
from __future__ import annotations

import random

import pytest

from markush.answers import (
    BadAnswer,
    BadRow,
    Head,
    HitLines,
    KeptRecords,
    Listing,
    Page,
    RawHit,
    Ready,
    Refusal,
    Shown,
    StructurePage,
    TableAnswer,
    decode,
    read_first,
    read_head,
    read_listing,
    read_loaded,
    read_hit_lines,
    read_page,
    read_refusal,
    read_shown,
    read_structures,
    read_table,
    read_word,
)

REFUSALS = [
    ("refused 1 command", Refusal(1, "command", "refused 1 command")),
    ("refused 2 query line 4", Refusal(2, "query", "refused 2 query line 4", line=4)),
    ("refused 2 query v3000 line 4", Refusal(2, "query", "refused 2 query v3000 line 4", v3000=True, line=4)),
    ("refused 2 molecules line 215", Refusal(2, "molecules", "refused 2 molecules line 215", line=215)),
    (
        "refused 3 query check Q12 table 0 item 2",
        Refusal(3, "query", "refused 3 query check Q12 table 0 item 2", check="Q12", table=0, item=2),
    ),
    (
        "refused 3 molecules record 1 check V1 item 2",
        Refusal(3, "molecules", "refused 3 molecules record 1 check V1 item 2", record=1, check="V1", item=2),
    ),
    ("refused 4 query", Refusal(4, "query", "refused 4 query")),
    ("refused 4 molecules", Refusal(4, "molecules", "refused 4 molecules")),
    ("refused 5 library full", Refusal(5, "library full", "refused 5 library full")),
    ("refused 6 record 2", Refusal(6, "record", "refused 6 record 2", number=2)),
    ("refused 7 name ether", Refusal(7, "name", "refused 7 name ether", name="ether")),
    ("refused 8 query a.b_c-1", Refusal(8, "query", "refused 8 query a.b_c-1", name="a.b_c-1")),
    ("refused 9 cursor 1", Refusal(9, "cursor", "refused 9 cursor 1", number=1)),
    ("refused 10 queries", Refusal(10, "queries", "refused 10 queries")),
    ("refused 10 cursors", Refusal(10, "cursors", "refused 10 cursors")),
    ("refused 11 records 38", Refusal(11, "records", "refused 11 records 38", number=38)),
]


@pytest.mark.parametrize("answer, meant", REFUSALS, ids=[answer for answer, _ in REFUSALS])
def test_refusals(answer: str, meant: Refusal) -> None:
    assert read_refusal(answer.encode() + b"\n") == meant


GOOD = [
    ("ready", lambda: read_first(b"ready records 12 queries 3 cursors 1 next 15 4\n"), Ready(12, 3, 1, 15, 4)),
    ("bad store", lambda: read_first(b"bad store cursor 7\n"), BadRow("cursor", 7)),
    ("head of nothing", lambda: read_head(b"answer 0 memory\n"), Head(0, "memory")),
    ("head", lambda: read_head(b"answer 100000 done\n"), Head(100000, "done")),
    ("loaded none", lambda: read_loaded(b"loaded 0\n"), KeptRecords(0, None)),
    ("loaded", lambda: read_loaded(b"loaded 33 first 7\n"), KeptRecords(33, 7)),
    ("kept", lambda: read_word("kept", b"kept a.b-c_D\n"), "a.b-c_D"),
    ("replaced", lambda: read_word("replaced", b"replaced 12\n"), "12"),
    ("shown with a line of frames", lambda: read_shown(b"record 1 2\nanswer 0 done\nend\n"), Shown(1, b"answer 0 done\nend\n")),
    ("shown not UTF-8", lambda: read_shown(b"record 1 1\n\xe4\n"), Shown(1, b"\xe4\n")),
    (
        "listing",
        lambda: read_listing(b"records 2\nrecord 3\nrecord 9\nqueries 1\nquery q\ncursors 1\ncursor 2 q\nnext 10 3\n"),
        Listing((3, 9), ("q",), ((2, "q"),), 10, 3),
    ),
    (
        "a query called next",
        lambda: read_listing(b"records 0\nqueries 1\nquery next\ncursors 0\nnext 1 1\n"),
        Listing((), ("next",), (), 1, 1),
    ),
    ("no hit", lambda: read_page(b"end\n"), Page((), "end", None)),
    ("no choice", lambda: read_page(b"hit 1 choice map 1 2\nmore 3\n"), Page((RawHit(1, (), (1, 2)),), "more", 3)),
    ("no map", lambda: read_page(b"hit 1 choice 1 map\npaused 3\n"), Page((RawHit(1, (1,), ()),), "paused", 3)),
    ("hits as they are written", lambda: read_hit_lines(b"hit 12 choice 3 1 map 4 7\nhit 12 choice map\nmore 3\n"), HitLines((("12", "3 1", "4 7"), ("12", "", "")), "more", 3)),
    ("no hit as it is written", lambda: read_hit_lines(b"paused 4\n"), HitLines((), "paused", 4)),
    (
        "table",
        lambda: read_table(b"record\tsite 12\tsite 13\n1\t0\t2\n7\t1\t0\nend\n"),
        TableAnswer((12, 13), ((1, (0, 2)), (7, (1, 0)))),
    ),
    ("structures", lambda: read_structures(b"choice 1\n$$$$\nend\n"), StructurePage(b"choice 1\n$$$$\n", None)),
]


@pytest.mark.parametrize("read, meant", [(read, meant) for _, read, meant in GOOD], ids=[name for name, _, _ in GOOD])
def test_what_is_taken(read: object, meant: object) -> None:
    assert read() == meant  # type: ignore[operator]


BAD = [
    ("words not understood", lambda: read_first(b"words not understood\n")),
    ("ready cut", lambda: read_first(b"ready records 1 queries 0 cursors 0 next 1\n")),
    ("head cut", lambda: read_head(b"answer 3\n")),
    ("head with a zero before", lambda: read_head(b"answer 03 done\n")),
    ("head of another how", lambda: read_head(b"answer 3 maybe\n")),
    ("head without LF", lambda: read_head(b"answer 3 done")),
    ("refusal of another number", lambda: read_refusal(b"refused 12 all\n")),
    ("refusal and more", lambda: read_refusal(b"refused 4 query\nend\n")),
    ("refusal without LF", lambda: read_refusal(b"refused 4 query")),
    ("loaded and more", lambda: read_loaded(b"loaded 1 first 1\nloaded 1 first 2\n")),
    ("loaded without a first", lambda: read_loaded(b"loaded 2\n")),
    ("another word", lambda: read_word("kept", b"forgot q\n")),
    ("shown a line short", lambda: read_shown(b"record 1 2\na\n")),
    ("shown a line long", lambda: read_shown(b"record 1 1\na\nb\n")),
    ("listing a record short", lambda: read_listing(b"records 2\nrecord 3\nqueries 0\ncursors 0\nnext 4 1\n")),
    ("listing cut", lambda: read_listing(b"records 0\nqueries 0\ncursors 0\n")),
    ("listing and more", lambda: read_listing(b"records 0\nqueries 0\ncursors 0\nnext 1 1\nend\n")),
    ("page without an end", lambda: read_page(b"hit 1 choice map 1 2\n")),
    ("page cut in its end", lambda: read_page(b"hit 1 choice map 1 2\nmor")),
    ("page without map", lambda: read_page(b"hit 1 choice 1 2\nend\n")),
    ("hits without an end", lambda: read_hit_lines(b"hit 1 choice map 1 2\n")),
    ("hits cut in their end", lambda: read_hit_lines(b"hit 1 choice map 1 2\nend")),
    ("hits without map", lambda: read_hit_lines(b"hit 1 choice 1 2\nend\n")),
    ("hits with another line", lambda: read_hit_lines(b"hit 1 choice map 1\nhip 1 choice map 1\nend\n")),
    ("hits with a blank line", lambda: read_hit_lines(b"\nend\n")),
    ("hits with a word that is no number", lambda: read_hit_lines(b"hit 1 choice x map 1\nend\n")),
    ("hits with a blank behind", lambda: read_hit_lines(b"hit 1 choice map 1 \nend\n")),
    ("no hits", lambda: read_hit_lines(b"")),
    ("page with a refusal", lambda: read_page(b"refused 8 query q\n")),
    ("table without end", lambda: read_table(b"record\tsite 1\n1\t1\n")),
    ("table with a cell short", lambda: read_table(b"record\tsite 1\tsite 2\n1\t1\nend\n")),
    ("structures without end", lambda: read_structures(b"choice 1\n$$$$\n")),
    ("structures cut", lambda: read_structures(b"choice 1\nend\n")),
    ("nothing", lambda: read_page(b"")),
]


@pytest.mark.parametrize("read", [read for _, read in BAD], ids=[name for name, _ in BAD])
def test_what_is_refused(read: object) -> None:
    with pytest.raises(BadAnswer, match="the program wrote"):
        read()  # type: ignore[operator]


def test_pages_written_anew_are_the_same() -> None:
    draw = random.Random(7)
    for _ in range(300):
        hits = sorted(
            RawHit(draw.randint(1, 9), tuple(draw.randint(1, 4) for _ in range(draw.randint(0, 3))), (draw.randint(1, 99),))
            for _ in range(draw.randint(0, 20))
        )
        ended, cursor = draw.choice([("end", None), ("more", 5), ("paused", 77)])
        lines = ["hit %d choice%s map %s" % (h.record, "".join(f" {n}" for n in h.choice), *map(str, h.map)) for h in hits]
        text = "\n".join([*lines, ended if cursor is None else f"{ended} {cursor}"]) + "\n"
        assert read_page(text.encode()) == Page(tuple(hits), ended, cursor)
        lines = read_hit_lines(text.encode())
        assert [RawHit(int(record), tuple(map(int, choice.split())), tuple(map(int, held.split()))) for record, choice, held in lines.hits] == hits
        assert (lines.ended, lines.cursor) == (ended, cursor)


def test_text_that_is_not_utf_8_is_read_as_latin_1() -> None:
    assert decode(b"2-\xe4thyl") == "2-\xe4thyl" and decode("2-\xe4thyl".encode()) == "2-\xe4thyl"
