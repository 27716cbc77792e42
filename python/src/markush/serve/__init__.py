"""A bench to search at: one page in the browser, over a library. `markush-tools serve` opens it.

    gate        who gets in, and the headers of every answer
    server      requests: their limits, a table of names, and nothing else of the network
    asked       what a request says, read as numbers, texts and lists
    tickets     what takes longer than a request may
    unpacking   what is packed, unpacked to a limit
    drawer      RDKit's process, with limits of time and memory (`child` is what runs there)
    kept        claims, searches and verdicts, in a file beside the store
    driver      the one thread that drives the session program
    texts       the texts of many records, asked for at once
    places      how far a search has come, read of the store's log
    choices     the choices that a search has found, as the page tells them
    searches    what a search has found so far
    desk        what all parts share: the library, what is kept, texts and pictures, tickets
    claims      claims read, kept, and compared
    hits        searches as the page asks about them, their hits, cards and verdicts
    questions   why not, and which claims cover one SMILES
    compounds   files taken in, and records found and taken out
    exports     tables, SDfiles and pages of hits
    bench       the parts put together
    opening     the server over the bench, and the browser that is opened at it
"""
from __future__ import annotations

__all__: "list[str]" = []
