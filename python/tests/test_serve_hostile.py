"""Requests that shouldn't get in, and what is sent to do harm."""
from __future__ import annotations

import gzip
import json
import lzma
import resource
import socket
import threading
import time
from pathlib import Path
from typing import Callable, Dict, Iterator, List, Optional, Tuple
from urllib.parse import quote

import pytest

from markush import Refused
from markush.serve.drawer import Drawer
from markush.serve.gate import TOKEN_HEADER
from markush.serve.opening import Serving, shell
from markush.serve.unpacking import unpacked

from test_serve import ACIDS, Client, open_bench

MOST_BODY, IDLE = 64 * 1024 * 1024, 10.0  # bytes, seconds
HEADERS = {
    "Content-Security-Policy": "default-src 'none'; script-src 'self'; style-src 'self'; connect-src 'self'; img-src 'self' data: blob:; "
    "base-uri 'none'; form-action 'none'; frame-ancestors 'none'",
    "X-Content-Type-Options": "nosniff",
    "Referrer-Policy": "no-referrer",
    "Cache-Control": "no-store",
    "Cross-Origin-Resource-Policy": "same-origin",
}


@pytest.fixture(scope="module")
def serving(program: Path) -> Iterator[Serving]:
    with open_bench(program, None) as held:
        Client(held).load((ACIDS / "compounds.sdf").read_bytes(), "compounds.sdf")
        yield held


def talk(serving: Serving, said: bytes, wait: float = 10) -> bytes:
    """What is answered to some bytes."""
    with socket.create_connection(("127.0.0.1", serving.server.port), timeout=wait) as link:
        found = b""
        try:
            link.sendall(said)
            while True:
                piece = link.recv(1 << 16)
                if not piece:
                    break
                found += piece
        except ConnectionError:
            pass
        return found


def request(
    serving: Serving, path: str = "/api/state", method: str = "POST", body: bytes = b"", token: Optional[str] = "right", **headers: str
) -> Tuple[int, Dict[str, str], bytes]:
    """The status, headers and content of an answer; `drop` names a header that isn't sent."""
    sent = {"Host": f"127.0.0.1:{serving.server.port}", "Content-Length": str(len(body))}
    if token is not None:
        sent[TOKEN_HEADER] = serving.server.gate.token if token == "right" else token
    sent.update({name.replace("_", "-"): value for name, value in headers.items()})
    lines = [f"{method} {path} HTTP/1.1", *(f"{name}: {value}" for name, value in sent.items() if value != "drop")]
    answer = talk(serving, "\r\n".join(lines).encode("latin-1") + b"\r\n\r\n" + body)
    head, _, content = answer.partition(b"\r\n\r\n")
    first, *rest = head.decode("latin-1").split("\r\n")
    return int(first.split()[1]), {line.split(": ")[0]: line.split(": ", 1)[1] for line in rest}, content


# ---- who gets in


def test_every_answer_bears_the_headers(serving: Serving) -> None:
    port = serving.server.port
    for path, method, token in (
        ("/", "GET", None), ("/hits.js", "GET", None), ("/api/state", "POST", "right"), ("/api/state", "POST", None), ("/nothing", "GET", "right"),
        ("/", "PUT", "right"), ("/api/state", "GET", "right"), ("/%00", "GET", None), ("/api/state", "OPTIONS", None),
    ):
        _, headers, _ = request(serving, path, method, token=token)
        assert {name: headers.get(name) for name in HEADERS} == HEADERS, (path, method)
        assert not [name for name in headers if name.startswith("Access-Control") or name in ("Set-Cookie", "Server")]
    for said in (b"\0\0\0\r\n\r\n", b"GET /\r\n\r\n", b"GET / HTTP/9.9\r\n\r\n", b"GET / HTTP/1.1\r\nHost: x\r\n\r\n", b"A" * 70_000 + b"\r\n\r\n"):
        answer = talk(serving, said)
        assert b"200" not in answer.split(b"\r\n")[0] and answer.endswith(b"\r\n\r\n")
        assert all(f"\r\n{name}: {value}\r\n".encode() in answer for name, value in HEADERS.items()), said[:20]
    assert f"localhost:{port}" in serving.server.gate.hosts


@pytest.mark.parametrize("path", sorted(shell()))
def test_the_shell_is_constant(serving: Serving, path: str) -> None:
    status, headers, content = request(serving, path, "GET", token=None)
    assert status == 200 and content == shell()[path][0] and serving.server.gate.token.encode() not in content
    assert headers["Content-Type"] == shell()[path][1]


def test_no_route_answers_without_the_token(serving: Serving) -> None:
    right = serving.server.gate.token
    for path in [*serving.bench.routes, "/api/nothing", "/api/../api/state", "/etc/passwd", "/?"]:
        for token in (None, "", right[:-1], right[:-1] + ("0" if right[-1] != "0" else "1"), right.upper() + " ", "\xff", right + right):
            for method in ("GET", "POST", "HEAD", "PUT", "DELETE", "TRACE", "CONNECT"):
                status, _, content = request(serving, path, method, token=token)
                assert (status, content) == (403, b""), (path, method, token)
    assert request(serving)[0] == 200
    twice = f"POST /api/state HTTP/1.1\r\nHost: 127.0.0.1:{serving.server.port}\r\n{TOKEN_HEADER}: {right}\r\n{TOKEN_HEADER}: {right}\r\nContent-Length: 0\r\n\r\n"
    assert talk(serving, twice.encode()).startswith(b"HTTP/1.1 403")


def test_the_token_is_of_each_start(program: Path, serving: Serving) -> None:
    with Serving(None, program=program) as other:
        assert other.server.gate.token != serving.server.gate.token and len(other.server.gate.token) == 32
        assert request(serving, token=other.server.gate.token)[0] == 403


def test_the_token_gets_in_by_its_header_alone(serving: Serving) -> None:
    right = serving.server.gate.token
    assert request(serving, f"/api/state?{right}", token=None)[0] == 403
    assert request(serving, token=None, Cookie=f"{TOKEN_HEADER}={right}")[0] == 403
    assert request(serving, token=None, Authorization=f"Bearer {right}")[0] == 403
    assert request(serving, token=None, body=json.dumps({TOKEN_HEADER: right}).encode())[0] == 403


@pytest.mark.parametrize("path, method, token", [("/", "GET", None), ("/api/state", "POST", "right")])
def test_host_and_origin(serving: Serving, path: str, method: str, token: Optional[str]) -> None:
    port = serving.server.port
    for host in ("drop", "evil.example", f"evil.example:{port}", "127.0.0.1", "localhost", f"127.0.0.1:{port + 1}", f"127.0.0.1:{port}.evil.example",
                 f"[::1]:{port}", f"LOCALHOST:{port}", f"localhost.:{port}", f"user@127.0.0.1:{port}", f"127.1:{port}", ""):
        status, _, content = request(serving, path, method, token=token, Host=host)
        assert (status, content) == (403, b""), host
    for origin in ("null", "http://evil.example", f"http://evil.example:{port}", f"http://127.0.0.1:{port + 1}", f"https://127.0.0.1:{port}",
                   f"http://localhost:{port}", f"http://127.0.0.1:{port}.evil.example", f"http://127.0.0.1:{port}/", "file://", ""):
        status, _, content = request(serving, path, method, token=token, Origin=origin)
        assert (status, content) == (403, b""), origin
    assert request(serving, path, method, token=token, Origin=f"http://127.0.0.1:{port}")[0] == 200
    assert request(serving, path, method, token=token, Host=f"localhost:{port}", Origin=f"http://localhost:{port}")[0] == 200
    two = f"GET / HTTP/1.1\r\nHost: 127.0.0.1:{port}\r\nHost: evil.example\r\n\r\n"
    assert talk(serving, two.encode()).startswith(b"HTTP/1.1 403")


def test_a_tunnels_host(program: Path) -> None:
    with Serving(None, hosts=["localhost:9000"], program=program) as tunnelled:
        assert request(tunnelled, Host="localhost:9000", Origin="http://localhost:9000")[0] == 200
        assert request(tunnelled, Host="localhost:9001")[0] == 403


def test_paths_are_names(serving: Serving) -> None:
    for path in ("/..", "/../../etc/passwd", "/%2e%2e/%2e%2e/etc/passwd", "//etc/passwd", "/hits.js/..", "/bench.html", "/./", "/api/../", "/hits.js%00",
                 "/bench.py", "http://127.0.0.1/", "*", "/hits.js?x", "/HITS.JS", "/\\..\\bench.py"):
        assert request(serving, path, "GET", token=None)[0] == 403, path
        assert request(serving, path, "GET")[0] == 404, path
        assert request(serving, path, "POST")[0] == 404, path


def test_methods(serving: Serving) -> None:
    assert request(serving, "/", "POST")[0] == 405
    for method in ("GET", "HEAD", "PUT", "DELETE", "OPTIONS", "PATCH", "BREW"):
        assert request(serving, method=method)[0] == 405, method


def test_it_listens_at_this_machine_alone(serving: Serving) -> None:
    assert serving.server.server_address[0] == "127.0.0.1"


def test_the_browser_is_opened_by_a_private_file(serving: Serving, monkeypatch: pytest.MonkeyPatch) -> None:
    opened: List[str] = []
    monkeypatch.setattr("webbrowser.open", lambda link: not opened.append(link))
    assert serving.open_browser()
    path = Path(opened[0][len("file://") :])
    assert serving.server.gate.token not in opened[0] and path.stat().st_mode & 0o777 == 0o600 and path.parent.stat().st_mode & 0o777 == 0o700
    assert serving.link in path.read_text()


# ---- bodies


def test_lengths(serving: Serving) -> None:
    for length, status in (("drop", 411), ("-1", 400), ("+1", 400), ("1e3", 400), ("0x10", 400), ("\u00b2", 400), ("", 400), ("1,1", 400),
                           (str(MOST_BODY + 1), 413), ("9" * 30, 400)):
        assert request(serving, Content_Length=length)[0] == status, length
    assert request(serving, Transfer_Encoding="chunked")[0] == 501
    assert request(serving, Transfer_Encoding="identity")[0] == 501
    two = f"POST /api/state HTTP/1.1\r\nHost: 127.0.0.1:{serving.server.port}\r\n{TOKEN_HEADER}: {serving.server.gate.token}\r\nContent-Length: 0\r\nContent-Length: 2\r\n\r\n"
    assert talk(serving, two.encode()).startswith(b"HTTP/1.1 400")


def test_a_body_of_64_mib_is_taken(serving: Serving) -> None:
    # it is no object, which is told once it was read
    status, _, content = request(serving, "/api/hits", body=bytes(MOST_BODY))
    assert status == 200 and "isn't understood" in json.loads(content)["fault"]


def test_a_body_without_the_token_isnt_read(serving: Serving) -> None:
    began = time.monotonic()
    assert request(serving, "/api/load", token=None, body=b"a", Content_Length=str(MOST_BODY))[0] == 403
    assert time.monotonic() - began < 5


def test_bodies_that_arent_objects(serving: Serving) -> None:
    for body in (b"[]", b"1", b"{", b"\xff", b'{"a":' * 100_000, b"[" * 500_000, b'"x"'):
        status, _, content = request(serving, "/api/hits", body=body)
        assert status == 200 and "isn't understood" in json.loads(content)["fault"], body[:10]
    for path in serving.bench.routes:
        for words in ({"id": "x"}, {"id": [1]}, {"id": 10**30}, {"id": True}, {"id": None, "name": 5, "places": 3}, {"ticket": -1, "text": {}, "from": "a"}):
            if path != "/api/end":
                assert request(serving, path, body=json.dumps(words).encode())[0] == 200, (path, words)


def test_idle_and_cut_connections(program: Path) -> None:
    with Serving(None, program=program) as slow:
        assert slow.server.idle == IDLE
        slow.server.idle = 1.0
        began = time.monotonic()
        assert talk(slow, b"POST /api/state HT", wait=20) == b""
        assert time.monotonic() - began < 6
        with socket.create_connection(("127.0.0.1", slow.server.port), timeout=20) as link:
            # a head that comes a byte at a time is cut off as well
            began, cut = time.monotonic(), False
            while not cut and time.monotonic() - began < 10:
                try:
                    link.sendall(b"G")
                    time.sleep(0.3)
                except OSError:
                    cut = True
            assert cut
        head = f"POST /api/load HTTP/1.1\r\nHost: 127.0.0.1:{slow.server.port}\r\n{TOKEN_HEADER}: {slow.server.gate.token}\r\nContent-Length: 1000\r\n\r\n"
        began = time.monotonic()
        assert talk(slow, head.encode() + b"abc", wait=20) == b"" and time.monotonic() - began < 6
        for _ in range(50):
            with socket.create_connection(("127.0.0.1", slow.server.port)) as link:
                link.sendall(head.encode() + b"abc")
        assert request(slow)[0] == 200


def answers(link: socket.socket, count: int) -> List[bytes]:
    """So many answers of one connection, or those that came before it was closed."""
    held, found = b"", []
    while len(found) < count:
        head, end, rest = held.partition(b"\r\n\r\n")
        size = int(head.lower().split(b"content-length: ")[1].split(b"\r\n")[0]) if end else 0
        if end and len(rest) >= size:
            found.append(head + end + rest[:size])
            held = rest[size:]
            continue
        piece = link.recv(1 << 16)
        if not piece:
            return found
        held += piece
    return found


def test_a_connection_stays_for_who_has_the_token(program: Path) -> None:
    with Serving(None, program=program) as kept:
        kept.server.idle = 1.0
        right, port = kept.server.gate.token, kept.server.port

        def said(token: str, path: str = "/api/state", more: str = "Connection: keep-alive\r\n", length: int = 0, version: str = "1.1") -> bytes:
            return f"POST {path} HTTP/{version}\r\nHost: 127.0.0.1:{port}\r\n{TOKEN_HEADER}: {token}\r\n{more}Content-Length: {length}\r\n\r\n".encode()

        with socket.create_connection(("127.0.0.1", port), timeout=20) as link:
            link.sendall(said(right) + said(right, length=2) + b"{}" + said(right))
            found = answers(link, 3)
            assert [each[:12] for each in found] == [b"HTTP/1.1 200"] * 3 and all(b"Connection: keep-alive" in each for each in found)
            assert all(each.count(b"Content-Security-Policy") == 1 for each in found)
            # each request is judged by itself
            link.sendall(said("0" * 32) + said(right))
            found = answers(link, 2)
            assert [each[:12] for each in found] == [b"HTTP/1.1 403"] and b"Connection: close" in found[0]
        for ends in (said("", "/bench.js"), said(right, "/api/nothing"), said(right, more="Transfer-Encoding: chunked\r\nConnection: keep-alive\r\n"),
                     said(right, more=""), said(right, version="1.0"), said(right, more="Connection: close\r\n"), said(right, length=MOST_BODY + 1)):
            with socket.create_connection(("127.0.0.1", port), timeout=20) as link:
                link.sendall(ends + said(right))
                assert len(answers(link, 2)) == 1, ends
        with socket.create_connection(("127.0.0.1", port), timeout=20) as link:
            link.sendall(said(right))
            assert len(answers(link, 1)) == 1
            began = time.monotonic()
            assert link.recv(1) == b"" and time.monotonic() - began < 6  # nothing more came, so it is cut


def test_two_hundred_at_once(serving: Serving) -> None:
    found: List[int] = []

    def ask(number: int) -> None:
        found.append(request(serving, "/api/state" if number % 2 else "/", "POST" if number % 2 else "GET")[0])

    threads = [threading.Thread(target=ask, args=(number,)) for number in range(200)]
    for thread in threads:
        thread.start()
    for thread in threads:
        thread.join(60)
    assert found == [200] * 200
    assert request(serving)[0] == 200


# ---- what is unpacked and drawn


TEN_GB = 10 << 30


def bomb(size: int) -> bytes:
    """A .xz that unpacks to so many zeros: streams that are alike, one behind the other, which is one file."""
    piece = lzma.compress(bytes(64 << 20), preset=0)
    assert len(lzma.decompress(piece)) == 64 << 20 and size % (64 << 20) == 0
    return piece * (size // (64 << 20))


def test_a_bomb_is_refused(serving: Serving) -> None:
    client = Client(serving)
    large = bomb(TEN_GB)
    # LZMA takes 0.3 bits at least for 273 bytes, so 10 GB can't have less than 1.4 MB, and a kilobyte unpacks to 7 MB at most
    assert 1_400_000 < len(large) < 1_700_000
    began, before = time.process_time(), resource.getrusage(resource.RUSAGE_SELF).ru_maxrss
    small = lzma.compress(large)
    assert len(small) < 3_000 and "twice" in client.load(small, "a.sdf.xz.xz")["fault"]
    for data, name in ((large, "a.sdf.xz"), (gzip.compress(bytes(200 << 20), 9), "a.sdf.gz")):
        assert "more than 134,217,728 bytes" in client.load(data, name)["fault"]
    assert time.process_time() - began < 30
    assert resource.getrusage(resource.RUSAGE_SELF).ru_maxrss - before < 1 << 20  # kilobytes: far from 10 GB
    with pytest.raises(Refused):
        unpacked(large, 1 << 20)
    for broken in (b"\x1f\x8b\x08\0\0\0\0\0", lzma.compress(b"abc")[:-5], gzip.compress(b"abc")[:-3] + b"x", b"\xfd7zXZ\0" + b"\xff" * 50):
        assert "can't be unpacked" in client.load(broken, "a.sdf")["fault"]


@pytest.mark.parametrize("pack", [gzip.compress, lzma.compress])
def test_very_many_packed_files_in_one(pack: Callable[[bytes], bytes]) -> None:
    began, empty = time.process_time(), pack(b"")
    assert unpacked(empty * ((4 << 20) // len(empty))) == b""
    assert time.process_time() - began < 10  # what is behind each isn't copied anew
    parts = [b"", b"a" * 600_000, bytes(range(256)) * 700, b"b"]
    for between in (b"", bytes(4), bytes(8192)):
        held = b"".join(pack(part) + between for part in parts)
        assert unpacked(held) == b"".join(parts)
        for broken in (held.rstrip(b"\0")[:-5], pack(b"a") + between + b"xyz"):
            with pytest.raises(Refused, match="can't be unpacked"):
                unpacked(broken)


def test_rdkits_process_has_limits() -> None:
    with Drawer(seconds=1, megabytes=700) as drawer:
        long = "C1" + "CC1CC1" * 3000
        with pytest.raises(Refused):
            drawer.ask("claim", text=f"root {long}[R1]\nR1 *F\n")
        assert drawer.ask("claim", text="root C[R1]\nR1 *F\n")["codes"] == "2"
        with pytest.raises(Refused):
            drawer.ask("smiles", lines=["C" * 20_000 + f" {n}" for n in range(300)])
        assert drawer.ask("smiles", lines=["CCO a"])["records"]


def test_no_file_of_the_machine_is_read(serving: Serving, tmp_path: Path) -> None:
    client = Client(serving)
    (tmp_path / "secret").write_text("root C[R1]\nR1 *F\n")
    for text in (f"include {tmp_path / 'secret'}\n", f"root C[R1]\ninclude {tmp_path / 'secret'}\nR1 *F\n"):
        found = client.ask("claim/read", text=text)
        assert "include" in found["fault"]
    for name in (str(tmp_path / "secret"), "../../etc/passwd", "/etc/passwd\0.smi", "a\nlist"):
        job = client.load(b"CCO ethanol", name)
        assert job["state"] in ("done", "failed") and "root:" not in json.dumps(job)


def test_faults_name_no_path_of_the_machine(serving: Serving) -> None:
    client = Client(serving)
    folder = str(serving.bench.desk.folder)
    library = serving.bench.driver.library
    assert library is not None
    private = str(library._session.folder)
    said = [client.load(b"V2000 nonsense\n$$$$\n" * 3, "a.sdf"), client.load(b"V2000", "b.sdf", how="update", key="ID")]
    said += [client.ask("claim/keep", name="x", text="$MDL  REV  1\nV2000"), client.ask("why", name="x", version=1, record="1")]
    text = json.dumps(said)
    assert folder not in text and private not in text and "/tmp" not in text


IMG = "<img src=x onerror=alert(1)>"


def test_what_was_written_stays_text(serving: Serving) -> None:
    """What a browser makes of it is tried by checks/bench_page; here it goes and comes as it is, in JSON alone."""
    client = Client(serving)
    record = f"{IMG}\n\n\n  1  0  0     0  0            999 V2000\n    0.0000    0.0000    0.0000 C   0  0\nM  END\n> <{IMG[:20]}>\n{IMG}\n\n$$$$\n"
    assert client.load(record.encode(), f"{IMG}.sdf")["file"] == f"{IMG}.sdf"
    found = client.ask("claim/keep", name=IMG, text=f"title {IMG}\nroot C[R1]\nR1 [H] {IMG}\n")
    assert found.get("name") == IMG or "fault" in found
    status, headers, content = request(serving)
    assert headers["Content-Type"] == "application/json" and headers["X-Content-Type-Options"] == "nosniff"
    quoted = json.dumps({"name": "../../x", "how": "add"})
    assert request(serving, "/api/load", body=record.encode(), X_Markush_Words=quote(quoted))[0] == 200


def test_files_of_very_many_records_are_refused(serving: Serving) -> None:
    client = Client(serving)
    assert "more than 100,000 records" in client.load(gzip.compress(b"V2000\n" + b"$$$$\n" * 20_000_000, 9), "a.sdf.gz")["fault"]
    assert "more than 200,000 lines" in client.load(gzip.compress(b"\n" * 100_000_000, 9), "a.smi.gz")["fault"]
    status, _, content = request(serving, "/api/hits", body=b"[" + b"1," * (9 << 20) + b"1]")
    assert status == 200 and "isn't understood" in json.loads(content)["fault"]
