"""Tests of the server of souper.page: python3 -W error embed/python/test_page.py"""

from __future__ import annotations

import base64
import gzip
import hashlib
import http.client
import json
import random
import re
import select
import signal
import socket
import stat
import subprocess
import sys
import tempfile
import threading
import time
import unittest
from collections.abc import Iterator, Sequence
from contextlib import ExitStack, contextmanager
from pathlib import Path
from typing import Any, NamedTuple
from unittest import mock

import souper
from souper import Kind, _differences, draw, page
from souper._pictures import pictures
from testing import HERE, REFUSED, ROOT, VALID, environment, main, program

PAGE = HERE / "souper/page.html"


class Response(NamedTuple):
    status: int
    headers: http.client.HTTPMessage
    body: bytes


@contextmanager
def served(kind: str = "lhs", text: str = "", host: str = "127.0.0.1") -> Iterator[page.PageServer]:
    """A server of the page in this process."""
    with page.PageServer(kind, text, host=host) as server:
        thread = threading.Thread(target=server.serve_forever, args=(0.01,))
        thread.start()
        try:
            yield server
        finally:
            server.shutdown()
            thread.join()


class Requests(unittest.TestCase):
    """Requests and their answers."""

    def setUp(self) -> None:
        stack = ExitStack()
        self.addCleanup(stack.close)
        self.server = stack.enter_context(served("rep", "%x = var cand %x 1 ; é"))

    def request(
        self, method: str, path: str, headers: dict[str, str] | None = None, body: bytes | None = None,
        *, hosts: tuple[str, ...] | None = None,
    ) -> Response:
        """Asks for a path after the token, or for one that begins with a slash."""
        connection = http.client.HTTPConnection("127.0.0.1", self.server.server_port, timeout=20)
        whole = path if path.startswith("/") or path == "" else f"/{self.server.token}/{path}".removesuffix("~")
        connection.putrequest(method, whole, skip_host=True, skip_accept_encoding=True)
        for host in (self.server.host,) if hosts is None else hosts:
            connection.putheader("Host", host)
        for name, value in (headers or {}).items():
            connection.putheader(name, value)
        connection.endheaders(body)
        found = connection.getresponse()
        response = Response(found.status, found.headers, found.read())
        connection.close()
        return response

    def ask(self, body: bytes | object, path: str = "ask", **headers: str) -> Response:
        data = body if isinstance(body, bytes) else json.dumps(body).encode()
        given = {
            "Origin": f"http://{self.server.host}", "Content-Type": "application/json",
            "Content-Length": str(len(data)), **{name.replace("_", "-"): value for name, value in headers.items()},
        }
        return self.request("POST", path, {name: value for name, value in given.items() if value}, data)

    def question(self, kind: str, *texts: str, item: int = 0) -> Any:
        found = self.ask({"kind": kind, "texts": texts, "item": item})
        self.assertEqual(found.status, 200, found)
        self.assertEqual(found.headers["Content-Type"], "application/json")
        return json.loads(found.body)

    def test_the_page(self) -> None:
        found = self.request("GET", "~", {"Accept-Encoding": "gzip"})
        self.assertEqual((found.status, found.body), (200, PAGE.read_bytes()))
        self.assertEqual(found.headers["Content-Type"], "text/html; charset=utf-8")
        policy = found.headers["Content-Security-Policy"].split("; ")
        text = PAGE.read_text()
        for name in ("script", "style"):
            [content] = re.findall(f"<{name}>(.*?)</{name}>", text, re.DOTALL)
            digest = base64.b64encode(hashlib.sha256(content.encode()).digest()).decode()
            self.assertIn(f"{name}-src 'sha256-{digest}'", policy)
        for part in ("default-src 'none'", "connect-src 'self'", "form-action 'none'", "base-uri 'none'",
                     "frame-ancestors 'none'", "require-trusted-types-for 'script'"):
            self.assertIn(part, policy)
        self.assertNotIn("unsafe", " ".join(policy))

    def test_headers_of_each_answer(self) -> None:
        for found in (self.request("GET", "~"), self.request("GET", "start"), self.request("GET", "/"),
                      self.request("PUT", "~"), self.ask({"kind": "lhs", "texts": [""], "item": 0})):
            self.assertEqual(found.headers["Cache-Control"], "no-store")
            self.assertEqual(found.headers["Referrer-Policy"], "no-referrer")
            self.assertEqual(found.headers["X-Content-Type-Options"], "nosniff")
            self.assertEqual(found.headers["X-Frame-Options"], "DENY")
            self.assertEqual(found.headers["Cross-Origin-Resource-Policy"], "same-origin")
            self.assertIn("default-src 'none'", found.headers["Content-Security-Policy"])
            self.assertNotIn("Access-Control-Allow-Origin", found.headers)
            self.assertNotIn(self.server.token, str(found.headers))

    def test_what_the_page_begins_with(self) -> None:
        found = self.request("GET", "start")
        self.assertEqual(json.loads(found.body), {"kind": "rep", "text": "%x = var cand %x 1 ; é"})

    def test_a_token_that_is_missing_or_wrong(self) -> None:
        token = self.server.token
        self.assertGreater(len(token), 40)
        wrong = [token[:-1], token + "x", token[:-1] + ("a" if token[-1] != "a" else "b"), token.swapcase(),
                 "", "%2e", f"%{ord(token[0]):02x}{token[1:]}", token[::-1]]
        paths = ["/", "/start", "/ask", "//", "/favicon.ico", f"/{token}", f"/x/{token}/", f"//{token}x/", "*",
                 f"/?{token}/", *(f"/{one}/{rest}" for one in wrong for rest in ("", "start", "ask"))]
        for path in paths:
            with self.subTest(path):
                found = self.request("GET", path)
                self.assertEqual((found.status, found.body), (404, b"Not Found\n"), path)
        for path in (b"/\xff/", b"/\x7f/", "/é/start".encode(), token.encode() + b"/"):
            with socket.create_connection(("127.0.0.1", self.server.server_port), 20) as connection:
                connection.sendall(b"GET %b HTTP/1.1\r\nHost: %b\r\n\r\n" % (path, self.server.host.encode()))
                self.assertTrue(connection.recv(1 << 16).startswith(b"HTTP/1.0 404 "), path)
        body = json.dumps({"kind": "lhs", "texts": [""], "item": 0}).encode()
        headers = {"Origin": f"http://{self.server.host}", "Content-Type": "application/json",
                   "Content-Length": str(len(body))}
        self.assertEqual(self.request("POST", f"/{token}x/ask", headers, body).status, 404)
        with served() as other:
            self.assertNotEqual(other.token, token)

    def test_the_token_is_compared_in_constant_time(self) -> None:
        with mock.patch("hmac.compare_digest", return_value=False) as compared:
            self.assertEqual(self.request("GET", "~").status, 404)
        compared.assert_called_once_with(self.server.token.encode(), self.server.token.encode())

    def test_other_paths(self) -> None:
        for path in ("page.html", "start/", "start?x=1", "ask/", "~/".replace("~", "x"), "../start", "./start",
                     "page.py", "libsouper_c.so", "%73tart", "START", "?", "#", "start#", "\\start"):
            with self.subTest(path):
                found = self.request("GET", path)
                self.assertEqual((found.status, found.body), (404, b"Not Found\n"))

    def test_another_host(self) -> None:
        port = self.server.server_port
        for hosts in ((f"localhost:{port}",), ("127.0.0.1",), ("127.0.0.1:80",), (f"127.0.0.1:{port}0",), ("",), (),
                      (f"evil.example:{port}",), (f"[::1]:{port}",), (f"127.1:{port}",), (f"evil@127.0.0.1:{port}",),
                      (self.server.host, self.server.host), ("evil.example", self.server.host), (f"127.0.0.1.:{port}",)):
            for path in ("~", "start", "/"):
                with self.subTest(hosts=hosts, path=path):
                    found = self.request("GET", path, hosts=hosts)
                    self.assertEqual((found.status, found.body), (403, b"Forbidden\n"))
        found = self.request("GET", f"http://evil.example/{self.server.token}/")
        self.assertEqual(found.status, 404)

    def test_the_host_localhost(self) -> None:
        stack = ExitStack()
        self.addCleanup(stack.close)
        self.server = stack.enter_context(served(host="localhost"))
        port = self.server.server_port
        self.assertEqual(self.server.address, f"http://localhost:{port}/{self.server.token}/")
        self.assertEqual(self.request("GET", "~").status, 200)
        self.assertEqual(self.ask({"kind": "lhs", "texts": [""], "item": 0}).status, 200)
        for host in (f"127.0.0.1:{port}", "localhost", f"localhost.:{port}", f"LOCALHOST:{port}", f"evil.localhost:{port}"):
            self.assertEqual(self.request("GET", "~", hosts=(host,)).status, 403)
        origin = f"http://127.0.0.1:{port}"
        self.assertEqual(self.ask({"kind": "lhs", "texts": [""], "item": 0}, Origin=origin).status, 403)
        for host in ("", "0.0.0.0", "::1", "evil.example", "127.0.0.2"):
            self.assertRaises(ValueError, page.PageServer, host=host)

    def test_another_origin(self) -> None:
        host, port = self.server.host, self.server.server_port
        others = ["null", f"http://localhost:{port}", f"https://{host}", "http://127.0.0.1", "http://127.0.0.1:80", "",
                  f"http://{host}.evil.example", f"http://{host}/", "http://evil.example", f"http://{host}, http://evil.example"]
        question = {"kind": "lhs", "texts": [""], "item": 0}
        self.assertEqual(self.ask(question).status, 200)
        for origin in others:
            with self.subTest(origin):
                for path in ("~", "start"):
                    self.assertEqual(self.request("GET", path, {"Origin": origin}).status, 403)
                self.assertEqual(self.ask(question, Origin=origin or "http://").status, 403)
        self.assertEqual(self.request("GET", "start", {"Origin": f"http://{host}"}).status, 200)

    def test_a_question_without_an_origin(self) -> None:
        self.assertEqual(self.ask({"kind": "lhs", "texts": [""], "item": 0}, Origin="").status, 403)

    def test_requests_of_other_pages(self) -> None:
        for site, status in (("none", 200), ("same-origin", 200), ("same-site", 403), ("cross-site", 403), ("x", 403)):
            for path in ("~", "start"):
                self.assertEqual(self.request("GET", path, {"Sec-Fetch-Site": site}).status, status, site)
            found = self.ask({"kind": "lhs", "texts": [""], "item": 0}, Sec_Fetch_Site=site)
            self.assertEqual(found.status, status, site)

    def test_methods(self) -> None:
        origin = {"Origin": f"http://{self.server.host}", "Content-Length": "0"}
        for method in ("PUT", "DELETE", "OPTIONS", "HEAD", "PATCH", "TRACE", "CONNECT", "<b>"):
            with self.subTest(method):
                found = self.request(method, "~")
                self.assertEqual(found.status, 501)
                self.assertIn("text/plain", found.headers["Content-Type"])
        self.assertEqual(self.request("GET", "ask").status, 405)
        self.assertEqual(self.request("GET", "dot").status, 405)
        self.assertEqual(self.request("POST", "~", origin).status, 405)
        self.assertEqual(self.request("POST", "start", origin).status, 405)

    def test_a_large_body(self) -> None:
        found = self.ask({"kind": "lhs", "texts": ["; " + "x" * page.GREATEST_BODY], "item": 0})
        self.assertEqual((found.status, found.body), (413, b"The texts are longer than 1 MiB.\n"))
        text = "; " + "x" * (page.GREATEST_BODY - 1000)
        self.assertEqual(self.question("lhs", text)["texts"], [{"count": 0, "text": ""}])
        # It is said to be large, and it never comes.
        for length in ("1048577", "99999999999999999999", "9" * 5000):
            with socket.create_connection(("127.0.0.1", self.server.server_port), 20) as connection:
                head = (f"POST /{self.server.token}/ask HTTP/1.1\r\nHost: {self.server.host}\r\n"
                        f"Origin: http://{self.server.host}\r\nContent-Type: application/json\r\n"
                        f"Content-Length: {length}\r\n\r\n")
                connection.sendall(head.encode())
                status = connection.recv(1 << 16).split(b" ")[1]
                self.assertIn(status, (b"413", b"411"))

    def test_a_body_without_a_length(self) -> None:
        for length in ("", "-1", "x", "1 2", "+5", "1_0", "٣".encode().decode("latin-1"), "0x10"):
            with self.subTest(length):
                self.assertEqual(self.ask(b"{}", Content_Length=length).status, 411)

    def test_a_body_that_is_cut_off(self) -> None:
        with socket.create_connection(("127.0.0.1", self.server.server_port), 20) as connection:
            head = (f"POST /{self.server.token}/ask HTTP/1.1\r\nHost: {self.server.host}\r\n"
                    f"Origin: http://{self.server.host}\r\nContent-Type: application/json\r\nContent-Length: 500\r\n\r\n{{")
            connection.sendall(head.encode())
            connection.shutdown(socket.SHUT_WR)
            self.assertTrue(connection.recv(1 << 16).startswith(b"HTTP/1.0 400 "))
        self.assertEqual(self.request("GET", "start").status, 200)

    def test_another_type(self) -> None:
        question = {"kind": "lhs", "texts": [""], "item": 0}
        for content_type in ("", "text/plain", "application/x-www-form-urlencoded", "multipart/form-data", "json"):
            self.assertEqual(self.ask(question, Content_Type=content_type).status, 415, content_type)
        self.assertEqual(self.ask(question, Content_Type="Application/JSON; charset=utf-8").status, 200)

    def test_bad_questions(self) -> None:
        good: dict[str, object] = {"kind": "lhs", "texts": [""], "item": 0}
        for change in ({"kind": "left"}, {"kind": ""}, {"kind": 0}, {"kind": None}, {"kind": ["lhs"]}, {"kind": "LHS"},
                       {"texts": []}, {"texts": ["", "", ""]}, {"texts": ""}, {"texts": [0]}, {"texts": ["", None]},
                       {"texts": None}, {"item": -1}, {"item": "0"}, {"item": 0.5}, {"item": None}):
            with self.subTest(change):
                found = self.ask({**good, **change})
                said = b"a question has a kind, one or two texts, and the index of an item.\n"
                self.assertEqual((found.status, found.body), (400, said))
        for body in (b"null", b"[]", b"5", b'"lhs"', b'{"kind":"lhs"}'):
            self.assertEqual(self.ask(body).status, 400, body)
        for body in (b"", b"{", b"lhs", b"[" * 100_000, b'{"item":' + b"9" * 5000 + b"}", b"\xef\xbb\xbf{}"):
            found = self.ask(body)
            self.assertEqual((found.status, found.body), (400, b"The question is not JSON.\n"), body[:20])
        self.assertEqual(self.ask({**good, "item": 10**30}).status, 200)

    def test_a_graph_in_dot(self) -> None:
        text = "%x = var infer %x %y = var infer %y"
        found = self.ask({"kind": "lhs", "texts": [text], "item": 1}, "dot")
        self.assertEqual((found.status, json.loads(found.body)), (200, {"dot": draw.dot("lhs", "%y = var infer %y")}))
        for wrong, item in ((text, 2), ("", 0), ("infer", 0)):
            found = self.ask({"kind": "lhs", "texts": [wrong], "item": item}, "dot")
            self.assertEqual((found.status, found.body), (400, b"the text has no such item.\n"))
        self.assertEqual(self.ask(b"{}", "dot").status, 400)
        self.assertEqual(self.ask({"kind": "lhs", "texts": [text], "item": 0}, "dot", Origin="").status, 403)

    def test_bytes_that_are_not_utf8(self) -> None:
        for body in (b'{"kind":"lhs","texts":["\xff"],"item":0}', b"\xc3", b'{"kind":"lhs","texts":["\\ud800"],"item":0}',
                     b'{"kind":"lhs","texts":["","\\udfff"],"item":0}'):
            found = self.ask(body)
            self.assertEqual((found.status, found.body), (400, b"The text is not UTF-8.\n"), body)

    def test_out_of_memory(self) -> None:
        with mock.patch.object(page, "records", side_effect=MemoryError):
            found = self.ask({"kind": "lhs", "texts": ["x"], "item": 0})
        self.assertEqual((found.status, found.body), (507, b"Out of memory.\n"))

    def test_many_at_once(self) -> None:
        # One connection that says nothing, and one that stops in a line, hold up no other.
        with (socket.create_connection(("127.0.0.1", self.server.server_port)) as _silent,
              socket.create_connection(("127.0.0.1", self.server.server_port)) as slow):
            slow.sendall(b"GET /")
            for _ in range(20):
                self.assertEqual(self.request("GET", "start").status, 200)

    def test_lines_that_are_no_request(self) -> None:
        for line in (b"\r\n", b"GET\r\n\r\n", b"<b>\r\n\r\n", b"GET / HTTP/9.9\r\n\r\n", b"\x00\xff\r\n\r\n",
                     b"GET /" + b"x" * 70_000 + b" HTTP/1.1\r\n\r\n"):
            with socket.create_connection(("127.0.0.1", self.server.server_port), 20) as connection:
                connection.sendall(line)
                connection.shutdown(socket.SHUT_WR)
                found = connection.recv(1 << 16)
                self.assertNotIn(b"<b>", found)
                self.assertNotIn(b"200 OK", found)


def lines(text: str) -> list[str]:
    return text.removesuffix("\n").split("\n") if text else []


def patched(first: str, rows: Sequence[Sequence[str]]) -> list[str] | None:
    """The lines of the second text, of the first one's and rows of differences; None if some are left out."""
    old, found, at = lines(first), [], 0
    for mark, text in rows:
        if mark == "@":
            found += old[at : int(text) - 1]
            at = int(text) - 1
        elif mark == "+":
            found.append(text)
        elif mark == "…":
            return None
        elif mark != "\\":
            assert old[at] == text, (rows, at)
            found += [text] if mark == " " else []
            at += 1
    return found + old[at:]


class Differences(unittest.TestCase):
    """Where two texts differ."""

    def test_examples(self) -> None:
        for first, second, wanted in (
            ("", "", []),
            ("a\n", "a\n", []),
            ("a", "a\n", [("@", "1"), (" ", "a"), ("\\", "")]),
            ("a\nb", "a\nb\n\n", [("@", "1"), (" ", "a"), (" ", "b"), ("+", "")]),
            ("a\nb\nc\nd\ne\nf\n", "a\nb\nc\nD\ne\nf\n",
             [("@", "2"), (" ", "b"), (" ", "c"), ("-", "d"), ("+", "D"), (" ", "e"), (" ", "f")]),
            ("; c\n%x = var\ninfer %x", "%x = var\ninfer %x\n\n",
             [("@", "1"), ("-", "; c"), (" ", "%x = var"), (" ", "infer %x"), ("+", "")]),
            ("a\u2028b\n", "a\n", [("@", "1"), ("-", "a\u2028b"), ("+", "a")]),
            ("", "a\n", [("@", "1"), ("+", "a")]),
            ("a\n", "", [("@", "1"), ("-", "a")]),
        ):
            self.assertEqual(_differences.rows(first, second), wanted, (first, second))

    def test_the_rows_make_the_second_text(self) -> None:
        r = random.Random(4)
        for _ in range(3000):
            first = "".join(r.choice("abc\n\n") for _ in range(r.randrange(60)))
            second = "".join(r.choice("ab\n") if r.randrange(15) == 0 else one for one in first)
            rows = _differences.rows(first, second)
            self.assertEqual(rows == [], first == second)
            self.assertEqual(patched(first, rows), lines(second), (first, second))

    def test_long_texts(self) -> None:
        first = "".join(f"{n}\n" for n in range(100_000))
        self.assertEqual(_differences.rows(first, first.replace("\n500\n", "\nx\n"))[:4], [("@", "499"), (" ", "498"), (" ", "499"), ("-", "500")])
        started = time.monotonic()
        rows = _differences.rows(first, "\n".join(reversed(first.split("\n"))))
        self.assertEqual((rows[0], rows[-1], len(rows)), (("@", "1"), ("…", ""), 22))
        many = _differences.rows("a\nb\n" * 120, "a\nc\n" * 120)
        self.assertEqual((len(many), many[-1]), (201, ("…", "")))
        self.assertLess(time.monotonic() - started, 3)


class Answers(unittest.TestCase):
    """What a question's answer has."""

    def shown(self, kind: str | Kind, *texts: str, item: int = 0) -> Any:
        return page.answer({"kind": Kind(kind).value, "texts": list(texts), "item": item})

    def test_valid_texts(self) -> None:
        for record in VALID:
            text = record.text.decode()
            found = self.shown(record.kind, text)["texts"][0]
            records = souper.records(record.kind, text)
            self.assertEqual((found["count"], found["text"]), (len(records), record.answer.decode()), record)
            if not records:
                continue
            self.assertIs(found["canonical"], souper.check(record.kind, text))
            self.assertEqual(found["changes"] == [], found["canonical"])
            self.assertIn(patched(text, found["changes"]), (None, lines(found["text"])), record)
            for item in {0, len(records) - 1}:
                found = self.shown(record.kind, text, item=item)["texts"][0]
                self.assertEqual((found["item"], found["key"]), (item, records[item].key))
                self.assertEqual(found["renamed"], souper.keys(record.kind, text, rename=True)[item])
                boxes = pictures(record.kind, text)[item]
                self.assertEqual([box["text"] for box in found["boxes"]], [box.text for box in boxes])

    def test_an_item_after_the_last(self) -> None:
        found = self.shown("lhs", "%x = var infer %x %y = var infer %y", item=7)["texts"][0]
        self.assertEqual((found["count"], found["item"], found["boxes"][0]["text"]), (2, 1, "%y = var"))

    def test_boxes(self) -> None:
        found = self.shown("lhs", "%x = var %y = add %x, 1 pc %y 1 infer %y")["texts"][0]["boxes"]
        self.assertEqual(found, [
            {"text": "%x = var", "mark": "input", "uses": [], "root": False},
            {"text": "%y = add %x, 1", "mark": "instruction", "uses": [[0, "1"]], "root": True},
            {"text": "pc %y 1", "mark": "pc", "uses": [[1, "1"]], "root": False},
            {"text": "infer %y", "mark": "last", "uses": [[1, ""]], "root": False},
        ])

    def test_the_place_of_an_error(self) -> None:
        for record in REFUSED:
            text = record.text.decode()
            found = self.shown(record.kind, text)["texts"][0]
            self.assertEqual(list(found), ["error"])
            error = found["error"]
            with self.assertRaises(souper.Refused) as raised:
                souper.format(record.kind, text)
            refusal = raised.exception
            location = refusal.location
            assert location is not None
            self.assertEqual((error["line"], error["column"]), location[1:])
            self.assertEqual(error["hint"], refusal.hint)
            head = f"unknown:{error['line']}:{error['column']}: {error['message']}\n     |\n"
            self.assertTrue(refusal.shown.startswith(head), record)
            self.assertEqual(error["source"], text.split("\n")[location.line - 1].removesuffix("\r"))
            before = text.encode("utf-16-le")[: 2 * error["position"]].decode("utf-16-le")
            self.assertEqual(len(before.encode()), location.offset)
            self.assertTrue(error["source"].startswith(error["before"]))
            self.assertEqual(len(error["before"].encode()), error["column"] - 1)

    def test_hints(self) -> None:
        for text, hint in (("%sum = var infer %sun", "did you mean '%sum'?"), ("%x = var infer %y", None)):
            texts = self.shown("lhs", text, text)["texts"]
            self.assertEqual([one["error"]["hint"] for one in texts], [hint, hint])

    def test_places_are_in_units_of_the_script(self) -> None:
        error = self.shown("lhs", "; \U0001f600é\n%x = var ; é\ninfer\u2003%x 5")["texts"][0]["error"]
        self.assertEqual((error["line"], error["column"], error["source"]), (3, 12, "infer\u2003%x 5"))
        self.assertEqual((error["before"], error["position"]), ("infer\u2003%x ", 28))

    def test_comparisons(self) -> None:
        x, y = "%x = var infer %x", "%y = var %x = var infer %x"
        for first, second, same, renamed, item in (
            (x, y, True, True, 1), (x, "%y = var infer %y", False, True, 0), (x, "%x:i8 = var infer %x", False, False, 0),
            (x + x, x + y, True, True, 2), (x + " %a = var infer %a", x + y, False, True, 1), (x, x + y, False, False, 1),
            ("", "", True, True, 0), ("", x, False, False, 0), ("; one", " ", True, True, 0),
        ):
            found = self.shown("lhs", first, second)
            compared = found["compared"]
            self.assertEqual([compared[name] for name in ("same", "renamed", "item")], [same, renamed, item], (first, second))
            self.assertEqual(compared["rows"] == [], same)
            self.assertIs(souper.same("lhs", first, second), same)
        self.assertIsNone(self.shown("lhs", x)["compared"])
        for first, second in ((x, "infer"), ("infer", x), ("infer", "infer")):
            found = self.shown("lhs", first, second)
            self.assertIsNone(found["compared"])
            self.assertEqual(["error" in one for one in found["texts"]], [first == "infer", second == "infer"])

    def test_what_differs(self) -> None:
        x, y, z = "%x = var infer %x ", "%y = var infer %y ", "%x:i8 = var infer %x "
        for first, second, item, rows in (
            (x, y, 0, [("@", "1"), ("-", "%x = var"), ("-", "infer %x"), ("+", "%y = var"), ("+", "infer %y")]),
            # The names of the first item differ too.
            (x + x, y + z, 1, [("@", "1"), ("-", "%x = var"), ("+", "%x:i8 = var"), (" ", "infer %x")]),
            (x, x + y, 1, [("@", "1"), ("+", "%y = var"), ("+", "infer %y")]),
            (x + y, x, 1, [("@", "1"), ("-", "%y = var"), ("-", "infer %y")]),
        ):
            compared = self.shown("lhs", first, second)["compared"]
            self.assertEqual((compared["item"], compared["rows"]), (item, rows))

    def test_comparisons_of_stored_texts(self) -> None:
        for record in VALID:
            text, answer = record.text.decode(), record.answer.decode()
            found = self.shown(record.kind, text, answer)["compared"]
            self.assertEqual((found["same"], found["renamed"]), (True, True))
            renamed = souper.record_text(record.kind, text, rename=True)
            found = self.shown(record.kind, text, renamed)["compared"]
            self.assertEqual((found["same"], found["renamed"]), (renamed == answer, True))


class Page(unittest.TestCase):
    """The file of the page."""

    def test_its_size(self) -> None:
        self.assertLess(len(gzip.compress(PAGE.read_bytes())), 60_000)

    def test_it_has_nothing_from_elsewhere(self) -> None:
        text = PAGE.read_text()
        self.assertEqual(re.findall(r"\w+://[^\s\"'`]*", text), ["http://www.w3.org/2000/svg"])
        self.assertEqual(re.findall(r"\b(?:src|href|action|srcset|poster)=\S*", text), ['href="data:,">'])
        for word in ("@import", "url(", "<iframe", "<object", "<embed", "<base", "<form action", "import("):
            self.assertNotIn(word, text)

    def test_nothing_becomes_markup(self) -> None:
        text = PAGE.read_text()
        for word in ("innerHTML", "outerHTML", "insertAdjacentHTML", "document.write", "eval(", "Function(", "DOMParser",
                     "createContextualFragment", "setHTML", "srcdoc", "onclick=", "javascript:", 'setAttribute("style'):
            self.assertNotIn(word, text)


class Started:
    """A process of the program, and the address that it prints."""

    def __init__(self, *arguments: str | Path, **variables: str) -> None:
        self.process = subprocess.Popen(
            [sys.executable, "-m", "souper.page", *map(str, arguments)], env=environment(**variables),
            stdin=subprocess.DEVNULL, stdout=subprocess.PIPE, stderr=subprocess.PIPE,
        )
        assert self.process.stdout is not None
        self.line = self.process.stdout.readline().decode()
        found = re.fullmatch(r"http://(127\.0\.0\.1|localhost):(\d+)/([\w-]{43})/\n", self.line)
        assert found is not None, (self.line, self.process.stderr)
        self.host, self.port, self.token = found[1], int(found[2]), found[3]

    def get(self, path: str) -> Response:
        connection = http.client.HTTPConnection("127.0.0.1", self.port, timeout=20)
        connection.request("GET", f"/{self.token}/{path}", headers={"Host": f"{self.host}:{self.port}"})
        found = connection.getresponse()
        response = Response(found.status, found.headers, found.read())
        connection.close()
        return response

    def end(self, number: int = signal.SIGINT) -> tuple[int, bytes, bytes]:
        """The status and the rest of the output after a signal."""
        self.process.send_signal(number)
        out, err = self.process.communicate(timeout=20)
        return self.process.returncode, out, err


class Program(unittest.TestCase):
    """``python3 -m souper.page``."""

    def test_it_serves_until_it_is_interrupted(self) -> None:
        started = Started("rep", ROOT / "examples/conditions.souper")
        self.assertEqual(started.get("").body, PAGE.read_bytes())
        first = json.loads(started.get("start").body)
        self.assertEqual(first, {"kind": "rep", "text": (ROOT / "examples/conditions.souper").read_text()})
        self.assertEqual(started.end(), (130, b"", b""))
        with self.assertRaises(ConnectionRefusedError):
            started.get("")

    def test_it_ends_also_while_a_request_waits(self) -> None:
        started = Started()
        with socket.create_connection(("127.0.0.1", started.port)) as connection:
            connection.sendall(b"GET /")
            self.assertEqual(json.loads(started.get("start").body), {"kind": "lhs", "text": None})
            self.assertEqual(started.end(), (130, b"", b""))

    def test_kinds(self) -> None:
        for kind in ("lhs", "rhs", "rep"):
            started = Started(kind)
            self.assertEqual(json.loads(started.get("start").body), {"kind": kind, "text": None})
            self.assertEqual(started.end()[0], 130)

    def test_a_file_without_a_text(self) -> None:
        started = Started("lhs", "/dev/null")
        self.assertEqual(json.loads(started.get("start").body), {"kind": "lhs", "text": ""})
        self.assertEqual(started.end()[0], 130)

    def test_the_host_and_the_port(self) -> None:
        with socket.create_server(("127.0.0.1", 0)) as taken:
            port = taken.getsockname()[1]
            found = program("page", "--port", str(port))
            said = f"souper.page: port {port}: Address already in use\n"
            self.assertEqual((found.returncode, found.stdout, found.stderr.decode()), (2, b"", said))
        for words, host in (((), "127.0.0.1"), (("--host", "localhost"), "localhost"), (("--host", "127.0.0.1"), "127.0.0.1")):
            # The port is free again at once.
            started = Started("--port", str(port), *words, "rhs")
            self.assertEqual((started.host, started.port, started.get("").status), (host, port, 200))
            self.assertEqual(started.end(), (130, b"", b""))

    def test_it_listens_on_127_0_0_1_alone(self) -> None:
        started = Started()
        try:
            suffix = f":{started.port:04X}"
            found = [
                line.split()[1]
                for table in ("/proc/net/tcp", "/proc/net/tcp6")
                if Path(table).exists()
                for line in Path(table).read_text().splitlines()[1:]
                if line.split()[1].endswith(suffix) and line.split()[3] == "0A"
            ]
            self.assertEqual(found, [f"0100007F{suffix}"])
            for address in ("127.0.0.2", "::1", socket.gethostbyname(socket.gethostname())):
                if address != "127.0.0.1":
                    with self.subTest(address), self.assertRaises(OSError):
                        socket.create_connection((address, started.port), 5).close()
        finally:
            started.end()

    def test_each_start_has_another_token_and_port(self) -> None:
        first, second = Started(), Started()
        self.assertNotEqual(first.token, second.token)
        self.assertNotEqual(first.port, second.port)
        self.assertEqual((first.end()[0], second.end()[0]), (130, 130))

    def test_it_opens_a_browser_only_when_asked(self) -> None:
        with tempfile.TemporaryDirectory() as folder:
            browser, note = Path(folder, "browser"), Path(folder, "note")
            browser.write_text(f'#!/bin/sh\necho "$@" >>"{note}"\n')
            browser.chmod(browser.stat().st_mode | stat.S_IXUSR)
            started = Started("lhs", BROWSER=str(browser))
            started.get("start")
            self.assertEqual(started.end()[0], 130)
            self.assertFalse(note.exists())
            started = Started("--open", "lhs", BROWSER=str(browser))
            until = time.monotonic() + 20
            while not note.exists() or not note.read_text().endswith("\n"):
                self.assertLess(time.monotonic(), until)
                time.sleep(0.02)
            self.assertEqual(note.read_text(), started.line)
            self.assertEqual(started.end()[0], 130)

    def test_it_says_nothing_of_requests(self) -> None:
        started = Started()
        started.get("")
        started.get("none")
        with socket.create_connection(("127.0.0.1", started.port)) as connection:
            connection.sendall(b"\x00\r\n\r\n")
            select.select([connection], [], [], 5)
        # A client that goes away before its answer.
        for _ in range(5):
            connection = socket.create_connection(("127.0.0.1", started.port))
            connection.setsockopt(socket.SOL_SOCKET, socket.SO_LINGER, b"\1\0\0\0\0\0\0\0")
            connection.sendall(f"GET /{started.token}/ HTTP/1.1\r\nHost: 127.0.0.1:{started.port}\r\n\r\n".encode())
            connection.close()
        self.assertEqual(started.get("start").status, 200)
        self.assertEqual(started.end(), (130, b"", b""))

    def test_what_fails(self) -> None:
        with tempfile.TemporaryDirectory() as folder:
            bad = Path(folder, "bad.lhs")
            bad.write_bytes(b"%x = var \xff")
            for arguments, said in (
                (["lhs", "/nowhere"], "souper.page: /nowhere: No such file or directory\n"),
                (["lhs", bad], f"souper.page: {bad}: not UTF-8 at byte 9\n"),
                (["lhs", "-"], "souper.page: (standard input): not UTF-8 at byte 0\n"),
            ):
                found = program("page", *arguments, input=b"\xff")
                self.assertEqual((found.returncode, found.stdout, found.stderr.decode()), (2, b"", said))
        usage = b"usage: souper.page [-h] [--open] [--host HOST] [--port PORT] [KIND] [FILE]\n"
        for arguments in (["left"], ["--port", "http"], ["--port", "65536"], ["--port", "-1"], ["--port", "+80"], ["--port", "\u0663"],
                          ["--host", "0.0.0.0"], ["--host", "::1"], ["--host", ""], ["lhs", "a", "b"]):
            found = program("page", *arguments, COLUMNS="80")
            self.assertEqual((found.returncode, found.stdout), (2, b""), arguments)
            self.assertTrue(found.stderr.startswith(usage), found)

    def test_a_text_that_is_invalid_is_served(self) -> None:
        started = Started("lhs", ROOT / "examples/invalid.souper")
        text = json.loads(started.get("start").body)["text"]
        self.assertEqual(text, (ROOT / "examples/invalid.souper").read_text())
        self.assertEqual(started.end()[0], 130)


if __name__ == "__main__":
    main("Page")
