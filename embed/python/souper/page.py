"""A page that shows what Souper IR is: its canonical text, its keys and its graph.

    python3 -m souper.page [--open] [--host HOST] [--port PORT] [KIND [FILE]]

It prints the address of the page, and serves it until ^C. A browser on this computer alone reaches
it: the server listens on 127.0.0.1, at a port that the system chooses if none is given. The address
has a token that nobody can guess. A request without it is answered 404, and one that another page
made, or that was made under another name of the host, 403. The host's name is 127.0.0.1 or, with
``--host localhost``, localhost, as for a port that ssh forwards.
"""

from __future__ import annotations

import argparse
import base64
import hashlib
import hmac
import json
import re
import secrets
import sys
import threading
import webbrowser
from collections.abc import Callable
from functools import partial
from http import HTTPStatus
from http.server import BaseHTTPRequestHandler, ThreadingHTTPServer
from pathlib import Path
from socketserver import TCPServer
from typing import Any, TypeAlias

from . import _programs
from ._calls import format, records
from ._differences import rows
from ._errors import Location, Refused
from ._pictures import Box, pictures
from ._values import Kind
from .draw import dot

__all__ = ["PageServer"]

Json: TypeAlias = dict[str, Any]

ADDRESS = "127.0.0.1"
HOSTS = (ADDRESS, "localhost")
GREATEST_BODY = 1 << 20
_DISCARDED = 1 << 26
_PAGE = Path(__file__).with_name("page.html")


class BadQuestion(ValueError):
    """A question that the page doesn't ask."""


def answer(question: object) -> Json:
    """What the page shows for a kind and one or two texts: the first one's item, what of it is not
    canonical, and whether the second has the same graphs. A text that is not valid is an error in
    the answer.
    """
    kind, texts, item = _parts(question)
    found: Json = {"texts": [_shown(kind, text, item) for text in texts], "compared": None}
    if len(texts) == 2 and not any("error" in one for one in found["texts"]):
        found["compared"] = _compared(kind, *texts)
    return found


def graph(question: object) -> Json:
    """An item of a valid text in DOT."""
    kind, texts, item = _parts(question)
    try:
        found = records(kind, texts[0])
    except Refused:
        found = []
    if item >= len(found):
        raise BadQuestion("the text has no such item")
    return {"dot": dot(kind, found[item].text)}


def _parts(question: object) -> tuple[Kind, list[str], int]:
    match question:
        case {"kind": "lhs" | "rhs" | "rep" as kind, "texts": list(texts), "item": int(item)}:
            if len(texts) in (1, 2) and all(isinstance(text, str) for text in texts) and item >= 0:
                return Kind(kind), texts, item
    raise BadQuestion("a question has a kind, one or two texts, and the index of an item")


def _shown(kind: Kind, text: str, item: int) -> Json:
    try:
        found = records(kind, text)
    except Refused as refusal:
        return {"error": _error(refusal, text)}
    if not found:
        return {"count": 0, "text": ""}
    item = min(item, len(found) - 1)
    canonical = format(kind, text)
    [picture] = pictures(kind, found[item].text)
    return {
        "count": len(found),
        "text": canonical,
        "canonical": canonical == text,
        "changes": rows(text, canonical),
        "item": item,
        "key": found[item].key,
        "renamed": records(kind, found[item].text, rename=True)[0].key,
        "boxes": [_box(box) for box in picture],
    }


def _box(box: Box) -> Json:
    uses = [[use.position, use.label] for use in box.uses]
    return {"text": box.text, "mark": box.mark.value, "uses": uses, "root": box.is_root}


def _error(refusal: Refused, text: str) -> Json:
    """A parse error. Positions in the text are in the units of the page's script, UTF-16."""
    at = refusal.location or Location(refusal.offset, refusal.line, refusal.column)
    *_, line = text.split("\n", at.line)[: at.line]
    before = text.encode()[: at.offset].decode(errors="ignore")
    return {
        "message": refusal.message,
        "hint": refusal.hint,
        "line": at.line,
        "column": at.column,
        "source": line.removesuffix("\r"),
        # The caret is below the byte of the column, the first of which is the column 1.
        "before": line.encode()[: at.column - 1].decode(errors="ignore"),
        "position": len(before.encode("utf-16-le")) // 2,
    }


def _compared(kind: Kind, first: str, second: str) -> Json:
    """Whether two valid texts have the same graphs, modulo renaming too, and what differs first: an
    item's graph or, if all are the same modulo renaming, its names.
    """
    one, other = (_texts(kind, text) for text in (first, second))
    renamed = tuple(_texts(kind, text, rename=True) for text in (first, second))
    are_renamed = renamed[0] == renamed[1]
    pairs = enumerate(zip(one, other) if are_renamed else zip(*renamed))
    item = next((number for number, (a, b) in pairs if a != b), min(len(one), len(other)))
    items = ("".join(texts[item : item + 1]) for texts in (one, other))
    return {"same": one == other, "renamed": are_renamed, "item": item, "rows": rows(*items)}


def _texts(kind: Kind, text: str, rename: bool = False) -> list[str]:
    return [record.text for record in records(kind, text, rename=rename)]


def _policy(page: str) -> str:
    """The page's policy: its own style and script alone, and questions to its own server."""

    def digest(element: str) -> str:
        [content] = re.findall(f"<{element}>(.*?)</{element}>", page, re.DOTALL)
        found = hashlib.sha256(content.encode()).digest()
        return f"'sha256-{base64.b64encode(found).decode()}'"

    return "; ".join((
        "default-src 'none'",
        f"script-src {digest('script')}",
        f"style-src {digest('style')}",
        "connect-src 'self'",
        "img-src data:",
        "base-uri 'none'",
        "form-action 'none'",
        "frame-ancestors 'none'",
        "require-trusted-types-for 'script'",
        "trusted-types 'none'",
    ))


class PageServer(ThreadingHTTPServer):
    """The page's server, with the kind and the text that the page begins with: an example, if the
    text is `None`. The port is chosen, if it is 0.
    """

    daemon_threads = True

    def __init__(
        self,
        kind: Kind | str = Kind.LHS,
        text: str | None = None,
        *,
        host: str = ADDRESS,
        port: int = 0,
    ) -> None:
        if host not in HOSTS:
            raise ValueError(f"the host is {' or '.join(HOSTS)}")
        self.start: Json = {"kind": Kind(kind).value, "text": text}
        self.page = _PAGE.read_bytes()
        self.policy = _policy(self.page.decode())
        self.token = secrets.token_urlsafe(32)
        super().__init__((ADDRESS, port), _Handler)
        # As a browser writes it.
        self.host = host if self.server_port == 80 else f"{host}:{self.server_port}"

    @property
    def address(self) -> str:
        """The address of the page."""
        return f"http://{self.host}/{self.token}/"

    def server_bind(self) -> None:
        # HTTPServer's would look up the host's name.
        TCPServer.server_bind(self)
        self.server_name, self.server_port = ADDRESS, self.server_address[1]

    def handle_error(self, request: Any, client_address: Any) -> None:
        # A browser may close a connection at any time.
        if not isinstance(sys.exc_info()[1], ConnectionError | TimeoutError):
            super().handle_error(request, client_address)


class _Handler(BaseHTTPRequestHandler):
    server: PageServer
    server_version = "souper"
    sys_version = ""
    timeout = 30
    error_content_type = "text/plain; charset=utf-8"
    error_message_format = "%(code)d %(message)s\n"

    def do_GET(self) -> None:
        self._answer({"": self._send_page, "start": self._send_start})

    def do_POST(self) -> None:
        answers = {"ask": answer, "dot": graph}
        self._answer({path: partial(self._ask, asked) for path, asked in answers.items()})

    def _answer(self, answers: dict[str, Callable[[], None]]) -> None:
        """Answers by the path after the token, if the request is one of the page's own."""
        if not self._is_ours():
            return self._refuse(HTTPStatus.FORBIDDEN)
        path = self._path()
        if path not in ("", "start", "ask", "dot"):
            return self._refuse(HTTPStatus.NOT_FOUND)
        if path not in answers:
            return self._refuse(HTTPStatus.METHOD_NOT_ALLOWED)
        answers[path]()

    def _is_ours(self) -> bool:
        """Whether the request is for this host, and made by the page or by nobody's page."""
        if self.headers.get_all("Host") != [self.server.host]:
            return False
        # A browser says which page made a request; of a question it always does.
        origins = self.headers.get_all("Origin") or []
        if origins != [f"http://{self.server.host}"] and (origins or self.command == "POST"):
            return False
        return self.headers.get("Sec-Fetch-Site", "none") in ("none", "same-origin")

    def _path(self) -> str | None:
        """The path after the token; None without the token."""
        _, token, *rest = (self.path if self.path.startswith("/") else "/").split("/", 2)
        if not hmac.compare_digest(token.encode(), self.server.token.encode()):
            return None
        return rest[0] if rest else None

    def _send_page(self) -> None:
        self._send(HTTPStatus.OK, "text/html; charset=utf-8", self.server.page)

    def _send_start(self) -> None:
        self._send_json(self.server.start)

    def _ask(self, asked: Callable[[object], Json]) -> None:
        length = self.headers.get("Content-Length", "")
        if self.headers.get_content_type() != "application/json":
            return self._refuse(HTTPStatus.UNSUPPORTED_MEDIA_TYPE)
        if not re.fullmatch("[0-9]{1,19}", length):
            return self._refuse(HTTPStatus.LENGTH_REQUIRED)
        if int(length) > GREATEST_BODY:
            self._refuse(HTTPStatus.REQUEST_ENTITY_TOO_LARGE, "The texts are longer than 1 MiB.")
            return self._discard(min(int(length), _DISCARDED))
        try:
            found = asked(json.loads(self.rfile.read(int(length)).decode()))
        except UnicodeError:
            return self._refuse(HTTPStatus.BAD_REQUEST, "The text is not UTF-8.")
        except BadQuestion as error:
            return self._refuse(HTTPStatus.BAD_REQUEST, f"{error}.")
        except (ValueError, RecursionError):
            return self._refuse(HTTPStatus.BAD_REQUEST, "The question is not JSON.")
        except MemoryError:
            return self._refuse(HTTPStatus.INSUFFICIENT_STORAGE, "Out of memory.")
        self._send_json(found)

    def _discard(self, length: int) -> None:
        """Reads a body off: a client that still writes would not see the answer."""
        self.wfile.flush()
        while length > 0:
            read = self.rfile.read(min(length, 1 << 16))
            length = length - len(read) if read else 0

    def _refuse(self, status: HTTPStatus, why: str = "") -> None:
        self._send(status, "text/plain; charset=utf-8", f"{why or status.phrase}\n".encode())

    def _send_json(self, found: Json) -> None:
        body = json.dumps(found, separators=(",", ":")).encode()
        self._send(HTTPStatus.OK, "application/json", body)

    def _send(self, status: HTTPStatus, content_type: str, body: bytes) -> None:
        self.send_response(status)
        self.send_header("Content-Type", content_type)
        self.send_header("Content-Length", str(len(body)))
        self.end_headers()
        self.wfile.write(body)

    def end_headers(self) -> None:
        self.send_header("Content-Security-Policy", self.server.policy)
        self.send_header("Cache-Control", "no-store")
        self.send_header("Cross-Origin-Opener-Policy", "same-origin")
        self.send_header("Cross-Origin-Resource-Policy", "same-origin")
        self.send_header("Referrer-Policy", "no-referrer")
        self.send_header("X-Content-Type-Options", "nosniff")
        self.send_header("X-Frame-Options", "DENY")
        super().end_headers()

    def log_message(self, format: str, *args: Any) -> None:
        """Nothing: a line of a log would have the token."""


def _port(word: str) -> int:
    if re.fullmatch("[0-9]{1,5}", word) and int(word) < 1 << 16:
        return int(word)
    raise argparse.ArgumentTypeError("a port is a number from 0 to 65535")


def _parser() -> argparse.ArgumentParser:
    parser = _programs.Parser(
        prog=_programs.name("page"),
        description="Serves a page that shows the canonical text, keys and graph of Souper IR.",
        epilog="It prints the page's address, for a browser on this computer; ^C ends it. "
        "Status: 130, ^C; 2, usage, I/O or memory.",
    )
    parser.add_argument(
        "--open",
        action="store_true",
        help="open the page in the browser, whose command line then has the address",
    )
    parser.add_argument(
        "--host",
        choices=HOSTS,
        default=ADDRESS,
        metavar="HOST",
        help="the name of this computer in the address: 127.0.0.1 (the default) or localhost",
    )
    parser.add_argument(
        "--port",
        type=_port,
        default=0,
        metavar="PORT",
        help="the port of the address; without one, or for 0, the system chooses it",
    )
    _programs.add_kind(parser, default="lhs")
    parser.add_argument(
        "file",
        nargs="?",
        metavar="FILE",
        help="the text that the page begins with, else an example; for `-`, standard input",
    )
    return parser


def _text(path: str | None) -> str | None:
    if path is None:
        return None
    name, data = _programs.source(path)
    try:
        return data.decode()
    except UnicodeDecodeError as error:
        raise _programs.not_utf8(name, error) from None


def _main() -> None:
    arguments = _parser().parse_args()
    kind, text, port = arguments.kind, _text(arguments.file), arguments.port
    try:
        server = PageServer(kind, text, host=arguments.host, port=port)
    except OSError as error:
        raise _programs.Failure(f"port {port}: {error.strerror or error}") from error
    with server:
        print(server.address, flush=True)
        if arguments.open:
            # A browser in the terminal takes its time.
            threading.Thread(target=webbrowser.open, args=(server.address,), daemon=True).start()
        server.serve_forever()


def command() -> None:
    """Runs the program."""
    _programs.run("page", _main)


if __name__ == "__main__":
    command()
