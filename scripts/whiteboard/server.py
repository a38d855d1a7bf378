"""Serves the whiteboard's page to this machine alone."""

import json
import select
import socket
from http.server import BaseHTTPRequestHandler, ThreadingHTTPServer
from pathlib import Path

from asking import Programs, at_most
from drawing.svg import COLOURS, css
from reading.cells import WIDE

from . import desk, files

PAGE = Path(__file__).parent / "page"
COMMAND = "bin/whiteboard"

# a field's bytes may each be six in JSON
MOST_BODY = 6 * 4 * files.MOST_BYTES
MOST_OPENED = 64

# seconds that a program may take for an answer, and when one looks for two readings; how many run
# at once
SECONDS, LOOKING, AT_ONCE = 10, 20, 2

HEADERS = {
    "Content-Security-Policy": "default-src 'none'; script-src 'self'; style-src 'self'; "
    "connect-src 'self'; img-src 'self' data:; base-uri 'none'; form-action 'none'; "
    "frame-ancestors 'none'",
    "X-Content-Type-Options": "nosniff",
    "Referrer-Policy": "no-referrer",
    "Cross-Origin-Resource-Policy": "same-origin",
    "Cache-Control": "no-store",
}


def colours():
    """The pictures' colours, for the page to use too."""
    light, dark = (
        "".join(f"--{name}:{pair[n]};" for name, pair in COLOURS.items()) for n in (0, 1)
    )
    in_dark = f"@media (prefers-color-scheme:dark){{:root{{{dark}}}}}"
    return f":root{{{light}}}{in_dark}@media print{{:root{{{light}}}}}\n{css()}\n".encode("utf-8")


FILES = {
    "/": ("text/html", lambda: (PAGE / "index.html").read_bytes()),
    "/page.css": ("text/css", lambda: (PAGE / "page.css").read_bytes()),
    "/page.js": ("text/javascript", lambda: (PAGE / "page.js").read_bytes()),
    "/picture.css": ("text/css", colours),
}


class Bad(Exception):
    """A request that is not answered: its status and why."""

    def __init__(self, status, said):
        super().__init__(said)
        self.status = status


class Handler(BaseHTTPRequestHandler):
    """GET for the page's files, POST of JSON for questions."""

    server_version, sys_version, timeout = "whiteboard", "", 30

    def do_GET(self):
        self.answered(self.page)

    def do_POST(self):
        self.answered(self.question)

    def answered(self, act):
        try:
            self.check_host()
            self.answer(200, *act())
        except Bad as bad:
            # what the question still holds is not read
            self.close_connection = True
            self.answer(bad.status, "application/json", said(str(bad)))
        except (ConnectionError, TimeoutError):
            self.close_connection = True
        except Exception as error:  # noqa: BLE001  (a mistake of ours: a sentence, never a trace)
            self.close_connection = True
            self.answer(
                500,
                "application/json",
                said(f"The whiteboard made a mistake: {type(error).__name__}."),
            )

    def page(self):
        if self.path not in FILES:
            raise Bad(404, "there is no such page")
        kind, made = FILES[self.path]
        return kind, made()

    def question(self):
        self.check_origin()
        if self.path not in QUESTIONS:
            raise Bad(404, "there is no such question")
        asked = self.body()
        server = self.server
        programs = Programs(COMMAND, SECONDS, server.turns, self.is_over, built=server.built)
        answer = QUESTIONS[self.path](self.server, asked, programs)
        return "application/json", json.dumps(answer).encode("ascii")

    def check_host(self):
        if self.headers.get_all("Host") is None or self.headers["Host"] not in self.server.hosts:
            raise Bad(403, "this host is not served")

    def check_origin(self):
        if self.headers.get("Origin", "") != f"http://{self.headers['Host']}":
            raise Bad(403, "only the page itself may ask")
        if self.headers.get("Sec-Fetch-Site", "same-origin") != "same-origin":
            raise Bad(403, "only the page itself may ask")
        if self.headers.get_content_type() != "application/json":
            raise Bad(415, "questions are JSON")

    def body(self):
        length = self.headers.get("Content-Length", "")
        if not (length.isascii() and length.isdigit()):
            raise Bad(411, "a question has a length")
        if len(length) > 9 or int(length) > MOST_BODY:
            raise Bad(413, "the question is too long")
        try:
            found = json.loads(self.rfile.read(int(length)))
        except (ValueError, RecursionError) as error:
            raise Bad(400, "questions are JSON") from error
        if not isinstance(found, dict):
            raise Bad(400, "a question is an object")
        return found

    def is_over(self):
        """Has the page gone on to something else?"""
        try:
            ready, _, _ = select.select([self.connection], [], [], 0)
            return bool(ready) and not self.connection.recv(1, socket.MSG_PEEK)
        except OSError:
            return True

    def answer(self, status, kind, data):
        try:
            self.send_response(status)
            for name, value in HEADERS.items():
                self.send_header(name, value)
            self.send_header("Content-Type", f"{kind}; charset=utf-8")
            self.send_header("Content-Length", str(len(data)))
            self.end_headers()
            self.wfile.write(data)
        except OSError:
            # nobody is there any more
            self.close_connection = True

    def log_message(self, *_):
        pass


def said(text):
    return json.dumps({"said": text}).encode("ascii")


# ---- the questions of the page


def start(server, _asked, _programs):
    fields, note = server.first()
    name = server.file.name if server.file else ""
    return {"fields": fields, "file": name, "said": note, "wide": WIDE, "bytes": files.MOST_BYTES}


def read(_server, asked, programs):
    opened = asked.get("opened")
    opened = [str(key) for key in opened[:MOST_OPENED]] if isinstance(opened, list) else []
    try:
        return desk.Desk(asked, programs).shown(bool(asked.get("fold")), opened)
    except desk.Fault as fault:
        return desk.nothing([fault.note])


def look(_server, asked, programs):
    bound = asked.get("bound")
    if type(bound) is not int or not 1 <= bound <= 7:
        return {"said": "Patches of 1 to 7 tokens can be swept."}
    programs.seconds = LOOKING
    try:
        return desk.Desk(asked, programs).found(bound, SECONDS)
    except desk.Fault as fault:
        return {"said": f"Nothing was looked for: {fault}."}


def open_files(_server, asked, _programs):
    texts = asked.get("files")
    is_list = isinstance(texts, list) and all(isinstance(text, str) for text in texts)
    if not is_list or not all(len(text) <= 4 * files.MOST_BYTES for text in texts):
        return {"said": f"A file has at most {files.MOST_BYTES:,} bytes a sheet."}
    fields, note = files.opened(texts, str(asked.get("names", "")))
    if not all(files.is_short(text) for text in fields.values()):
        return {"said": f"A file has at most {files.MOST_BYTES:,} bytes a sheet."}
    return {"fields": fields, "said": f"Opened: {', '.join(fields) or 'nothing'}. {note}".strip()}


def save(server, asked, programs):
    name = server.file.stem if server.file else "board"
    try:
        return desk.Desk(asked, programs).files(name)
    except desk.Fault as fault:
        return {"files": [], "said": f"Not saved: {fault}."}


QUESTIONS = {
    "/api/start": start,
    "/api/read": read,
    "/api/look": look,
    "/api/open": open_files,
    "/api/save": save,
}


class Server(ThreadingHTTPServer):
    """The page on 127.0.0.1. It keeps nothing but the name of the file that it begins with."""

    daemon_threads = True

    def __init__(self, file, port, built=()):
        super().__init__(("127.0.0.1", port), Handler)
        self.file = Path(file) if file else None
        self.hosts = [f"{name}:{self.server_port}" for name in ("127.0.0.1", "localhost")]
        self.turns, self.built = at_most(AT_ONCE), set(built)

    @property
    def address(self):
        return f"http://127.0.0.1:{self.server_port}/"

    def first(self):
        """The fields that the page begins with: the file's, with the names beside it, or an
        example.
        """
        if not self.file:
            return dict(desk.EXAMPLE), ""
        try:
            texts = [self.file.read_text(encoding="utf-8")]
            beside = self.file.with_suffix(".names")
            texts += [beside.read_text(encoding="utf-8")] if beside.exists() else []
        except (OSError, ValueError) as error:
            reason = error.strerror if isinstance(error, OSError) else "not text in UTF-8"
            return dict.fromkeys(files.FIELDS, ""), f"{self.file.name} could not be read: {reason}."
        fields, note = files.opened(texts)
        return dict.fromkeys(files.FIELDS, "") | fields, note

    def handle_error(self, request, client_address):
        pass
