"""The drawing board's server: one page, and the answers of the proved programs to it. `tools/board` starts it.

It listens on 127.0.0.1 alone and serves three things: `GET /` is the page, `POST /desk` are lines for the desk, answered line by line, and
`POST /list` are parcels (`put` lines), answered by the number of each put and the list of those that stand. Everything else is an error with
one line of text. Each request stands by itself: the sheet is cleared before it. The page does not compute, and neither does this file: it
passes lines on. What a request may be is bounded here, by the constants below.
"""

import base64
import hashlib
import http.server
import json
import os
import re
import selectors
import shutil
import signal
import socket
import subprocess
import sys
import threading
import time

ROOT = os.path.dirname(os.path.dirname(os.path.abspath(__file__)))
RUN = os.path.join(ROOT, "tools", "run")

MOST_BYTES = 65536  # of a request's body
MOST_LINES = 320  # of a request: a pair and the edges of a parcel, or 32 parcels and a write, with much room
MOST_CLIENTS = 16  # that are served at a time; one more is turned away
MOST_SECONDS = 10  # that a client may take for its whole request, and then for taking some of the answer
PROGRAM_SECONDS = 5  # that a program may take for its answer
CARD = 17036  # bytes that hold any card
# What the page asks the desk: other words, `poke` and `lend` above all, are not passed on.
LINE = re.compile(rb"(?:pair|put|edge)(?: -?[0-9]{1,10})+|load (?:[0-9a-f]{2})+|load -|write [0-9]{1,5}")
PUT = re.compile(rb"put(?: -?[0-9]{1,10})+")


class Wrong(Exception):
    """A request that is not answered: the status, and a line that says why."""

    def __init__(self, status, why):
        super().__init__(why)
        self.status = status


class Ended(Exception):
    """A program that gave no answer: it ended, or took too long."""


class Program:
    """A Rattle program that runs. It is killed with all that it started."""

    words = {}  # by a program's name, how it is started

    def __init__(self, name):
        if name not in self.words:
            self.words[name] = subprocess.run([RUN, "--how", name], stdin=subprocess.DEVNULL, stdout=subprocess.PIPE, check=True).stdout.splitlines()
        self.process = subprocess.Popen(
            self.words[name], stdin=subprocess.PIPE, stdout=subprocess.PIPE, stderr=subprocess.DEVNULL, start_new_session=True,
            env={word: value for word, value in os.environ.items() if not word.startswith("QEMU_")},
        )
        for pipe in (self.process.stdin, self.process.stdout):
            os.set_blocking(pipe.fileno(), False)

    def ask(self, text, is_whole):
        """Writes the text and reads until the answer is whole, both at once, so that neither side waits for the other."""
        deadline = time.monotonic() + PROGRAM_SECONDS
        answer = b""
        with selectors.DefaultSelector() as ready:
            ready.register(self.process.stdout, selectors.EVENT_READ)
            ready.register(self.process.stdin, selectors.EVENT_WRITE)
            while True:
                left = deadline - time.monotonic()
                if left <= 0:
                    raise Ended("took too long")
                for key, _ in ready.select(left):
                    if key.fileobj is self.process.stdout:
                        piece = os.read(key.fd, 65536)
                        answer += piece
                        if is_whole(answer, not piece):
                            return answer
                        if not piece:
                            raise Ended("ended")
                    elif text:
                        try:
                            text = text[os.write(key.fd, text) :]
                        except OSError as error:
                            raise Ended("ended") from error
                    else:
                        ready.unregister(self.process.stdin)
                        self.sent()

    def sent(self):
        """All is written: the desk's input stays open."""

    def end(self):
        try:
            os.killpg(self.process.pid, signal.SIGKILL)
        except ProcessLookupError:
            pass
        self.process.stdin.close()
        self.process.stdout.close()
        self.process.wait()


class Listing(Program):
    """The listing reads one card, to the end of its input. Its list is whole when it has ended well."""

    def sent(self):
        self.process.stdin.close()

    def ask(self, text, is_whole):
        answer = super().ask(text, is_whole)
        try:
            status = self.process.wait(PROGRAM_SECONDS)
        except subprocess.TimeoutExpired:
            status = None
        if status != 0:
            raise Ended("ended")
        return answer


class Programs:
    """A desk that is kept, and a listing that waits for the next card, so that no request waits for a start. One request at a time asks."""

    def __init__(self):
        self.lock = threading.Lock()
        self.running = {}

    def ask(self, kind, name, text, is_whole):
        """Asks the program. Every request is whole in itself, so where the program has ended a new one is asked the same, once."""
        for attempt in (1, 2):
            program = self.running.pop(name, None) or kind(name)
            try:
                answer = program.ask(text, is_whole)
            except Ended as error:
                program.end()
                if attempt == 2:
                    raise Wrong(503, f"the {name} {error}; start the board again") from error
                continue
            if kind is Listing:
                program.end()
                program = kind(name)
            self.running[name] = program
            return answer
        return None

    def desk(self, lines):
        """The answers to the lines, after a `clear` of the sheet."""
        count = len(lines) + 1
        text = b"".join(line + b"\n" for line in [b"clear", *lines])
        answer = self.ask(Program, "desk", text, lambda answer, _: answer.count(b"\n") >= count)
        return answer.split(b"\n")[1:count]

    def list(self, puts):
        """The numbers of the puts in one line, then the list of the parcels that stand."""
        *numbers, written = self.desk([*puts, b"write %d" % CARD])
        number, length, digits = written.split(b" ")
        if number != b"0":
            raise Wrong(503, "the card could not be written")
        card = bytes.fromhex(digits.decode())[: int(length)]
        return b" ".join(numbers) + b"\n" + self.ask(Listing, "listing", card, lambda _, is_over: is_over)

    def start(self):
        """Starts both, so that the first request finds them there."""
        with self.lock:
            self.list([])

    def in_turn(self, does, lines):
        """What is answered when it is this request's turn."""
        if not self.lock.acquire(timeout=MOST_SECONDS):
            raise Wrong(503, "too many ask at once")
        try:
            return does(lines)
        finally:
            self.lock.release()

    def end(self):
        with self.lock:
            for program in self.running.values():
                program.end()
            self.running.clear()


def checked(body, form):
    """The lines of a body, each of a form that is passed on."""
    lines = body.split(b"\n")
    if lines[-1] == b"":
        lines.pop()
    if len(lines) > MOST_LINES:
        raise Wrong(400, f"more than {MOST_LINES} lines")
    for place, line in enumerate(lines, 1):
        if not form.fullmatch(line):
            raise Wrong(400, f"line {place} is nothing that the board asks")
    if sum(line.startswith(b"write") for line in lines) > 1:
        raise Wrong(400, "more than one write")
    return lines


def given():
    """What the page is given besides: the worked outlines, and what each number means. Both stand once, in their documents."""
    outlines, title = [], None
    with open(os.path.join(ROOT, "examples", "outlines.requests"), encoding="utf-8") as file:
        for line in file:
            heading = re.fullmatch(r"# ([0-9]+): (.*)\n", line)
            if heading:
                title = heading.groups()
            elif title and line.startswith("pair "):
                outlines.append({"number": title[0], "title": title[1], "request": line.strip()})
                title = None
    numbers = {}
    with open(os.path.join(ROOT, "docs", "NUMBERS.md"), encoding="utf-8") as file:
        for line in file:
            row = re.fullmatch(r"\| ([0-9]+) \| (.*) \| (.*) \|\n", line)
            if row:
                numbers[row[1]] = {"when": row[2], "helps": row[3]}
    return {"outlines": outlines, "numbers": numbers}


def page():
    """The page with what it is given, and the policy under which it loads nothing and runs only its own script."""
    with open(os.path.join(ROOT, "board", "page.html"), encoding="utf-8") as file:
        text = file.read()
    data = json.dumps(given()).replace("<", "\\u003c")
    text = text.replace("{}</script>", data + "</script>", 1)

    def digest(tag):
        inner = re.search(rf"<{tag}>(.*?)</{tag}>", text, re.DOTALL).group(1)
        return base64.b64encode(hashlib.sha256(inner.encode()).digest()).decode()

    policy = (
        f"default-src 'none'; script-src 'sha256-{digest('script')}'; style-src 'sha256-{digest('style')}'; img-src data:; "
        "connect-src 'self'; base-uri 'none'; form-action 'none'; frame-ancestors 'none'"
    )
    return text.encode(), policy


class Server(http.server.ThreadingHTTPServer):
    daemon_threads = True
    request_queue_size = 64

    def __init__(self, port):
        super().__init__(("127.0.0.1", port), Handler)
        self.port = self.server_address[1]
        self.clients = threading.BoundedSemaphore(MOST_CLIENTS)
        self.programs = Programs()
        self.page, self.policy = page()

    def process_request(self, request, client_address):
        if not self.clients.acquire(blocking=False):
            self.shutdown_request(request)
            return
        super().process_request(request, client_address)

    def process_request_thread(self, request, client_address):
        try:
            super().process_request_thread(request, client_address)
        finally:
            self.clients.release()

    def handle_error(self, request, client_address):
        """A client that went away, or was too slow."""


class Handler(http.server.BaseHTTPRequestHandler):
    timeout = MOST_SECONDS
    disable_nagle_algorithm = True
    wbufsize = -1
    server_version = "board"
    sys_version = ""

    def setup(self):
        super().setup()
        # The whole request has this long, however slowly its bytes come.
        self.clock = threading.Timer(MOST_SECONDS, self.cut)
        self.clock.daemon = True
        self.clock.start()

    def finish(self):
        self.clock.cancel()
        super().finish()

    def cut(self):
        try:
            self.connection.shutdown(socket.SHUT_RDWR)
        except OSError:
            pass

    def log_message(self, *_):
        """Nothing is told of a request."""

    def reply(self, status, kind, content):
        self.send_response(status)
        self.send_header("Content-Type", kind + "; charset=utf-8")
        self.send_header("Content-Length", str(len(content)))
        self.send_header("Content-Security-Policy", self.server.policy)
        self.send_header("Cache-Control", "no-store")
        self.send_header("Cross-Origin-Resource-Policy", "same-origin")
        self.send_header("Referrer-Policy", "no-referrer")
        self.send_header("X-Content-Type-Options", "nosniff")
        self.send_header("Connection", "close")
        self.end_headers()
        if self.command != "HEAD":
            self.wfile.write(content)
        self.close_connection = True

    def send_error(self, code, message=None, explain=None):
        """Errors of the library, of a request that is no HTTP or has another method, are one line too."""
        code = 405 if code == 501 else code
        self.reply(code, "text/plain", ((message or "no such request") + "\n").encode(errors="replace"))

    def is_ours(self):
        """Nobody but the page asks: no other name of this machine, and no page from elsewhere."""
        names = [f"127.0.0.1:{self.server.port}", f"localhost:{self.server.port}"]
        hosts = self.headers.get_all("Host", [])
        origins = self.headers.get_all("Origin", [])
        return len(hosts) == 1 and hosts[0] in names and all(origin in ["http://" + name for name in names] for origin in origins)

    def body(self):
        lengths = self.headers.get_all("Content-Length", [])
        if self.headers.get("Transfer-Encoding") or len(lengths) != 1 or not re.fullmatch("[0-9]{1,9}", lengths[0]):
            raise Wrong(400, "the length of the request is not said")
        if int(lengths[0]) > MOST_BYTES:
            raise Wrong(413, f"more than {MOST_BYTES} bytes")
        body = self.rfile.read(int(lengths[0]))
        self.clock.cancel()
        if len(body) < int(lengths[0]):
            raise Wrong(400, "the request is cut off")
        return body

    def serve(self, does):
        try:
            if not self.is_ours():
                raise Wrong(403, "the board answers its own page only")
            kind, content = does()
            self.reply(200, kind, content)
        except Wrong as error:
            self.reply(error.status, "text/plain", f"{error}\n".encode())

    def do_GET(self):
        self.serve(self.get)

    def do_POST(self):
        self.serve(self.post)

    def get(self):
        if self.path != "/":
            raise Wrong(405 if self.path in ("/desk", "/list") else 404, "there is only the page")
        return "text/html", self.server.page

    def post(self):
        if self.path not in ("/desk", "/list"):
            raise Wrong(405 if self.path == "/" else 404, "there is nothing to ask here")
        programs = self.server.programs
        if self.path == "/list":
            return "text/plain", programs.in_turn(programs.list, checked(self.body(), PUT))
        answers = programs.in_turn(programs.desk, checked(self.body(), LINE))
        return "text/plain", b"".join(answer + b"\n" for answer in answers)


def open_page(address):
    """Opens the page where there is a screen and something to open it with."""
    has_screen = os.environ.get("DISPLAY") or os.environ.get("WAYLAND_DISPLAY")
    for opener in ("xdg-open", "sensible-browser"):
        if has_screen and shutil.which(opener):
            subprocess.Popen([opener, address], stdin=subprocess.DEVNULL, stdout=subprocess.DEVNULL, stderr=subprocess.DEVNULL)
            return


def main(words):
    if len(words) > 1 or any(not re.fullmatch("[0-9]{1,5}", word) or int(word) > 65535 for word in words):
        sys.exit("usage: board [PORT]")
    try:
        server = Server(int(words[0]) if words else 0)
    except OSError as error:
        sys.exit(f"board: port {words[0] if words else 'any'} cannot be had: {error.strerror}")
    try:
        server.programs.start()
    except subprocess.CalledProcessError:
        sys.exit("board: the desk and the listing could not be had")
    except Wrong as error:
        sys.exit(f"board: {error}")
    signal.signal(signal.SIGTERM, lambda *_: sys.exit(0))
    address = f"http://127.0.0.1:{server.port}/"
    try:
        print(f"The board is at {address} on this machine only. Ctrl-C ends it.", flush=True)
        open_page(address)
        server.serve_forever()
    except KeyboardInterrupt:
        print()
    finally:
        server.programs.end()


if __name__ == "__main__":
    main(sys.argv[1:])
