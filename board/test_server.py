"""Tests the drawing board's server with requests that no page sends: it answers each with an error and goes on.

The last line is 'N passed, 0 failed'.
"""

import os
import random
import signal
import socket
import subprocess
import sys
import tempfile
import threading
import time

import server

ROOT = os.path.dirname(os.path.dirname(os.path.abspath(__file__)))
PAIR = b"pair 1 4 8 0 0 0 10 10 10 10 0 1 4 8 5 5 5 25 25 25 25 5"
ANSWER = b"0 0 0 216 54 3 3 0 2 2 1 3 2 1 1 0 216 8 8 0\n"
PUTS = b"put 0 1 4 8 0 0 0 10 10 10 10 0\nput 3 1 4 8 5 5 5 25 25 25 25 5\n"
LIST = b"parcels 2\n0 3 W:B:SW:S W:O:SW:S 8\n3 0 N:NE:B:E N:NE:O:E 8\n"

# A client or a program that is too slow is cut sooner here.
server.MOST_SECONDS = server.Handler.timeout = 2
server.PROGRAM_SECONDS = 3


class Client:
    def __init__(self):
        self.board = server.Server(0)
        self.port = self.board.port
        self.board.programs.start()
        threading.Thread(target=self.board.serve_forever, daemon=True).start()
        self.passed = 0

    def connect(self):
        return socket.create_connection(("127.0.0.1", self.port), timeout=20)

    def raw(self, content):
        """All that comes back on one connection, without its end where it is cut."""
        with self.connect() as line:
            answer = b""
            try:
                line.sendall(content)
                while piece := line.recv(65536):
                    answer += piece
            except OSError:
                pass
        return answer

    def ask(self, method, path, body=b"", *headers, host=None, length=None):
        """The status and the content of an answer."""
        host = b"Host: " + (host or b"127.0.0.1:%d" % self.port)
        said = b"Content-Length: %d" % (len(body) if length is None else length)
        head = b"\r\n".join([b"%s %s HTTP/1.1" % (method, path), host, said, *headers])
        answer = self.raw(head + b"\r\n\r\n" + body)
        front, _, content = answer.partition(b"\r\n\r\n")
        return int(front.split(b" ")[1]) if front else 0, content

    def same(self, what, found, wanted):
        if found != wanted:
            raise AssertionError(f"{what}: {found!r} and not {wanted!r}")
        self.passed += 1

    def refused(self, what, status, *asked, **more):
        """An error of this status and one line of text, and the next request is answered as ever."""
        found, content = self.ask(*asked, **more)
        self.same(what, (found, content.count(b"\n"), content[-1:]), (status, 1, b"\n"))
        self.goes_on(what)

    def goes_on(self, what):
        self.same(f"after {what}", self.ask(b"POST", b"/desk", PAIR), (200, ANSWER))


def served(client):
    """The page and the answers."""
    status, content = client.ask(b"GET", b"/")
    client.same("the page", (status, content[:15], b'"outlines": [{"number": "1"' in content), (200, b"<!doctype html>", True))
    front = client.raw(b"GET / HTTP/1.1\r\nHost: localhost:%d\r\n\r\n" % client.port).partition(b"\r\n\r\n")[0]
    client.same("its policy", [front.count(word) for word in (b"default-src 'none'", b"connect-src 'self'", b"unsafe")], [1, 1, 0])
    client.same("the page has no address of elsewhere", content.count(b"http"), content.count(b"http://www.w3.org/2000/svg"))
    client.same("two lines", client.ask(b"POST", b"/desk", PAIR + b"\nedge 0 0 10 10 5 5 25 25\n"), (200, ANSWER + b"2 6 4\n"))
    client.same("the list", client.ask(b"POST", b"/list", PUTS), (200, b"0 0\n" + LIST))
    client.same("a refused parcel", client.ask(b"POST", b"/list", PUTS + b"put 5 1 2 4 0 0 0 10\n"), (200, b"0 0 2\n" + LIST))
    client.same("no parcel", client.ask(b"POST", b"/list", b""), (200, b"\nparcels 0\n"))
    client.same("its own page asks", client.ask(b"POST", b"/desk", PAIR, b"Origin: http://127.0.0.1:%d" % client.port), (200, ANSWER))


def paths(client):
    for path in (b"/index.html", b"/board/server.py", b"/../README.md", b"/?x", b"/favicon.ico", b"http://elsewhere/", b"/desk/", b"/%2e%2e/"):
        client.refused(f"GET {path}", 404, b"GET", path)
    client.refused("POST elsewhere", 404, b"POST", b"/other", PAIR)
    for method, path in ((b"GET", b"/desk"), (b"GET", b"/list"), (b"POST", b"/"), (b"PUT", b"/desk"), (b"DELETE", b"/"), (b"OPTIONS", b"/desk"), (b"GARBAGE", b"/")):
        client.refused(f"{method} {path}", 405, method, path)


def lines(client):
    """Lines that the page never sends, and what would slip a second request into one."""
    bad = [b"poke 0 0 1", b"lend 1 1 1", b"sheet", b"clear", b"host 38 -", b"cell 0 0", b"# remark", b"\n", b"   ", b"pair", b"pair ", b"pair 1  2"]
    bad += [PAIR + b" ", PAIR + b"\r", PAIR + b"\rpoke 0 0 1", PAIR + b"\0", PAIR + b"\x0bsheet", PAIR + b"\x85", PAIR + b" +1", b"pair 12345678901"]
    bad += [b"\xef\xbb\xbf" + PAIR, "pair \u0661".encode(), b"load 0", b"load 0G", b"write -1", b"write 999999", bytes(range(256))]
    for line in bad:
        client.refused(f"the line {line!r}", 400, b"POST", b"/desk", line)
        client.refused(f"the line {line!r} after another", 400, b"POST", b"/desk", PAIR + b"\n" + line + b"\n")
    client.refused("two writes", 400, b"POST", b"/desk", b"write 12\nwrite 12\n")
    client.refused("too many lines", 400, b"POST", b"/desk", b"write 12\n" + b"edge 0 0 1 1 0 0 1 1\n" * server.MOST_LINES)
    client.refused("a pair for the list", 400, b"POST", b"/list", PAIR)
    client.same("as many as may be", client.ask(b"POST", b"/desk", b"edge 0 0 1 1 0 0 1 1\n" * server.MOST_LINES), (200, b"1 4\n" * server.MOST_LINES))


def lengths(client):
    most = server.MOST_BYTES
    client.refused("too long", 413, b"POST", b"/desk", b"x" * 100, length=most + 1)
    client.refused("far too long", 413, b"POST", b"/desk", b"", length=999999999)
    client.refused("a length that is none", 400, b"POST", b"/desk", PAIR, b"Content-Length: 12")
    client.refused("chunks", 400, b"POST", b"/desk", PAIR, b"Transfer-Encoding: chunked")
    host = b"Host: 127.0.0.1:%d\r\n" % client.port
    for length in (b"-1", b"1e3", b"", b"0x10", b"99999999999999999999"):
        answer = client.raw(b"POST /desk HTTP/1.1\r\n" + host + b"Content-Length: " + length + b"\r\n\r\n" + PAIR)
        client.same(f"the length {length!r}", answer[9:12], b"400")
    longest = b"pair" + b" 0" * ((most - 4) // 2)
    client.same("the longest", client.ask(b"POST", b"/desk", longest), (200, b"?\n"))
    client.goes_on("the longest")


def strangers(client):
    """Another name of this machine, as a page from elsewhere would have it, and a page from elsewhere."""
    for host in (b"elsewhere.example", b"127.0.0.1", b"localhost", b"127.0.0.1:1", b"localhost:%d.example" % client.port, b"0.0.0.0:%d" % client.port):
        client.refused(f"the host {host}", 403, b"POST", b"/desk", PAIR, host=host)
        client.refused(f"the page for the host {host}", 403, b"GET", b"/", host=host)
    for origin in (b"http://elsewhere.example", b"null", b"https://127.0.0.1:%d" % client.port, b"http://127.0.0.1:1"):
        client.refused(f"the origin {origin}", 403, b"POST", b"/desk", PAIR, b"Origin: " + origin)
    client.refused("two hosts", 403, b"GET", b"/", b"", b"Host: elsewhere.example")
    client.same("no host", client.raw(b"GET / HTTP/1.1\r\n\r\n")[9:12], b"403")
    try:
        socket.create_connection(("127.0.0.2", client.port), timeout=2).close()
        raise AssertionError("the board listens elsewhere")
    except OSError:
        client.passed += 1


def garbage(client):
    source = random.Random(1)
    for size in (1, 10, 1000, 100000):
        client.raw(source.randbytes(size))
        client.raw(source.randbytes(size) + b"\r\n\r\n")
        client.goes_on(f"{size} bytes of garbage")
    client.raw(b"GET /" + b"x" * 100000 + b" HTTP/1.1\r\n\r\n")
    client.raw(b"GET / HTTP/1.1\r\n" + b"x: y\r\n" * 5000 + b"\r\n")
    client.raw(b"GET /\r\n\r\n")
    client.raw(b"POST /desk HTTP/9.9\r\n\r\n")
    client.goes_on("headers that are none")


def slow(client):
    """A client that sends nothing, or byte by byte, is cut; others are served meanwhile. More than may be are turned away."""
    start = time.monotonic()
    with client.connect() as silent, client.connect() as dribbling:
        dribbling.sendall(b"POST /desk HTTP/1.1\r\nHost: 127.0.0.1:%d\r\nContent-Length: 60\r\n\r\n" % client.port)
        client.goes_on("a slow client, which still waits")
        try:
            while time.monotonic() < start + 10:
                dribbling.sendall(b"p")
                time.sleep(0.2)
        except OSError:
            pass
        client.same("byte by byte is cut", 1 < time.monotonic() - start < 9, True)
        client.same("silence is cut", silent.recv(1), b"")
    waiting = [client.connect() for _ in range(server.MOST_CLIENTS + 4)]
    time.sleep(0.3)
    client.same("one too many", client.raw(b"GET / HTTP/1.1\r\n\r\n"), b"")
    time.sleep(server.MOST_SECONDS + 0.2)
    for line in waiting:
        line.close()
    client.goes_on("many who wait")


def together(client):
    """Many at once: each gets its own answers, and what one puts no other sees."""
    wrong = []

    def asks(number):
        for turn in range(15):
            x = 1000 * number + turn
            card = client.ask(b"POST", b"/desk", b"put %d 1 3 6 %d 0 %d 9 %d 0\nwrite 34\n" % (number, x, x + 1, x + 2))
            if not card[1].startswith(b"0\n0 42 ") and not card[1].startswith(b"0\n10 0 "):
                wrong.append(card)
            if client.ask(b"POST", b"/list", PUTS) != (200, b"0 0\n" + LIST):
                wrong.append("the list")

    threads = [threading.Thread(target=asks, args=(number,)) for number in range(6)]
    for thread in threads:
        thread.start()
    for thread in threads:
        thread.join()
    client.same("many at once", wrong, [])
    client.same("an empty sheet each time", client.ask(b"POST", b"/desk", b"write 12\n"), (200, b"0 12 0000000000000c000c000c00\n"))


def deaths(client):
    """A program that ends, or hangs, is started anew, and the request is answered."""
    for name in ("desk", "listing"):
        for sign in (signal.SIGKILL, signal.SIGSTOP):
            os.killpg(client.board.programs.running[name].process.pid, sign)
            client.same(f"the list after the {name} got {sign.name}", client.ask(b"POST", b"/list", PUTS), (200, b"0 0\n" + LIST))
            client.goes_on(f"the {name} got {sign.name}")


def words(client):
    """What `tools/board` says to wrong words, and to a port that is taken."""
    for word, complaint in (("port", "usage"), ("99999", "usage"), (str(client.port), "cannot be had")):
        run = subprocess.run([os.path.join(ROOT, "tools", "board"), word], stdin=subprocess.DEVNULL, capture_output=True, text=True, check=False)
        client.same(f"board {word}", (run.returncode != 0, run.stdout, complaint in run.stderr), (True, "", True))


def opened(client):
    """The page is opened where there is a screen, and nowhere else; the board ends when it is told to."""
    with tempfile.TemporaryDirectory() as folder:
        opener, note = os.path.join(folder, "xdg-open"), os.path.join(folder, "note")
        with open(opener, "w", encoding="utf-8") as file:
            file.write(f'#!/bin/sh\necho "$1" >"{note}"\n')
        os.chmod(opener, 0o755)
        for screen in ("", ":9"):
            environment = {**os.environ, "PATH": folder + os.pathsep + os.environ["PATH"], "DISPLAY": screen, "WAYLAND_DISPLAY": ""}
            board = subprocess.Popen([os.path.join(ROOT, "tools", "board")], stdin=subprocess.DEVNULL, stdout=subprocess.PIPE, text=True, env=environment)
            said = board.stdout.readline()
            deadline = time.monotonic() + (5 if screen else 0.5)
            while not (os.path.exists(note) and os.path.getsize(note)) and time.monotonic() < deadline:
                time.sleep(0.05)
            client.same(f"opened on the screen {screen!r}", os.path.exists(note), bool(screen))
            board.terminate()
            client.same("the board ends", board.wait(5), 0)
        with open(note, encoding="utf-8") as file:
            client.same("what is opened", file.read().strip() in said, True)


def main():
    client = Client()
    try:
        for test in (served, paths, lines, lengths, strangers, garbage, slow, together, deaths, words, opened):
            test(client)
    finally:
        client.board.programs.end()
    print(f"{client.passed} passed, 0 failed")


if __name__ == "__main__":
    sys.exit(main())
