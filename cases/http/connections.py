"""The cases of `zanz serve`: what it must write on a connection for what it is sent. cases/run runs them.

Each case is a function of CASES, named for what it shows. It is given the program and an empty folder to run it in, and raises
AssertionError where something is not as it should be. Every socket is on the loopback, each wait is bounded, and each server is
started on a port that is free and killed at the end.
"""
import itertools
import json
import os
import re
import resource
import select
import signal
import socket
import subprocess
import threading
import time

# (a shell that runs this in the background has it ignore interrupts, which the program would inherit)
signal.signal(signal.SIGINT, signal.default_int_handler)
LIMIT = int(os.environ.get("CASE_SECONDS", "60"))
TOP = os.path.dirname(os.path.dirname(os.path.dirname(os.path.realpath(__file__))))
CONFIG = '{"namespaces":{"group":{"member":{"types":["user","group#member"]}},"user":{}}}'
REASONS = {200: "OK", 400: "Bad Request", 404: "Not Found", 409: "Conflict", 411: "Length Required", 413: "Content Too Large"}
MALFORMED = '{"error":{"code":1,"name":"Malformed"}}'
LENGTH_REQUIRED = '{"error":{"code":0,"name":"LengthRequired"}}'
TOO_LARGE = '{"error":{"code":0,"name":"BodyTooLarge"}}'
NO_ROUTE = '{"error":{"code":0,"name":"NoRoute"}}'
NO_RELATION = '{"error":{"code":2,"name":"UnknownRelation","zookie":"AgAAAAAAAAABAAAAAAAAAAA"}}'
CHECK = '{"node":"doc:1#viewer","user":"user:ann"}'


def same(what, wanted, got):
    assert wanted == got, f"{what}, wanted\n  {wanted!r}\n{what}, got\n  {got!r}\n"


class Server:
    """The program, while it serves."""

    def __init__(self, program, folder, *words, port=0, **more):
        self.begin([program, "serve", *words, "--port", str(port)], folder, **more)

    def begin(self, words, folder, **more):
        how = {"cwd": folder, "stdin": subprocess.DEVNULL, "stdout": subprocess.PIPE, "stderr": subprocess.PIPE, **more}
        self.process = subprocess.Popen(words, **how)
        said = self.said()
        found = re.fullmatch(rb"listening 127\.0\.0\.1:([1-9][0-9]*)\n", said)
        if not found:
            self.stop()
        assert found, f"it said {said!r}\n"
        self.port = int(found[1])

    def said(self):
        """The line that it prints, as far as it comes in time."""
        line, end = b"", time.monotonic() + LIMIT
        while not line.endswith(b"\n") and select.select([self.process.stdout], [], [], max(0, end - time.monotonic()))[0]:
            more = os.read(self.process.stdout.fileno(), 4096)
            if not more:
                break
            line += more
        return line

    def connect(self):
        return socket.create_connection(("127.0.0.1", self.port), timeout=LIMIT)

    def stop(self, how=signal.SIGKILL):
        self.process.send_signal(how)
        self.process.wait(LIMIT)
        self.process.stdout.close()
        self.process.stderr.close()

    def __enter__(self):
        return self

    def __exit__(self, *_):
        if self.process.poll() is None:
            self.stop()


def request(call, body, *fields):
    """The request of a call."""
    verb = "GET" if call == "state" else "POST"
    lines = [f"{verb} /v1/{call} HTTP/1.1", "Host: zanz", f"Content-Length: {len(body.encode())}", *fields, "", body]
    return "\r\n".join(lines).encode()


def reply(status, body, closed=False):
    """The text of a reply."""
    lines = [f"HTTP/1.1 {status} {REASONS[status]}", "Content-Type: application/json", f"Content-Length: {len(body.encode())}"]
    return "\r\n".join(lines + ["Connection: close"] * closed + ["", body]).encode()


def received(stream, size):
    """So many bytes, or what comes before the end."""
    got = b""
    while len(got) < size:
        more = stream.recv(size - len(got))
        if not more:
            break
        got += more
    return got


def rest(stream):
    return received(stream, 1 << 20)


def one_reply(stream):
    """The status and the body of the next reply."""
    head = b""
    while not head.endswith(b"\r\n\r\n"):
        more = stream.recv(1)
        assert more, f"the connection ended in {head!r}\n"
        head += more
    size = int(re.search(rb"\r\nContent-Length: ([0-9]+)\r\n", head)[1])
    return int(head.split()[1]), received(stream, size).decode()


def ask(stream, call, body=""):
    stream.sendall(request(call, body))
    return one_reply(stream)


def lines_of(script):
    """The calls of a script of lines."""
    with open(script, encoding="utf-8") as it:
        return [line.rstrip("\n").partition(" ")[::2] for line in it if line != "\n"]


def answered(program, folder, lines, *words):
    """What `zanz run` answers to these lines: each status with its body."""
    given = "".join(f"{call} {body}\n" for call, body in lines).encode()
    ran = subprocess.run([program, "run", *words], cwd=folder, input=given, stdout=subprocess.PIPE, timeout=LIMIT, check=True)
    return [(int(it.partition(" ")[0]), it.partition(" ")[2]) for it in ran.stdout.decode().splitlines()]


def scripts():
    """Scripts whose answers are compared, each by its name: the stored one, and those of the examples."""
    yield "crates/zanz/stdin", lines_of(f"{TOP}/crates/zanz/stdin")
    for name in sorted(os.listdir(f"{TOP}/examples")):
        if os.path.isfile(f"{TOP}/examples/{name}/lines"):
            with open(f"{TOP}/examples/{name}/config.json", encoding="utf-8") as it:
                config = it.read().replace("\n", " ")
            yield f"examples/{name}", [("config", config), *lines_of(f"{TOP}/examples/{name}/lines")]


def calls_are_answered_as_on_lines(program, folder):
    for (script, lines), workers in itertools.product(scripts(), ("1", "2", "30")):
        wanted = answered(program, folder, lines)
        with Server(program, folder, "--workers", workers) as server, server.connect() as stream:
            same(script, wanted, [ask(stream, call, body) for call, body in lines])
        with Server(program, folder, "--workers", workers) as server:
            apart = []
            for call, body in lines:
                with server.connect() as stream:
                    apart.append(ask(stream, call, body))
            same(f"{script}, a connection each, {workers} workers", wanted, apart)


def calls_are_answered_as_on_lines_by_workers_in_turn(program, folder):
    for script, lines in scripts():
        with Server(program, folder, "--workers", "3") as server, server.connect() as one, server.connect() as two, server.connect() as three:
            streams = itertools.cycle((one, two, three))
            same(script, answered(program, folder, lines), [ask(next(streams), call, body) for call, body in lines])


def requests_may_come_together_or_in_pieces(program, folder):
    lines = lines_of(f"{TOP}/crates/zanz/stdin")
    sent = b"".join(request(call, body) for call, body in lines)
    wanted = b"".join(reply(status, body) for status, body in answered(program, folder, lines))
    for size in (len(sent), 1000, 7):
        with Server(program, folder) as server, server.connect() as stream:
            stream.setsockopt(socket.IPPROTO_TCP, socket.TCP_NODELAY, 1)
            for start in range(0, len(sent), size):
                stream.sendall(sent[start : start + size])
            stream.shutdown(socket.SHUT_WR)
            same(f"replies, in pieces of {size}", wanted, rest(stream))


# What is sent, and what is written for it; the peer has then sent all that it has to say.
TALKS = {
    "nothing": (b"", b""),
    "a check": (request("check", CHECK), reply(400, NO_RELATION)),
    "names of fields in capitals": (request("check", CHECK).replace(b"Content-Length", b"CONTENT-LENGTH"), reply(400, NO_RELATION)),
    "two checks, the first of which closes": (
        request("check", CHECK, "Connection: Close") + request("check", CHECK),
        reply(400, NO_RELATION, True),
    ),
    "close in a list": (request("check", CHECK, "Connection: close, te"), reply(400, NO_RELATION)),
    "version 1.0": (request("check", CHECK).replace(b"HTTP/1.1", b"HTTP/1.0"), reply(400, NO_RELATION, True)),
    "a body of the limit": (request("check", CHECK + " " * (65536 - len(CHECK))), reply(400, NO_RELATION)),
    "a byte more": (request("check", CHECK + " " * (65537 - len(CHECK))), reply(413, TOO_LARGE, True)),
    "no length": (b"POST /v1/check HTTP/1.1\r\n\r\n" + CHECK.encode(), reply(411, LENGTH_REQUIRED, True)),
    "two lengths": (request("check", CHECK, f"Content-Length: {len(CHECK)}"), reply(400, MALFORMED, True)),
    "a sign before the length": (b"POST /v1/check HTTP/1.1\r\nContent-Length: +2\r\n\r\n{}", reply(400, MALFORMED, True)),
    "a coding": (request("check", CHECK, "Transfer-Encoding: chunked"), reply(400, MALFORMED, True)),
    "no request": (b"hello\r\n\r\n", reply(400, MALFORMED, True)),
    "a head without an end": (b"GET /" + b"a" * 9000, reply(400, MALFORMED, True)),
    "too many fields": (b"GET / HTTP/1.1\r\n" + b"a: b\r\n" * 65 + b"\r\n", reply(400, MALFORMED, True)),
    "another target, then a check": (request("none", "") + request("check", CHECK), reply(404, NO_ROUTE) + reply(400, NO_RELATION)),
    "a query": (request("check", CHECK).replace(b"/v1/check", b"/v1/check?a=b"), reply(404, NO_ROUTE)),
    "another method": (request("check", CHECK).replace(b"POST", b"PUT"), reply(404, NO_ROUTE)),
    "a head that breaks off": (b"POST /v1/check HTTP/1.1\r\nContent-", b""),
    "a body that breaks off": (request("check", CHECK)[:-1], b""),
    "a check, and a body that breaks off": (request("check", CHECK) + request("check", CHECK)[:-1], reply(400, NO_RELATION)),
}


def with_length(value):
    """A check, with this value of its length."""
    return request("check", CHECK).replace(f"Content-Length: {len(CHECK)}".encode(), f"Content-Length: {value}".encode())


def with_head_of(size):
    """A check whose head has so many bytes."""
    return request("check", CHECK, "a: " + "b" * (size - len(request("check", CHECK, "a: ")) + len(CHECK)))


def with_fields(count):
    """A check whose head has so many fields."""
    return request("check", CHECK, *["a: b"] * (count - 2))


# The same, of hostile peers.
HOSTILE = {
    "zeros before the length": (with_length("0041"), reply(400, NO_RELATION)),
    "an empty length": (with_length(""), reply(400, MALFORMED, True)),
    "a list of lengths": (with_length("41,41"), reply(400, MALFORMED, True)),
    "a length of 20 digits": (with_length("0" * 18 + "41"), reply(400, MALFORMED, True)),
    "a length of 19 digits": (with_length("9" * 19), reply(413, TOO_LARGE, True)),
    "a length with a space in it": (with_length("4 1"), reply(400, MALFORMED, True)),
    "a coding before the length": (
        b"POST /v1/check HTTP/1.1\r\nTransfer-Encoding: chunked\r\nContent-Length: 41\r\n\r\n" + CHECK.encode(),
        reply(400, MALFORMED, True),
    ),
    "a coding and no length": (b"POST /v1/check HTTP/1.1\r\nTransfer-Encoding: chunked\r\n\r\n0\r\n\r\n", reply(400, MALFORMED, True)),
    "a large body for no route": (with_length("65537").replace(b"/v1/check", b"/v1/none"), reply(413, TOO_LARGE, True)),
    "no length for no route": (b"POST /v1/none HTTP/1.1\r\n\r\n", reply(411, LENGTH_REQUIRED, True)),
    "a head of 8192 bytes": (with_head_of(8192), reply(400, NO_RELATION)),
    "a head of 8193 bytes": (with_head_of(8193), reply(400, MALFORMED, True)),
    "64 fields": (with_fields(64), reply(400, NO_RELATION)),
    "65 fields": (with_fields(65), reply(400, MALFORMED, True)),
    "a slash at the end, then a check": (
        request("check/", CHECK) + request("check", CHECK),
        reply(404, NO_ROUTE) + reply(400, NO_RELATION),
    ),
    "a host in the target": (request("check", CHECK).replace(b"/v1/check", b"http://zanz/v1/check"), reply(404, NO_ROUTE)),
    "empty lines with and without CR": (b"\r\n\n" + request("check", CHECK), reply(400, NO_RELATION)),
    "lines without CR": (request("check", CHECK).replace(b"\r\n", b"\n"), reply(400, NO_RELATION)),
    "a space before the colon": (request("check", CHECK).replace(b"Length:", b"Length :"), reply(400, MALFORMED, True)),
    "a folded line": (request("check", CHECK).replace(b"Host: zanz", b"Host: zanz\r\n more"), reply(400, MALFORMED, True)),
    "a NUL in a field": (request("check", CHECK).replace(b"Host: zanz", b"Host: za\0nz"), reply(400, MALFORMED, True)),
    "version 2.0": (request("check", CHECK).replace(b"HTTP/1.1", b"HTTP/2.0"), reply(400, MALFORMED, True)),
    # What ends inside a head, where it can still be ended within 8192 bytes and where it cannot.
    "8190 bytes that end in a value": (b"GET / HTTP/1.1\r\na:".ljust(8190, b"b"), b""),
    "8191 bytes that end in a value": (b"GET / HTTP/1.1\r\na:".ljust(8191, b"b"), reply(400, MALFORMED, True)),
    "8189 bytes that end in a name": (b"GET / HTTP/1.1\r\n".ljust(8189, b"a"), b""),
    "8190 bytes that end in a name": (b"GET / HTTP/1.1\r\n".ljust(8190, b"a"), reply(400, MALFORMED, True)),
    "8191 bytes that end behind a line": (b"GET / HTTP/1.1\r\na:".ljust(8190, b"b") + b"\n", b""),
    "8179 bytes of a method": (b"G" * 8179, b""),
    "8180 bytes of a method": (b"G" * 8180, reply(400, MALFORMED, True)),
    "8178 empty lines": (b"\n" * 8178, b""),
    "8179 empty lines": (b"\n" * 8179, reply(400, MALFORMED, True)),
    "8191 bytes that end in a target": (b"GET /".ljust(8191, b"a"), b""),
    "8192 bytes that end in a target": (b"GET /".ljust(8192, b"a"), reply(400, MALFORMED, True)),
    "a target that is no text": (b"GET /\xff HTTP/1.1\r\n", reply(400, MALFORMED, True)),
    "a target that is no text, cut short": (b"GET /\xff", b""),
}


def have_these_texts(server, talks):
    for name, (sent, wanted) in talks.items():
        with server.connect() as stream:
            stream.sendall(sent)
            stream.shutdown(socket.SHUT_WR)
            same(name, wanted, rest(stream))


def connections_have_these_texts(program, folder):
    with Server(program, folder) as server:
        have_these_texts(server, TALKS)


def hostile_connections_have_these_texts(program, folder):
    with Server(program, folder) as server:
        have_these_texts(server, HOSTILE)


def requests_may_be_cut_at_any_byte(program, folder):
    one, answer = request("check", CHECK), reply(400, NO_RELATION)
    with Server(program, folder) as server:
        cuts = {f"{size} bytes of two checks": ((one + one)[:size], answer * (size // len(one))) for size in range(2 * len(one) + 1)}
        have_these_texts(server, cuts)


def nested_arrays_are_no_configuration(program, folder):
    shape = '{"error":{"cause":"shape","code":9,"name":"ConfigRefused"}}'
    json_text = '{"error":{"cause":"json","code":9,"name":"ConfigRefused"}}'
    with Server(program, folder) as server, server.connect() as stream:
        for depth, wanted in ((1, shape), (127, shape), (128, json_text), (32768, json_text)):
            same(f"{depth} arrays", (400, wanted), ask(stream, "config", "[" * depth + "]" * depth))
        same("afterwards", (400, NO_RELATION), ask(stream, "check", CHECK))


def a_refused_body_is_not_waited_for(program, folder):
    with Server(program, folder) as server:
        for _ in range(20):
            with server.connect() as stream:
                stream.sendall(request("check", "").replace(b"Content-Length: 0", b"Content-Length: 1000000"))
                same("reply", reply(413, TOO_LARGE, True), rest(stream))


def a_refusal_is_seen_by_a_peer_that_still_sends(program, folder):
    sent = request("check", " " * 900_000)
    with Server(program, folder) as server:
        for _ in range(20):
            with server.connect() as stream:
                stream.sendall(sent)
                same("reply", reply(413, TOO_LARGE, True), rest(stream))


def a_connection_that_breaks_off_leaves_the_next_one_answered(program, folder):
    with Server(program, folder) as server:
        for cut in (1, 30, 80, 100):
            with server.connect() as stream:
                stream.sendall(request("check", CHECK)[:cut])
            with server.connect() as stream:
                stream.setsockopt(socket.SOL_SOCKET, socket.SO_LINGER, b"\1\0\0\0\0\0\0\0")
                stream.sendall(request("check", CHECK)[:cut])
            with server.connect() as stream:
                same(f"after {cut} bytes", (400, NO_RELATION), ask(stream, "check", CHECK))


def one_worker_serves_one_connection_after_the_other(program, folder):
    with Server(program, folder, "--workers", "1") as server, server.connect() as first, server.connect() as second:
        second.sendall(request("check", CHECK))
        for _ in range(3):
            same("the first", (400, NO_RELATION), ask(first, "check", CHECK))
        same("what the second has while the first is open", [], select.select([second], [], [], 0.2)[0])
        first.close()
        same("the second", (400, NO_RELATION), one_reply(second))


def exactly(zookie, name="ann"):
    return json.dumps({"at": {"exactly": zookie}, "node": "group:a#member", "user": f"user:{name}"})


def what_one_connection_writes_another_reads(program, folder):
    for words in ([], ["--db", "shared.db", "--store", "1"]):
        with Server(program, folder, "--workers", "2", *words) as server, server.connect() as one, server.connect() as two:
            # Both are taken by a worker, and stay.
            same("config", 200, ask(one, "config", CONFIG)[0])
            same("state", 200, ask(two, "state")[0])
            for turn in range(50):
                status, body = ask(one, "write", insert(f"u{turn}"))
                same("write", 200, status)
                zookie = json.loads(body)["zookie"]
                wanted = (200, f'{{"allowed":true,"zookie":"{zookie}"}}')
                same("a check exactly at it", wanted, ask(two, "check", exactly(zookie, f"u{turn}")))
                one, two = two, one


def many_connections_are_served_by_few_workers(program, folder):
    with Server(program, folder, "--workers", "30") as server:
        streams = [server.connect() for _ in range(100)]
        for stream in streams:
            stream.sendall(request("check", CHECK, "Connection: close"))
        for stream in streams:
            same("reply", reply(400, NO_RELATION, True), rest(stream))
            stream.close()


def a_silent_connection_holds_up_no_other(program, folder):
    for sent in (b"", b"POST /v1/ch", request("check", CHECK)[:-1]):
        with Server(program, folder, "--workers", "2") as server, server.connect() as silent:
            silent.sendall(sent)
            for _ in range(5):
                with server.connect() as stream:
                    same("another", (400, NO_RELATION), ask(stream, "check", CHECK))
            same("what the silent one has", [], select.select([silent], [], [], 0)[0])
            silent.sendall(request("check", CHECK)[len(sent) :])
            same("what it has once it goes on", (400, NO_RELATION), one_reply(silent))


def a_connection_that_breaks_off_leaves_those_beside_it(program, folder):
    with Server(program, folder, "--workers", "3") as server, server.connect() as beside:
        same("before", (400, NO_RELATION), ask(beside, "check", CHECK))
        for cut in (1, 30, 80, 100) * 5:
            with server.connect() as stream:
                stream.setsockopt(socket.SOL_SOCKET, socket.SO_LINGER, b"\1\0\0\0\0\0\0\0")
                stream.sendall(request("check", CHECK)[:cut])
            same(f"beside one of {cut} bytes", (400, NO_RELATION), ask(beside, "check", CHECK))
            with server.connect() as stream:
                same(f"after {cut} bytes", (400, NO_RELATION), ask(stream, "check", CHECK))


def ask_until(stream, event, told):
    """Asks until then and for twenty times more, without a pause, in which it could be given up for those who wait."""
    more = 20
    while more:
        told.append(ask(stream, "check", CHECK))
        more -= event.is_set()


def many_silent_connections_wait_beside_one_that_is_served(program, folder):
    # Here and in the program, which is given the same limit.
    resource.setrlimit(resource.RLIMIT_NOFILE, (4096, max(4096, resource.getrlimit(resource.RLIMIT_NOFILE)[1])))
    with Server(program, folder, "--workers", "4") as server, server.connect() as served:
        told, all_wait = [], threading.Event()
        asking = threading.Thread(target=ask_until, args=(served, all_wait, told))
        asking.start()
        silent = [server.connect() for _ in range(1000)]
        all_wait.set()
        asking.join(LIMIT)
        same("beside up to 1,000", [(400, NO_RELATION)] * len(told), told)
        assert len(told) > 20, f"it was answered {len(told)} times\n"
        for stream in silent:
            stream.close()
        with server.connect() as stream:
            same("after them", (400, NO_RELATION), ask(stream, "check", CHECK))


def refused(program, folder, *words):
    """The status and the line of a server that cannot begin."""
    ran = subprocess.run([program, "serve", *words], cwd=folder, stdin=subprocess.DEVNULL, capture_output=True, timeout=LIMIT, check=False)
    same("what it says", b"", ran.stdout)
    return ran.returncode, ran.stderr


def a_port_in_use_is_told(program, folder):
    with Server(program, folder) as server:
        port = str(server.port)
        same("a port in use", (1, b"zanz: cannot listen\n"), refused(program, folder, "--port", port))
        missing = refused(program, folder, "--db", "missing.db", "--port", port)
        same("a file that is not there comes first", (1, b"zanz: refused 22 StoreFault\n"), missing)
        answered(program, folder, [], "--db", "there.db", "--store", "7")
        for workers in ("1", "4"):
            words = ("--workers", workers, "--store", "7", "--port", port)
            same("a store that is there comes first", (1, b"zanz: refused 22 StoreFault\n"), refused(program, folder, "--db", "there.db", *words))
            same("a new store", (1, b"zanz: cannot listen\n"), refused(program, folder, "--db", "new.db", *words))
    # No tables are left behind, so that the corrected command works as it stands.
    with Server(program, folder, "--db", "new.db", "--store", "7") as server, server.connect() as stream:
        same("the corrected command", 200, ask(stream, "state")[0])


def the_most_workers_are_thirty(program, folder):
    for workers in ("1", "30"):
        with Server(program, folder, "--workers", workers) as server, server.connect() as stream:
            same(f"{workers} workers", 200, ask(stream, "state")[0])
    for workers in ("0", "31", "-1", "two", ""):
        wanted = (2, b"zanz: bad command line\n")
        same(f"{workers} workers", wanted, refused(program, folder, "--workers", workers, "--port", "0"))


def a_port_that_is_given_is_listened_on(program, folder):
    with Server(program, folder) as server:
        port = server.port
    with Server(program, folder, port=port) as server:
        same("port", port, server.port)


def it_listens_on_one_address_alone(program, folder):
    """A port that is bound on each address of a machine is bound on 127.0.0.2 too."""
    with Server(program, folder) as server:
        server.connect().close()
        try:
            socket.create_connection(("127.0.0.2", server.port), timeout=LIMIT).close()
        except ConnectionRefusedError:
            return
        raise AssertionError(f"port {server.port} is open on 127.0.0.2 too\n")


def insert(name):
    return json.dumps({"ops": [{"op": "insert", "tuple": f"group:a#member@user:{name}"}]}, separators=(",", ":"))


def state_of(stream):
    status, body = ask(stream, "state")
    same("state", 200, status)
    return json.loads(body)


def what_is_written_is_read_by_the_parts(program, folder):
    for words in ([], ["--db", "followed.db", "--store", "1"]):
        with Server(program, folder, "--workers", "2", *words) as server, server.connect() as stream:
            same("config", 200, ask(stream, "config", CONFIG)[0])
            for turn in range(40):
                status, body = ask(stream, "write", insert(f"u{turn}"))
                same("write", 200, status)
            newest, end = json.loads(body)["zookie"], time.monotonic() + LIMIT
            found = state_of(stream)
            while (found["index"], found["hot"]) != (newest, newest) and time.monotonic() < end:
                time.sleep(0.001)
                found = state_of(stream)
            same("cursors", {"hot": newest, "index": newest, "newest": newest}, {it: found[it] for it in ("hot", "index", "newest")})
            same("a trim", (200, f'{{"floor":"{newest}","shown":true}}'), ask(stream, "trim", f'{{"floor":"{newest}"}}'))


def one_worker_alone_leaves_the_parts_to_its_callers(program, folder):
    with Server(program, folder, "--workers", "1") as server, server.connect() as stream:
        same("config", 200, ask(stream, "config", CONFIG)[0])
        status, body = ask(stream, "write", insert("ann"))
        same("write", 200, status)
        newest, first = json.loads(body)["zookie"], state_of(stream)["floor"]
        trim = ("trim", f'{{"floor":"{newest}"}}')
        for part in ("index", "hot"):
            found = state_of(stream)
            same(f"the cursor of {part}", (first, newest), (found[part], found["newest"]))
            same("a trim before the parts have read", (409, '{"error":{"code":17,"name":"InUse"}}'), ask(stream, *trim))
            same("catchup", 200, ask(stream, "catchup", f'{{"commits":2,"part":"{part}"}}')[0])
        same("a trim", (200, f'{{"floor":"{newest}","shown":true}}'), ask(stream, *trim))


def one_worker_alone_keeps_a_file(program, folder):
    first, second = "AgAAAAAAAAABAAAAAAAAAAE", "AgAAAAAAAAABAAAAAAAAAAI"
    found = (200, f'{{"allowed":true,"zookie":"{second}"}}')
    with Server(program, folder, "--workers", "1", "--db", "alone.db", "--store", "1") as server, server.connect() as stream:
        same("config", (200, f'{{"shown":true,"zookie":"{first}"}}'), ask(stream, "config", CONFIG))
        same("write", (200, f'{{"shown":true,"zookie":"{second}"}}'), ask(stream, "write", insert("ann")))
        same("check", found, ask(stream, "check", exactly(second)))
    with Server(program, folder, "--workers", "1", "--db", "alone.db") as server, server.connect() as stream:
        same("check of the file that is there", found, ask(stream, "check", exactly(second)))


def a_service_makes_no_new_store_over_one(program, folder):
    found = answered(program, folder, [("config", CONFIG), ("write", insert("ann"))], "--db", "there.db", "--store", "1")
    same("a store is made", [200, 200], [status for status, _ in found])
    for workers in ("1", "4"):
        wanted = (1, b"zanz: refused 22 StoreFault\n")
        same(f"{workers} workers", wanted, refused(program, folder, "--workers", workers, "--db", "there.db", "--store", "1", "--port", "0"))
    second = "AgAAAAAAAAABAAAAAAAAAAI"
    kept = [(200, f'{{"allowed":true,"zookie":"{second}"}}')]
    same("what the file holds", kept, answered(program, folder, [("check", exactly(second))], "--db", "there.db"))


def marks_of(server, number, told):
    """Marks forty nodes of its own, and between them one that is marked already, and keeps what it was told of its own."""
    with server.connect() as stream:
        for turn in range(40):
            told.append(ask(stream, "hot", f'{{"mark":"group:g{number}.{turn}#member"}}'))
            same("a node that is marked already", 200, ask(stream, "hot", '{"mark":"group:a#member"}')[0])


def many_connections_mark_no_more_nodes_than_may_be_marked(program, folder):
    with Server(program, folder, "--workers", "6", "--db", "marked.db", "--store", "1") as server:
        with server.connect() as stream:
            same("config", 200, ask(stream, "config", CONFIG)[0])
            same("a mark", (200, '{"marked":1,"shown":true}'), ask(stream, "hot", '{"mark":"group:a#member"}'))
        told = [[] for _ in range(8)]
        threads = [threading.Thread(target=marks_of, args=(server, number, its)) for number, its in enumerate(told)]
        for it in threads:
            it.start()
        for it in threads:
            it.join(LIMIT)
        found = sorted(it for its in told for it in its)
        full = (503, '{"error":{"code":8,"name":"Full"}}')
        wanted = [(200, f'{{"marked":{count},"shown":true}}') for count in range(2, 257)] + [full] * (8 * 40 - 255)
        same("what they were told", sorted(wanted), found)
        with server.connect() as stream:
            same("one more", full, ask(stream, "hot", '{"mark":"group:b#member"}'))
            same("the state", 256, state_of(stream)["marked"])
    state = answered(program, folder, [("state", "")], "--db", "marked.db")[0][1]
    same("the state, opened again", 0, json.loads(state)["marked"])


def writes_until(server, end):
    """The zookies of the writes that were accepted until the server is gone, which is killed at this time."""
    zookies = []
    killed = False
    with server.connect() as stream:
        try:
            while True:
                stream.sendall(request("write", insert(f"u{len(zookies)}")))
                if not killed and time.monotonic() >= end[0]:
                    killed = True
                    server.process.send_signal(end[1])
                status, body = one_reply(stream)
                same("status", 200, status)
                zookies.append(json.loads(body)["zookie"])
        except (AssertionError, OSError):
            assert killed, "the server ended by itself\n"
    return zookies


def what_was_accepted_is_there_after_a_kill(program, folder):
    for turn, how in enumerate([signal.SIGKILL, signal.SIGTERM, signal.SIGINT, signal.SIGKILL]):
        file = f"{turn}.db"
        with Server(program, folder, "--db", file, "--store", "1") as server:
            with server.connect() as stream:
                same("config", 200, ask(stream, "config", CONFIG)[0])
            zookies = writes_until(server, (time.monotonic() + 0.1 + 0.05 * turn, how))
            same("exit status", -how, server.process.wait(LIMIT))
        assert zookies, "no write was accepted\n"
        checks = [json.dumps({"at": {"exactly": it}, "node": "group:a#member", "user": f"user:u{n}"}) for n, it in enumerate(zookies)]
        lines = [("check", it) for it in checks] + [("state", ""), ("check", json.dumps({"node": "group:a#member", "user": f"user:u{len(zookies)}"}))]
        *found, state, last = answered(program, folder, lines, "--db", file)
        wanted = [(200, f'{{"allowed":true,"zookie":"{it}"}}') for it in zookies]
        same("accepted writes", wanted, found)
        # The one that was under way is there, or it is not; nothing else is.
        more = json.loads(last[1])["allowed"]
        same("tuples", len(zookies) + more, json.loads(state[1])["tuples"])
        with Server(program, folder, "--db", file) as server, server.connect() as stream:
            same("the same over HTTP", wanted, [ask(stream, "check", it) for it in checks])


def writes_of(server, number, zookies):
    """Writes until the server is gone, and keeps the zookies of those that were accepted."""
    try:
        with server.connect() as stream:
            while True:
                status, body = ask(stream, "write", insert(f"u{number}.{len(zookies)}"))
                same("status", 200, status)
                zookies.append(json.loads(body)["zookie"])
    except (AssertionError, OSError):
        return


def what_many_were_told_is_there_after_a_kill(program, folder):
    for turn in range(3):
        file, writers = f"many{turn}.db", 5
        kept = [[] for _ in range(writers)]
        with Server(program, folder, "--workers", "6", "--db", file, "--store", "1") as server:
            with server.connect() as stream:
                same("config", 200, ask(stream, "config", CONFIG)[0])
            threads = [threading.Thread(target=writes_of, args=(server, number, zookies)) for number, zookies in enumerate(kept)]
            for it in threads:
                it.start()
            # (each has been told of a write: how long that takes, the machine decides)
            until = time.monotonic() + LIMIT
            while not all(kept) and time.monotonic() < until:
                time.sleep(0.01)
            time.sleep(0.1 * turn)
            server.stop()
            for it in threads:
                it.join(LIMIT)
        assert all(kept), "a connection wrote nothing\n"
        checks = [("check", exactly(zookie, f"u{number}.{n}")) for number, zookies in enumerate(kept) for n, zookie in enumerate(zookies)]
        *found, state = answered(program, folder, [*checks, ("state", "")], "--db", file)
        wanted = [(200, f'{{"allowed":true,"zookie":"{zookie}"}}') for zookies in kept for zookie in zookies]
        same("accepted writes", wanted, found)
        # Of each connection one more may have been under way.
        more = json.loads(state[1])["tuples"] - len(wanted)
        assert 0 <= more <= writers, f"{more} tuples that nobody was told of\n"


CASES = [
    calls_are_answered_as_on_lines,
    calls_are_answered_as_on_lines_by_workers_in_turn,
    requests_may_come_together_or_in_pieces,
    connections_have_these_texts,
    hostile_connections_have_these_texts,
    requests_may_be_cut_at_any_byte,
    nested_arrays_are_no_configuration,
    a_refused_body_is_not_waited_for,
    a_refusal_is_seen_by_a_peer_that_still_sends,
    a_connection_that_breaks_off_leaves_the_next_one_answered,
    one_worker_serves_one_connection_after_the_other,
    what_one_connection_writes_another_reads,
    many_connections_are_served_by_few_workers,
    a_silent_connection_holds_up_no_other,
    a_connection_that_breaks_off_leaves_those_beside_it,
    many_silent_connections_wait_beside_one_that_is_served,
    the_most_workers_are_thirty,
    a_port_in_use_is_told,
    a_port_that_is_given_is_listened_on,
    it_listens_on_one_address_alone,
    what_is_written_is_read_by_the_parts,
    one_worker_alone_leaves_the_parts_to_its_callers,
    one_worker_alone_keeps_a_file,
    a_service_makes_no_new_store_over_one,
    many_connections_mark_no_more_nodes_than_may_be_marked,
    what_was_accepted_is_there_after_a_kill,
    what_many_were_told_is_there_after_a_kill,
]
