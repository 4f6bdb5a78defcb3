"""The cases of docs/OPERATING.md: its commands and configurations are taken out of the page and run, with other ports and paths.

What a case needs and the machine lacks, as nginx or namespaces, it says, and is not run.
"""
import base64
import configparser
import http.client
import json
import os
import re
import resource
import shlex
import shutil
import signal
import socket
import ssl
import stat
import subprocess
import sys
import threading
import time
from unittest import SkipTest

sys.dont_write_bytecode = True
sys.path.insert(0, os.path.dirname(os.path.realpath(__file__)))
from connections import CONFIG, LIMIT, NO_ROUTE, TOO_LARGE, TOP, Server, answered, ask, exactly, insert, one_reply, request, same, state_of, writes_of

PATH = f"{os.environ['PATH']}:/usr/sbin:/sbin"
STORE_FAULT = (1, b"zanz: refused 22 StoreFault\n")
# The first words of commands in the page's text, and what is no command though it begins with one.
TOOLS = ("cp", "df", "dmesg", "docker", "fuser", "kill", "ls", "sqlite3", "systemctl", "systemd-analyze", "umask", "zanz")
NAMES = ("sqlite3", "zanz", "zanz serve")
NOBODY = 65534
# The host of the page's site and another, who may come in there, and who takes any certificate.
SITE, OTHER = "zanz.example.org", "other.example.org"
AUTHENTICATED = {"Authorization": f"Basic {base64.b64encode(b'ann:secret').decode()}"}
TRUSTING = ssl._create_unverified_context()


def page():
    with open(f"{TOP}/docs/OPERATING.md", encoding="utf-8") as it:
        return it.read()


def block(heading):
    """The one block of code below a heading of the page."""
    found = [it for title, it in blocks() if title == heading]
    same(f"how many blocks of code are below {heading}", 1, len(found))
    return found[0]


def blocks():
    """The blocks of code of the page, each with its heading."""
    parts = re.findall(r"(?ms)^## ([^\n]*)\n(.*?)(?=^## |\Z)", page())
    return [(heading, it) for heading, text in parts for it in re.findall(r"(?ms)^```\w*\n(.*?)^```", text)]


def having(text, old, new):
    """A text of the page with something else for what it must have."""
    assert old in text, f"docs/OPERATING.md says {old!r} no more in\n{text}"
    return text.replace(old, new)


def runs(*commands):
    """Makes a case that is given these commands, which must stand in the page: in code quotes, or as the block below that heading."""

    def taken(case):
        def run(program, folder):
            case(program, folder, *(block(it) if it in dict(blocks()) else it for it in commands))

        run.__name__, run.commands = case.__name__, commands
        return run

    return taken


def needs(*tools):
    for it in tools:
        if not shutil.which(it, path=PATH):
            raise SkipTest(f"no {it}")


def surroundings(program, folder):
    """The environment in which `zanz` is the program."""
    os.makedirs(f"{folder}/bin", exist_ok=True)
    if not os.path.lexists(f"{folder}/bin/zanz"):
        os.symlink(program, f"{folder}/bin/zanz")
    return {**os.environ, "PATH": f"{folder}/bin:{PATH}", "LC_ALL": "C"}


def done(program, folder, command, below="", **more):
    """The status of commands, and what they wrote and told."""
    how = {"cwd": f"{folder}/{below}", "env": {**surroundings(program, folder), **more}, "stdin": subprocess.DEVNULL}
    ran = subprocess.run(["sh", "-c", command], stdout=subprocess.PIPE, stderr=subprocess.STDOUT, timeout=LIMIT, check=False, **how)
    return ran.returncode, ran.stdout.decode()


class Started(Server):
    """The program, as commands start it on a port that is free."""

    def __init__(self, program, folder, commands, **more):
        commands = having(commands, "--port 8080", "--port 0")
        self.begin(["sh", "-c", commands], folder, env=surroundings(program, folder), **more)


def allowed(server, zookie, name="ann"):
    """Whether the user is a member at the very revision of the zookie."""
    with server.connect() as stream:
        status, body = ask(stream, "check", exactly(zookie, name))
    same("check", 200, status)
    return json.loads(body)["allowed"]


def begun(server, *names):
    """Writes a configuration and these users, and returns the last zookie."""
    with server.connect() as stream:
        for call, body in [("config", CONFIG), *(("write", insert(it)) for it in names)]:
            status, told = ask(stream, call, body)
            same(call, 200, status)
    return json.loads(told)["zookie"]


def made(program, folder):
    """A store of three revisions, in store.db and its log, as a service leaves it that is stopped by a signal."""
    with Server(program, folder, "--db", "store.db", "--store", "1") as server:
        zookie = begun(server, "ann")
    return zookie


def content(folder, *names):
    found = []
    for name in names:
        with open(f"{folder}/{name}", "rb") as it:
            found.append(it.read())
    return found


def stored(program, folder):
    """What the store in store.db is: its state."""
    [(status, body)] = answered(program, folder, [("state", "")], "--db", "store.db")
    same("state", 200, status)
    return json.loads(body)


@runs("Start")
def the_same_commands_start_it_first_and_later(program, folder, start):
    zookie = None
    for how in (signal.SIGTERM, signal.SIGINT, signal.SIGKILL):
        with Started(program, folder, start) as server:
            same("the name of the process", b"zanz\n", content("/proc", f"{server.process.pid}/comm")[0])
            zookie = zookie or begun(server, "ann")
            same(f"what was written, before {how}", True, allowed(server, zookie))
            server.process.send_signal(how)
            same("its status and what is told", (-how, b""), (server.process.wait(LIMIT), server.process.stderr.read()))
    os.truncate(f"{folder}/store.db", 0)
    os.remove(f"{folder}/store.db-wal")
    with Started(program, folder, start) as server, server.connect() as stream:
        same("tuples where the file is empty", 0, state_of(stream)["tuples"])
    os.remove(f"{folder}/store.db")
    os.remove(f"{folder}/store.db-wal")
    later = "".join(it for it in start.splitlines(keepends=True) if not it.startswith("test -s "))
    same("lines that are left out after the first start", 1, start.count("\n") - later.count("\n"))
    same("a lost file", (1, "zanz: refused 22 StoreFault\n"), done(program, folder, having(later, "8080", "0")))
    same("the file", False, os.path.exists(f"{folder}/store.db"))


@runs("Start")
def other_users_may_not_read_its_file(program, folder, start):
    with Started(program, folder, start, umask=0o022) as server:
        begun(server, "ann")
        same("modes", ["600", "600"], [f"{stat.S_IMODE(os.stat(f'{folder}/{it}').st_mode):o}" for it in ("store.db", "store.db-wal")])


@runs("Start")
def a_port_that_is_taken_is_told_after_the_file(program, folder, start):
    with Started(program, folder, start) as server:
        taken = having(start, "8080", str(server.port))
        same("the same file", (1, "zanz: refused 22 StoreFault\n"), done(program, folder, taken))
        os.makedirs(f"{folder}/another")
        same("another file", (1, "zanz: cannot listen\n"), done(program, folder, taken, "another"))


def head_has_a_body_which_comes_before_the_next_reply(program, folder):
    with Server(program, folder) as server, server.connect() as stream:
        stream.sendall(b"HEAD /v1/state HTTP/1.1\r\n\r\n" + request("state", ""))
        same("HEAD", (404, NO_ROUTE), one_reply(stream))
        same("the next", 200, one_reply(stream)[0])


class Proxy:
    """nginx with the site of the page, by files in this folder."""

    def __init__(self, folder, site, port, before=()):
        needs("nginx", "openssl")
        self.port = port
        kept = "".join(f"{it}_temp_path {folder}/{it};\n" for it in ("client_body", "proxy", "fastcgi", "uwsgi", "scgi"))
        main = f"user root root;\ndaemon off;\nmaster_process off;\npid {folder}/nginx.pid;\nevents {{}}\n"
        main += f"http {{\naccess_log off;\n{kept}include {folder}/site;\n}}\n"
        texts = {"nginx.conf": main, "site": having(site, "/etc/nginx", folder), "zanz.passwords": "ann:{PLAIN}secret\n"}
        for name, text in texts.items():
            with open(f"{folder}/{name}", "w", encoding="utf-8") as it:
                it.write(text)
        pair = ["-nodes", "-subj", f"/CN={SITE}", "-keyout", f"{folder}/zanz.key", "-out", f"{folder}/zanz.pem"]
        made_pair = ["openssl", "req", "-x509", "-newkey", "ec", "-pkeyopt", "ec_paramgen_curve:prime256v1", *pair]
        subprocess.run(made_pair, check=True, capture_output=True, timeout=LIMIT)
        words = [*before, shutil.which("nginx", path=PATH), "-e", "stderr", "-c", f"{folder}/nginx.conf"]
        self.process = subprocess.Popen(words, stdin=subprocess.DEVNULL, stdout=subprocess.PIPE, stderr=subprocess.STDOUT)

    def connect(self, name=SITE):
        """A connection, on which this host is asked for."""
        until = time.monotonic() + LIMIT
        while True:
            assert self.process.poll() is None, f"nginx says\n{self.process.stdout.read().decode()}"
            try:
                stream = socket.create_connection(("127.0.0.1", self.port), timeout=LIMIT)
                break
            except ConnectionRefusedError:
                assert time.monotonic() < until, "nginx does not listen\n"
                time.sleep(0.01)
        found = http.client.HTTPConnection(name, timeout=LIMIT)
        found.sock = TRUSTING.wrap_socket(stream, server_hostname=name)
        return found

    def __enter__(self):
        return self

    def __exit__(self, *_):
        self.process.terminate()
        self.process.wait(LIMIT)
        self.process.stdout.close()


def free_port():
    with socket.socket() as it:
        it.bind(("127.0.0.1", 0))
        return it.getsockname()[1]


def proxy_of(server, folder, site):
    """The proxy of a service, on a port that is free."""
    port = free_port()
    site = having(having(site, "listen 443", f"listen 127.0.0.1:{port}"), "127.0.0.1:8080", f"127.0.0.1:{server.port}")
    return Proxy(folder, site, port)


def told(connection, verb, path, body=None, **fields):
    """The status and the body that the proxy answers to who is authenticated, unless other fields are given."""
    fields = {it.replace("_", "-"): value for it, value in (fields or AUTHENTICATED).items()}
    connection.request(verb, path, body, fields, encode_chunked="Transfer-Encoding" in fields)
    found = connection.getresponse()
    return found.status, found.read().decode()


@runs("Behind nginx")
def nginx_authenticates_and_lets_no_page_of_another_site_in(program, folder, site):
    with Server(program, folder) as server, proxy_of(server, folder, site) as proxy:
        same("config", 200, told(proxy.connect(), "POST", "/v1/config", CONFIG)[0])
        with server.connect() as direct:
            same("state", ask(direct, "state"), told(proxy.connect(), "GET", "/v1/state"))
        same("nobody", 401, told(proxy.connect(), "GET", "/v1/state", Accept="*/*")[0])
        wrong = f"Basic {base64.b64encode(b'ann:wrong').decode()}"
        same("a wrong password", 401, told(proxy.connect(), "GET", "/v1/state", Authorization=wrong)[0])
        same("a page of a site", 403, told(proxy.connect(), "GET", "/v1/state", Origin=f"https://{SITE}", **AUTHENTICATED)[0])
        same("HEAD", 405, told(proxy.connect(), "HEAD", "/v1/state")[0])
        status, found = told(proxy.connect(), "GET", "/v2/state")
        assert status == 404 and found != NO_ROUTE, f"another path is sent on, and answered {found}\n"
        for name in (OTHER, SITE):
            try:
                found = told(proxy.connect(name), "GET", "/v1/state", Host=OTHER, **AUTHENTICATED)
            except http.client.RemoteDisconnected:
                continue
            raise AssertionError(f"another host, on a connection for {name}, is answered {found}\n")


@runs("Behind nginx")
def nginx_sends_bodies_with_their_length_and_keeps_no_worker(program, folder, site):
    with Server(program, folder, "--workers", "1") as server, proxy_of(server, folder, site) as proxy:
        kept = proxy.connect()
        chunks = {"Transfer-Encoding": "chunked", **AUTHENTICATED}
        same("a body in pieces", 200, told(kept, "POST", "/v1/config", iter([CONFIG[:9].encode(), CONFIG[9:].encode()]), **chunks)[0])
        same("a body of the limit", 400, told(kept, "POST", "/v1/check", " " * 65536)[0])
        same("state", 200, told(kept, "GET", "/v1/state")[0])
        began = time.monotonic()
        with server.connect() as direct:
            same("beside a connection that nginx keeps", 200, ask(direct, "state")[0])
        # (a worker that is kept is given up after two seconds)
        assert time.monotonic() - began < 1.5, "the one worker was kept\n"
        status, found = told(proxy.connect(), "POST", "/v1/check", " " * 65537)
        assert status == 413 and found != TOO_LARGE, f"a body of more is answered {status} {found}\n"


@runs("systemd", "systemd-analyze verify")
def systemd_accepts_the_unit(program, folder, unit, verify):
    needs("systemd-analyze")
    with open(f"{folder}/zanz.service", "w", encoding="utf-8") as it:
        it.write(having(unit, "/usr/local/bin/zanz", program))
    status, found = done(program, folder, f"{verify} ./zanz.service")
    same("what is told of the unit", [], [it for it in found.splitlines() if "zanz.service" in it])
    same("status", 0, status)


@runs("systemd")
def the_commands_of_the_unit_start_it(program, folder, unit):
    settings = configparser.ConfigParser()
    settings.optionxform = str
    settings.read_string(having(having(unit, "/usr/local/bin/zanz", shlex.quote(program)), "--port 8080", "--port 0"))
    service = settings["Service"]
    before, words = (shlex.split(service[it]) for it in ("ExecStartPre", "ExecStart"))
    server, how = Server.__new__(Server), {"umask": int(service["UMask"], 8)}
    for _ in range(2):
        subprocess.run(before, cwd=folder, stdin=subprocess.DEVNULL, check=True, timeout=LIMIT, **how)
        server.begin(words, folder, **how)
        with server, server.connect() as stream:
            same("state", 200, ask(stream, "state")[0])
            same("mode", 0o600, stat.S_IMODE(os.stat(f"{folder}/store.db").st_mode))
            server.stop(signal.SIGTERM)


# In a network of its own: what is done there as process 1, which is then the words.
AS_PROCESS_1 = """
import fcntl, os, socket, struct, sys
with socket.socket() as it:
    fcntl.ioctl(it, 0x8914, struct.pack("16sh22x", b"lo", 0x1 | 0x40))
os.execvp(sys.argv[1], sys.argv[1:])
"""
# A client there: it sends its input, and writes what it is answered up to the end.
CLIENT = """
import socket, ssl, sys
stream = socket.create_connection(("127.0.0.1", int(sys.argv[1])), timeout=10)
if sys.argv[2] == "tls":
    stream = ssl._create_unverified_context().wrap_socket(stream)
stream.sendall(sys.stdin.buffer.read())
for more in iter(lambda: stream.recv(65536), b""):
    sys.stdout.buffer.write(more)
"""


class Contained(Server):
    """The program as process 1 in namespaces of its own, as a container runs it, with a user's number that is root there."""

    def __init__(self, program, folder, words):
        needs("unshare", "nsenter")
        own = ["unshare", "--user", "--map-root-user", "--net", "--pid", "--fork", "--kill-child", "--mount-proc"]
        if subprocess.run([*own, "true"], capture_output=True, check=False, timeout=LIMIT).returncode:
            raise SkipTest("no namespaces")
        self.begin([*own, sys.executable, "-c", AS_PROCESS_1, *words], folder, env=surroundings(program, folder))
        with open(f"/proc/{self.process.pid}/task/{self.process.pid}/children", encoding="utf-8") as it:
            self.number = int(it.read())
        self.inside = ["nsenter", "--target", str(self.number), "--user", "--net", "--preserve-credentials"]

    def asked_inside(self, sent, port, how):
        """What is answered inside, or nothing where nobody listens."""
        words = [*self.inside, sys.executable, "-c", CLIENT, str(port), how]
        return subprocess.run(words, input=sent, stdout=subprocess.PIPE, stderr=subprocess.DEVNULL, timeout=LIMIT, check=False).stdout

    def ends(self, how, within):
        """Whether it ends of a signal within so many seconds."""
        os.kill(self.number, how)
        try:
            self.process.wait(within)
        except subprocess.TimeoutExpired:
            return False
        return True


def inner(line):
    """The words that a container of a line of the page runs."""
    words = shlex.split(line)
    return words[words.index("IMAGE") + 1 :]


@runs("A container")
def as_process_1_it_is_ended_by_sigkill_alone(program, folder, lines):
    first, _ = lines.splitlines()
    assert " --init " in first, f"there is no --init in {first}\n"
    for found in (b'"newest":"AgAAAAAAAAABAAAAAAAAAAA"', b'"newest":"AgAAAAAAAAABAAAAAAAAAAE"'):
        with Contained(program, folder, inner(first)) as server:
            same("port", 8080, server.port)
            same("process 1", b"zanz\n", content("/proc", f"{server.number}/comm")[0])
            # (while one thread begins another it has signals blocked, and a signal then ends process 1 too)
            server.asked_inside(request("state", "", "Connection: close"), server.port, "tcp")
            time.sleep(0.5)
            for how in (signal.SIGTERM, signal.SIGINT):
                same(f"whether it ends by {how}", False, server.ends(how, 0.3))
                reply = server.asked_inside(request("state", "", "Connection: close"), server.port, "tcp")
                assert found in reply, f"it is answered {reply}\n"
            same("whether it ends by SIGKILL", True, server.ends(signal.SIGKILL, LIMIT))
        answered(program, folder, [("config", CONFIG)], "--db", "store.db")


@runs("A container", "Behind nginx")
def a_proxy_shares_the_network_of_a_container(program, folder, lines, site):
    first, second = lines.splitlines()
    for line, words in ((first, " --name zanz "), (second, " --network container:zanz ")):
        assert words in line, f"there is no{words}in {line}\n"
    fields = "".join(f"{it}: {value}\r\n" for it, value in AUTHENTICATED.items())
    asked = f"GET /v1/state HTTP/1.1\r\nHost: {SITE}\r\nConnection: close\r\n{fields}\r\n".encode()
    with Contained(program, folder, inner(first)) as server, Proxy(folder, site, 443, server.inside) as proxy:
        found, until = b"", time.monotonic() + LIMIT
        while not found and proxy.process.poll() is None and time.monotonic() < until:
            found = server.asked_inside(asked, 443, "tls")
        assert found.startswith(b"HTTP/1.1 200 ") and b'"newest"' in found, f"it is answered {found}\n"


@runs("GET /v1/state", "POST /v1/catchup", '{"commits":0,"part":"index"}')
def health_is_told_by_a_question_and_by_a_change_of_nothing(program, folder, question, change, nothing):
    """No file of the program may grow any more, of which it hears by an answer and not by a signal."""
    question, change = (it.rpartition("/")[2] for it in (question, change))
    file = ("--db", "store.db")
    with Server(program, folder, *file, "--store", "1", restore_signals=False) as server, server.connect() as stream:
        zookie = begun(server, "ann")
        same("a question", 200, ask(stream, question)[0])
        same("a change of nothing", 200, ask(stream, change, nothing)[0])
        limit = resource.getrlimit(resource.RLIMIT_FSIZE)
        resource.prlimit(server.process.pid, resource.RLIMIT_FSIZE, (0, limit[1]))
        same("a write", (503, '{"error":{"code":22,"name":"StoreFault"}}'), ask(stream, "write", insert("bob")))
        reopen = (503, '{"error":{"code":23,"name":"Reopen"}}')
        for _ in range(2):
            same("a change of nothing, after it", reopen, ask(stream, change, nothing))
            same("a write, after it", reopen, ask(stream, "write", insert("cat")))
            same("a question, after it", 200, ask(stream, question)[0])
            same("what was written", True, allowed(server, zookie))
            resource.prlimit(server.process.pid, resource.RLIMIT_FSIZE, limit)
    with Server(program, folder, *file) as server, server.connect() as stream:
        same("a change of nothing, started again", 200, ask(stream, change, nothing)[0])
        same("what was written, started again", True, allowed(server, zookie))
        assert state_of(stream)["tuples"] in (1, 2), "what was told StoreFault is neither there nor not\n"


def backups(program, folder, command, server, zookies):
    """Backups of a service that is written to, and of each how many writes were told before it and after it."""
    for number in range(3):
        at, until = len(zookies), time.monotonic() + LIMIT
        while len(zookies) < at + 3:
            assert time.monotonic() < until, "it is not written to\n"
            time.sleep(0.001)
        before = len(zookies)
        os.makedirs(f"{folder}/backup")
        same("the commands", (0, ""), done(program, folder, command, pid=str(server.process.pid)))
        os.rename(f"{folder}/backup", f"{folder}/backup{number}")
        yield f"backup{number}", before, len(zookies)


@runs("Backup", "zanz run --db store.db < /dev/null")
def a_backup_while_it_runs_is_of_one_moment(program, folder, command, merge):
    with Server(program, folder, "--db", "store.db", "--store", "1") as server:
        begun(server)
        zookies = []
        writing = threading.Thread(target=writes_of, args=(server, 0, zookies))
        writing.start()
        found = list(backups(program, folder, command, server, zookies))
        server.stop()
        writing.join(LIMIT)
    for name, before, after in found:
        same("merging", (0, ""), done(program, folder, merge, name))
        os.remove(f"{folder}/{name}/store.db-wal")
        lines = [("check", exactly(it, f"u0.{number}")) for number, it in enumerate(zookies[:before])]
        *told, (_, state) = answered(program, f"{folder}/{name}", [*lines, ("state", "")], "--db", "store.db")
        same("what was told before", [(200, f'{{"allowed":true,"zookie":"{it}"}}') for it in zookies[:before]], told)
        # One more write may have been made, whose reply had not come.
        tuples = json.loads(state)["tuples"]
        assert before <= tuples <= after + 1, f"it has {tuples} tuples, where {before} were told before and {after} after it\n"


@runs("Start", "zanz run --db store.db < /dev/null")
def a_file_without_its_log_is_an_older_store_or_none(program, folder, start, merge):
    with Started(program, folder, start) as server:
        begun(server, "ann")
    os.makedirs(f"{folder}/alone")
    shutil.copy(f"{folder}/store.db", f"{folder}/alone")
    same("the newest revision without the log", "AgAAAAAAAAABAAAAAAAAAAA", stored(program, f"{folder}/alone")["newest"])
    log = os.path.getsize(f"{folder}/store.db-wal")
    same("merging into a file that may not grow", (0, ""), done(program, folder, f"trap '' XFSZ; ulimit -f 0; {merge}"))
    same("bytes of the log that was not merged", log, os.path.getsize(f"{folder}/store.db-wal"))
    same("merging", (0, ""), done(program, folder, merge))
    same("bytes of the log", 41, os.path.getsize(f"{folder}/store.db-wal"))
    assert log > 41, f"the log had {log} bytes before\n"
    os.remove(f"{folder}/store.db-wal")
    same("the newest revision of what was merged", "AgAAAAAAAAABAAAAAAAAAAI", stored(program, folder)["newest"])
    os.makedirs(f"{folder}/none")
    made(program, f"{folder}/none")
    os.remove(f"{folder}/none/store.db-wal")
    refuses(program, f"{folder}/none")


@runs("sqlite3 store.db 'PRAGMA wal_checkpoint(truncate)'")
def sqlite3_is_told_that_it_is_locked_and_merges_the_log_later(program, folder, merge):
    needs("sqlite3")
    with Server(program, folder, "--db", "store.db", "--store", "1") as server:
        begun(server, "ann")
        status, found = done(program, folder, merge)
        assert status and "database is locked" in found, f"sqlite3 is told {found}\n"
    status, found = done(program, folder, merge)
    same("sqlite3, later", (0, "0|0|0\n"), (status, found))
    for name in os.listdir(folder):
        if name.startswith("store.db-"):
            os.remove(f"{folder}/{name}")
    same("the newest revision of the file alone", "AgAAAAAAAAABAAAAAAAAAAI", stored(program, folder)["newest"])


def refuses(program, folder, file="store.db", new=False, **how):
    """Sees that a service of this file is refused, and leaves what is there."""
    before = contents(folder)
    words = [program, "serve", "--db", file, *["--store", "1"] * new, "--port", "0"]
    ran = subprocess.run(words, cwd=folder, stdin=subprocess.DEVNULL, capture_output=True, timeout=LIMIT, check=False, **how)
    same(f"a service of {file}{', new' * new}", (*STORE_FAULT, b""), (ran.returncode, ran.stderr, ran.stdout))
    same(f"the files after a service of {file}", before, contents(folder))


def contents(folder):
    """The files of the folder that may be read, but for logs, and their bytes."""
    names = [it for it in os.listdir(folder) if os.path.isfile(f"{folder}/{it}") and not it.endswith("-wal")]
    return {it: content(folder, it)[0] for it in names if os.access(f"{folder}/{it}", os.R_OK)}


def looked(program, folder, check, file="store.db"):
    """What a check of the table tells, once the file has its name."""
    return done(program, folder, check.replace("FILE", file))


@runs("ls -lL FILE*")
def a_file_must_be_there_as_one_that_is_named_once(program, folder, check):
    refuses(program, folder)
    assert looked(program, folder, check)[0], "ls tells of a file that is not there\n"
    refuses(program, folder, "missing/store.db", new=True)
    for name in (":memory:", "file:store.db"):
        for new in (False, True):
            refuses(program, folder, name, new)
    made(program, folder)
    os.link(f"{folder}/store.db", f"{folder}/second.db")
    for name in ("store.db", "second.db"):
        refuses(program, folder, name)
    same("how many names ls tells", "2", looked(program, folder, check)[1].split()[1])
    os.remove(f"{folder}/second.db")
    same("tuples, with one name", 1, stored(program, folder)["tuples"])
    os.mkdir(f"{folder}/folder.db")
    refuses(program, folder, "folder.db")
    os.mkfifo(f"{folder}/pipe.db")
    same("what ls tells that it is", "p", looked(program, folder, check, "pipe.db")[1][0])
    waits_for_a_writer(program, folder)


def waits_for_a_writer(program, folder):
    """A pipe is opened, which the system does once somebody writes to it, and is then refused."""
    words = [program, "serve", "--db", "pipe.db", "--port", "0"]
    with subprocess.Popen(words, cwd=folder, stdin=subprocess.DEVNULL, stdout=subprocess.PIPE, stderr=subprocess.PIPE) as process:
        try:
            until = time.monotonic() + LIMIT
            while time.monotonic() < until:
                try:
                    os.close(os.open(f"{folder}/pipe.db", os.O_WRONLY | os.O_NONBLOCK))
                    break
                except OSError:
                    same("its status before the pipe is written to", None, process.poll())
                    time.sleep(0.01)
            wrote, told_of = process.communicate(timeout=LIMIT)
        finally:
            process.kill()
    same("a service of a pipe", (*STORE_FAULT, b""), (process.returncode, told_of, wrote))


def as_another_user(program, folder):
    """The program, and how it is run, where it is not run as root, who may read and write everything."""
    if os.geteuid():
        return program, {}
    how = {"user": NOBODY, "group": NOBODY, "extra_groups": []}
    try:
        subprocess.run(["true"], check=True, timeout=LIMIT, **how)
    except OSError:
        raise SkipTest("no other user") from None
    shutil.copy(program, f"{folder}/zanz")
    os.chmod(f"{folder}/zanz", 0o755)
    os.chmod(folder, 0o777)
    return f"{folder}/zanz", how


@runs("ls -ld . FILE*")
def a_file_its_log_and_their_folder_must_be_readable_and_writable(program, folder, check):
    made(program, folder)
    program, how = as_another_user(program, folder)
    for it in ("store.db", "store.db-wal"):
        os.chmod(f"{folder}/{it}", 0o666)
    for name, mode, kept in (("store.db", 0o444, 0o666), ("store.db", 0o222, 0o666), ("store.db-wal", 0o444, 0o666), (".", 0o555, 0o777)):
        if name == ".":
            os.remove(f"{folder}/store.db-wal")
        os.chmod(f"{folder}/{name}", mode)
        refuses(program, folder, **how)
        found = {line.split()[-1]: line.split()[0] for line in looked(program, folder, check)[1].splitlines()}
        same(f"what ls tells of {name}", stat.filemode(os.stat(f"{folder}/{name}").st_mode), found[name])
        os.chmod(f"{folder}/{name}", kept)


@runs("fuser FILE")
def a_file_must_be_open_nowhere_else(program, folder, check):
    needs("fuser")
    with Server(program, folder, "--db", "store.db", "--store", "1") as server:
        begun(server, "ann")
        refuses(program, folder)
        same("who has it", [str(server.process.pid)], looked(program, folder, f"{check} 2> /dev/null")[1].split())
    needs("sqlite3")
    with subprocess.Popen(["sqlite3", f"{folder}/store.db"], stdin=subprocess.PIPE, stdout=subprocess.PIPE) as other:
        other.stdin.write(b"BEGIN; SELECT count(*) FROM row;\n")
        other.stdin.flush()
        same("what it answers", b"1\n", other.stdout.readline())
        refuses(program, folder)
        same("who has it", [str(other.pid)], looked(program, folder, f"{check} 2> /dev/null")[1].split())
    stored(program, folder)


@runs("ls FILE-journal")
def a_journal_is_played_back_by_sqlite_alone(program, folder, check):
    needs("sqlite3")
    made(program, folder)
    cut = "PRAGMA journal_mode=delete; PRAGMA cache_size=1; BEGIN; INSERT INTO config VALUES (9, printf('%0100000d', 0)); SELECT 'cut';"
    with subprocess.Popen(["sqlite3", f"{folder}/store.db"], stdin=subprocess.PIPE, stdout=subprocess.PIPE) as other:
        other.stdin.write(f"{cut}\n".encode())
        other.stdin.flush()
        same("what it answers", [b"delete\n", b"cut\n"], [other.stdout.readline() for _ in range(2)])
        other.kill()
    same("what ls tells", (0, "store.db-journal\n"), looked(program, folder, check))
    refuses(program, folder)
    same("the configurations, once it was played back", (0, "1\n"), done(program, folder, "sqlite3 store.db 'SELECT count(*) FROM config'"))
    same("the newest revision", "AgAAAAAAAAABAAAAAAAAAAI", stored(program, folder)["newest"])


@runs("df .")
def a_full_device_is_refused(program, folder, check):
    needs("unshare")
    own = ["unshare", "--user", "--map-root-user", "--mount", "sh", "-c"]
    full = "mkdir full && mount -t tmpfs -o size=8k none full && cd full"
    if subprocess.run([*own, full], cwd=folder, capture_output=True, check=False, timeout=LIMIT).returncode:
        raise SkipTest("no namespaces")
    script = f"{full.replace('mkdir', 'mkdir -p')} && {{ zanz run --db store.db --store 1 < /dev/null; echo $?; {check}; }}"
    how = {"cwd": folder, "env": surroundings(program, folder), "stdin": subprocess.DEVNULL, "capture_output": True, "timeout": LIMIT}
    ran = subprocess.run([*own, script], check=False, **how)
    same("a new store", b"zanz: refused 22 StoreFault\n", ran.stderr)
    status, _, line = ran.stdout.decode().splitlines()
    same("its status", "1", status)
    same("what df tells is used", "100%", line.split()[-2])


@runs("sqlite3 FILE .schema")
def other_tables_are_no_store(program, folder, check):
    needs("sqlite3")
    made(program, folder)
    refuses(program, folder, new=True)
    same("the tables of a store", ["row", "config", "state"], tables_told(program, folder, check))
    done(program, folder, "sqlite3 store.db 'CREATE TABLE more (a)'")
    refuses(program, folder)
    same("the tables of another", ["row", "config", "state", "more"], tables_told(program, folder, check))
    done(program, folder, "sqlite3 other.db 'CREATE TABLE state (key, value); CREATE TABLE row (a); CREATE TABLE config (rev, text)'")
    refuses(program, folder, "other.db")
    same("tables in another order", ["state", "row", "config"], tables_told(program, folder, check, "other.db"))


def tables_told(program, folder, check, file="store.db"):
    """The tables that a check tells, by a copy of the file and of its log."""
    os.makedirs(f"{folder}/copied", exist_ok=True)
    for it in os.listdir(folder):
        if it.startswith(file):
            shutil.copy(f"{folder}/{it}", f"{folder}/copied")
    status, found = done(program, folder, check.replace("FILE", file), "copied")
    same("its status", 0, status)
    return re.findall(r"(?i)create table \"?(\w+)", found)


@runs("sqlite3 FILE 'PRAGMA integrity_check'")
def what_is_no_database_or_a_damaged_one_is_refused(program, folder, check):
    needs("sqlite3")
    made(program, folder)
    same("of a store", (0, "ok\n"), looked(program, folder, check))
    same("merging", (0, "0|0|0\n"), done(program, folder, "sqlite3 store.db 'PRAGMA wal_checkpoint(truncate)'"))
    with open(f"{folder}/store.db", "r+b") as it:
        size = it.seek(0, os.SEEK_END)
        for at in range(4096, size, 4096):
            it.seek(at)
            it.write(b"\xff" * 64)
    with open(f"{folder}/other.db", "w", encoding="utf-8") as it:
        it.write("no database\n" * 1000)
    for name in ("store.db", "other.db"):
        refuses(program, folder, name)
        assert looked(program, folder, check, name)[1] != "ok\n", f"{name} is whole\n"


@runs("sqlite3 FILE 'SELECT * FROM state'")
def a_file_of_another_format_is_refused(program, folder, check):
    needs("sqlite3")
    made(program, folder)
    same("of a store", (0, ["floor|0", "format|1", "newest|2", "store|1"]), sorted_lines(looked(program, folder, check)))
    # A row of the second revision is no history of a store whose newest is the first.
    for key, value, kept in (("format", 2, 1), ("newest", 1, 2)):
        done(program, folder, f"sqlite3 store.db \"UPDATE state SET value={value} WHERE key='{key}'\"")
        refuses(program, folder)
        assert f"{key}|{value}\n" in looked(program, folder, check)[1], f"sqlite3 does not tell that {key} is {value}\n"
        done(program, folder, f"sqlite3 store.db \"UPDATE state SET value={kept} WHERE key='{key}'\"")
    same("the newest revision of what is as before", "AgAAAAAAAAABAAAAAAAAAAI", stored(program, folder)["newest"])


def sorted_lines(told):
    return told[0], sorted(told[1].splitlines())


def op(kind, name, **more):
    return json.dumps({**more, "ops": [{"op": kind, "tuple": f"group:a#member@user:{name}"}]})


def a_change_that_comes_again_is_a_touch_or_has_a_condition(program, folder):
    file = ("--db", "store.db")
    with Server(program, folder, *file, "--store", "1") as server, server.connect() as stream:
        zookie = begun(server, "ann")
        for _ in range(2):
            same("a touch", 200, ask(stream, "write", op("touch", "bob"))[0])
        already, not_there = ((409, f'{{"error":{{"code":{code},"index":0,"name":"{name}"}}}}') for code, name in ((6, "AlreadyThere"), (7, "NotThere")))
        same("an insert again", already, ask(stream, "write", op("insert", "bob")))
        same("a delete", 200, ask(stream, "write", op("delete", "bob"))[0])
        same("a delete again", not_there, ask(stream, "write", op("delete", "bob")))
        condition = [{"if": "unchanged", "tuple": "group:a#member@user:ann", "zookie": zookie}]
        same("a write under a condition", 200, ask(stream, "write", op("touch", "ann", conditions=condition))[0])
        failed = (409, '{"error":{"code":5,"index":0,"name":"ConditionFailed"}}')
        same("the same again", failed, ask(stream, "write", op("touch", "ann", conditions=condition)))
        stream.sendall(request("write", op("touch", "cat")))
        server.stop()
    with Server(program, folder, *file) as server, server.connect() as stream:
        status, body = ask(stream, "write", op("touch", "cat"))
        same("a touch that comes again after a crash", (200, True), (status, allowed(server, json.loads(body)["zookie"], "cat")))


def each_command_of_the_page_is_run(_program, _folder):
    taken = {it for case in CASES for it in getattr(case, "commands", ())}
    same("blocks that no case runs", [], [heading for heading, _ in blocks() if heading not in taken])
    lines = {it for _, text in blocks() for it in text.splitlines()}
    found = set()
    for paragraph in re.split(r"\n\s*\n|\n(?=[-|#])", re.sub(r"(?ms)^```.*?^```", "", page())):
        its = {it for it in re.findall(r"`([^`]+)`", re.sub(r"\s+", " ", paragraph)) if is_command(it)}
        found |= its
        if not re.search(r"\(not\s+run\)", paragraph):
            same(f"commands that no case runs, in {paragraph}", set(), its - taken - lines)
    same("commands that the page lacks", set(), taken - found - {heading for heading, _ in blocks()})


def is_command(text):
    """Whether what stands in code quotes is a command, a request or its body."""
    return text not in NAMES and text.split()[0] in TOOLS or text.startswith(("GET /", "POST /", "{"))


CASES = [
    the_same_commands_start_it_first_and_later,
    other_users_may_not_read_its_file,
    a_port_that_is_taken_is_told_after_the_file,
    head_has_a_body_which_comes_before_the_next_reply,
    nginx_authenticates_and_lets_no_page_of_another_site_in,
    nginx_sends_bodies_with_their_length_and_keeps_no_worker,
    systemd_accepts_the_unit,
    the_commands_of_the_unit_start_it,
    as_process_1_it_is_ended_by_sigkill_alone,
    a_proxy_shares_the_network_of_a_container,
    health_is_told_by_a_question_and_by_a_change_of_nothing,
    a_backup_while_it_runs_is_of_one_moment,
    a_file_without_its_log_is_an_older_store_or_none,
    sqlite3_is_told_that_it_is_locked_and_merges_the_log_later,
    a_file_must_be_there_as_one_that_is_named_once,
    a_file_its_log_and_their_folder_must_be_readable_and_writable,
    a_file_must_be_open_nowhere_else,
    a_journal_is_played_back_by_sqlite_alone,
    a_full_device_is_refused,
    other_tables_are_no_store,
    what_is_no_database_or_a_damaged_one_is_refused,
    a_file_of_another_format_is_refused,
    a_change_that_comes_again_is_a_touch_or_has_a_condition,
    each_command_of_the_page_is_run,
]
