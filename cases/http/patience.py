"""The cases of peers that are silent, slow, or take nothing: what becomes of them, and of those who wait behind them.

Each mostly waits, so cases/run does them beside the others. What is measured is bounded from far above: a worker gives a peer up
some two seconds after it was last of use, or ten where nothing is taken of a reply, once another waits.
"""
import os
import select
import socket
import sys
import threading
import time

sys.dont_write_bytecode = True
sys.path.insert(0, os.path.dirname(os.path.realpath(__file__)))
from connections import CHECK, CONFIG, LIMIT, NO_RELATION, Server, ask, insert, one_reply, request, same

ANSWER = (400, NO_RELATION)


def waits(case):
    case.waits = True
    return case


def answered_within(server, seconds):
    """That another client is answered, so soon."""
    began = time.monotonic()
    with server.connect() as stream:
        same("another client", ANSWER, ask(stream, "check", CHECK))
    took = time.monotonic() - began
    assert took < seconds, f"it was answered after {took:.1f} seconds\n"


def has_ended(stream):
    """Whether the other side has closed a connection on which nothing was written."""
    if not select.select([stream], [], [], 0)[0]:
        return False
    try:
        return stream.recv(1) == b""
    except ConnectionResetError:
        return True


@waits
def silent_connections_make_room(program, folder):
    for workers in (1, 4):
        with Server(program, folder, "--workers", str(workers)) as server:
            silent = [server.connect() for _ in range(workers)]
            time.sleep(0.2)
            answered_within(server, 10)
            assert any(map(has_ended, silent)), f"none of {workers} silent ones was given up\n"
            for stream in silent:
                stream.close()


@waits
def a_connection_that_was_served_makes_room_once_it_is_silent(program, folder):
    for workers in (1, 4):
        with Server(program, folder, "--workers", str(workers)) as server:
            kept = [server.connect() for _ in range(workers)]
            for stream in kept:
                same("a client that stays", ANSWER, ask(stream, "check", CHECK))
            answered_within(server, 10)
            for stream in kept:
                stream.close()


@waits
def an_idle_connection_stays_while_nobody_waits(program, folder):
    for words in ((), ("--workers", "1")):
        with Server(program, folder, *words) as server, server.connect() as stream:
            same("before", ANSWER, ask(stream, "check", CHECK))
            time.sleep(4)
            same("after four seconds", ANSWER, ask(stream, "check", CHECK))


@waits
def an_idle_connection_stays_beside_those_that_find_a_worker(program, folder):
    """Where the machine stands still for a while somebody waits indeed, so it may be tried thrice."""
    ended = True
    for _ in range(3):
        with Server(program, folder, "--workers", "2") as server, server.connect() as stream:
            same("before", ANSWER, ask(stream, "check", CHECK))
            end = time.monotonic() + 4
            while time.monotonic() < end:
                answered_within(server, LIMIT)
            ended = has_ended(stream)
        if not ended:
            return
    assert not ended, "it was given up, though a worker was free\n"


def send_in_drops(stream, sent, pause):
    """Sends a byte at a time, until all is sent or the other side is gone."""
    try:
        for byte in sent:
            stream.sendall(bytes([byte]))
            time.sleep(pause)
    except OSError:
        return


@waits
def a_request_in_drops_makes_room(program, folder):
    """Of a head, and of a body behind a whole head."""
    head, _, body = request("check", CHECK).partition(b"\r\n\r\n")
    for first, drops in ((b"", head * 9), (head.replace(b"41", b"999") + b"\r\n\r\n", body * 9)):
        with Server(program, folder, "--workers", "2") as server, server.connect() as one, server.connect() as two:
            threads = []
            for stream in (one, two):
                stream.sendall(first)
                threads.append(threading.Thread(target=send_in_drops, args=(stream, drops, 0.05)))
            for it in threads:
                it.start()
            time.sleep(0.2)
            answered_within(server, 10)
            server.stop()
            for it in threads:
                it.join(LIMIT)


@waits
def forty_half_sent_heads_make_room(program, folder):
    with Server(program, folder, "--workers", "20") as server:
        halves = [server.connect() for _ in range(40)]
        for stream in halves:
            stream.sendall(b"POST /v1/ch")
        answered_within(server, 20)
        for stream in halves:
            stream.close()


@waits
def a_slow_upload_goes_through_while_others_wait(program, folder):
    sent = request("check", CHECK + " " * (65536 - len(CHECK)))
    with Server(program, folder, "--workers", "1") as server, server.connect() as slow:
        slow.sendall(sent[:1000])
        others = [server.connect() for _ in range(3)]
        for start in range(1000, len(sent), 1000):
            time.sleep(0.06)
            slow.sendall(sent[start : start + 1000])
        same("after four seconds", ANSWER, one_reply(slow))
        for stream in others:
            stream.close()


def asked_again(server, streams, number, told):
    """Asks by one of the kept connections, and by a new one where that was given up before a byte of a reply."""
    for _ in range(20):
        try:
            streams[number] = streams[number] or server.connect()
            streams[number].sendall(request("check", CHECK))
            if select.select([streams[number]], [], [], LIMIT)[0] and streams[number].recv(1, socket.MSG_PEEK):
                told.append(one_reply(streams[number]))
                return
        except (BrokenPipeError, ConnectionResetError):
            pass
        streams[number].close()
        streams[number] = None


@waits
def a_pool_of_more_connections_than_workers_is_answered(program, folder):
    with Server(program, folder, "--workers", "4") as server:
        streams, told = [None] * 16, []
        for _ in range(2):
            threads = [threading.Thread(target=asked_again, args=(server, streams, number, told)) for number in range(16)]
            for it in threads:
                it.start()
            for it in threads:
                it.join(LIMIT)
        same("what they were told", [ANSWER] * 32, told)
        for stream in streams:
            stream.close()


def ask_now_and_then(server, streams, number, ends):
    """Asks twice a second, by a connection that is kept."""
    while not ends.wait(0.5):
        told = []
        asked_again(server, streams, number, told)
        same("a client that asks now and then", [ANSWER], told)


@waits
def clients_that_ask_now_and_then_make_room(program, folder):
    with Server(program, folder, "--workers", "2") as server:
        streams, ends = [None] * 2, threading.Event()
        threads = [threading.Thread(target=ask_now_and_then, args=(server, streams, number, ends)) for number in range(2)]
        for it in threads:
            it.start()
        time.sleep(1)
        answered_within(server, 10)
        ends.set()
        for it in threads:
            it.join(LIMIT)
        for stream in streams:
            stream.close()


@waits
def a_peer_that_takes_nothing_is_cut_off(program, folder):
    """With one worker, behind whom another waits: pages of 1,000 tuples are asked for and none is taken."""
    names = [[insert(f"{at}{'n' * 50}{number}") for number in range(256)] for at in "abcd"]
    with Server(program, folder, "--workers", "1") as server:
        with server.connect() as stream:
            same("config", 200, ask(stream, "config", CONFIG)[0])
            for each in names:
                ops = ",".join(it[len('{"ops":[') : -len("]}")] for it in each)
                same("write", 200, ask(stream, "write", f'{{"ops":[{ops}]}}')[0])
        with socket.socket() as greedy:
            greedy.setsockopt(socket.SOL_SOCKET, socket.SO_RCVBUF, 4096)
            greedy.connect(("127.0.0.1", server.port))
            greedy.settimeout(LIMIT)
            greedy.sendall(request("read", '{"namespace":"group"}') * 200)
            time.sleep(1)
            began = time.monotonic()
            with server.connect() as stream:
                same("another client", 200, ask(stream, "state")[0])
            took = time.monotonic() - began
            assert 5 < took < 30, f"it was answered after {took:.1f} seconds\n"


@waits
def four_workers_serve_where_none_are_named(program, folder):
    with Server(program, folder) as server:
        kept = [server.connect() for _ in range(3)]
        time.sleep(0.2)
        answered_within(server, 1)
        with server.connect() as fourth, server.connect() as fifth:
            same("the fourth", ANSWER, ask(fourth, "check", CHECK))
            fifth.sendall(request("check", CHECK))
            same("what the fifth has at once", [], select.select([fifth], [], [], 0.3)[0])
            same("the fifth", ANSWER, one_reply(fifth))
        for stream in kept:
            stream.close()


CASES = [
    silent_connections_make_room,
    a_connection_that_was_served_makes_room_once_it_is_silent,
    an_idle_connection_stays_while_nobody_waits,
    an_idle_connection_stays_beside_those_that_find_a_worker,
    a_request_in_drops_makes_room,
    forty_half_sent_heads_make_room,
    a_slow_upload_goes_through_while_others_wait,
    a_pool_of_more_connections_than_workers_is_answered,
    clients_that_ask_now_and_then_make_room,
    a_peer_that_takes_nothing_is_cut_off,
    four_workers_serve_where_none_are_named,
]
