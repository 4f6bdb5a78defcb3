"""The program behind a pipe: lines go in, and of each batch it is known what it was answered and what it took."""
import json
import os
import subprocess
import sys
import tempfile
import time

MOST = 256


def spelled(parts):
    namespace, object_id, relation, subject_namespace, subject, subject_relation = parts
    end = "#" + subject_relation if subject_relation else ""
    return f"{namespace}:{object_id}#{relation}@{subject_namespace}:{subject}{end}"


def config_line(namespaces):
    return "config " + json.dumps({"namespaces": namespaces}, separators=(",", ":"))


def write_lines(tuples):
    """Writes of at most 256 operations. A tuple is inserted, where no word stands beside it."""
    lines = []
    for first in range(0, len(tuples), MOST):
        operations = []
        for each in tuples[first:first + MOST]:
            parts, kind = each if len(each) == 2 else (each, "insert")
            operations.append(f'{{"op":"{kind}","tuple":"{spelled(parts)}"}}')
        lines.append('write {"ops":[' + ",".join(operations) + "]}")
    return lines


def check_lines(batch, zookie=None):
    at = f'"at":{{"exactly":"{zookie}"}},' if zookie else ""
    return [
        f'check {{{at}"node":"{namespace}:{object_id}#{relation}","user":"user:{user}"}}'
        for namespace, object_id, relation, user in batch
    ]


class Served:
    def __init__(self, program):
        self.out = tempfile.TemporaryFile("w+b")
        self.read = 0
        self.process = subprocess.Popen([program, "run"], stdin=subprocess.PIPE, stdout=self.out)

    def processor(self):
        """The seconds of a processor that the program has had."""
        with open(f"/proc/{self.process.pid}/schedstat", encoding="ascii") as file:
            return int(file.read().split()[0]) / 1e9

    def answers(self, count):
        """The next answers. They are in the file before the program waits for more input."""
        text = bytearray()
        found = 0
        while found < count:
            piece = os.pread(self.out.fileno(), 1 << 20, self.read)
            self.read += len(piece)
            text += piece
            found += piece.count(b"\n")
            if not piece:
                if self.process.poll() is not None:
                    sys.exit(f"checks: the program ended with status {self.process.returncode}")
                time.sleep(0.0005)
        return text.decode("ascii").splitlines()

    def fed(self, lines):
        """The answers to these lines, the seconds and the seconds of a processor."""
        text = "".join(line + "\n" for line in lines).encode("ascii")
        begun, used = time.monotonic(), self.processor()
        self.process.stdin.write(text)
        self.process.stdin.flush()
        answers = self.answers(len(lines))
        return answers, time.monotonic() - begun, self.processor() - used

    def told(self, lines):
        """The same of lines that are all answered with status 200, each answer as a value."""
        answers, seconds, processor = self.fed(lines)
        for line, answer in zip(lines, answers):
            if not answer.startswith("200 "):
                sys.exit(f"checks: {line[:200]}: {answer}")
        return [json.loads(answer[4:]) for answer in answers], seconds, processor

    def take(self, lines):
        """Has changes made, and returns the zookie of the last."""
        return self.told(lines)[0][-1]["zookie"]

    def asked(self, lines):
        answers, seconds, processor = self.told(lines)
        return [answer["allowed"] for answer in answers], seconds, processor

    def end(self):
        self.process.stdin.close()
        if self.process.wait() != 0:
            sys.exit(f"checks: the program ended with status {self.process.returncode}")
        self.out.close()
