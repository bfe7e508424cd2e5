#!/usr/bin/env python3
"""Tests exhibit/serve with small limits and a small program in place of the proved one: test_server.py

The program does what the first line of its plan says; see PROGRAM. Each request that is refused has to get the status of
HTTP and a sentence, and the server has to go on. Last come `N passed, M failed`."""

import base64
import contextlib
import hashlib
import html.parser
import http.client
import importlib.machinery
import importlib.util
import json
import os
import socket
import sys
import tempfile
import threading
import time
import unittest

import bundle

sys.dont_write_bytecode = True
HERE = os.path.dirname(os.path.realpath(__file__))

# It writes its input, as many bytes as the plan says, nothing for so many seconds, or it ends with a status.
PROGRAM = """#!/bin/bash
while [[ $1 != --plan ]]; do shift; done
read -r word number <"$2"
case $word in
    input) cat ;;
    bytes) head -c "$number" /dev/zero | tr '\\0' x ;;
    sleeps) exec sleep "$number" ;;
    fails) echo "crossbar5: it fails" >&2; exit "$number" ;;
esac
"""


def loaded():
    """The server's script as a module."""
    loader = importlib.machinery.SourceFileLoader("serve", os.path.join(HERE, "serve"))
    module = importlib.util.module_from_spec(importlib.util.spec_from_loader("serve", loader))
    loader.exec_module(module)
    return module


def call_body(plan, given="", kinds="XX", task=0):
    return json.dumps({"task": task, "plan": plan, "kinds": kinds, "input": given}).encode()


class Elements(html.parser.HTMLParser):
    """The texts of a page's script and style elements, and what a policy by hashes would forbid."""

    def __init__(self, page):
        super().__init__()
        self.inside, self.texts, self.wrong = None, {"script": [], "style": []}, []
        self.feed(page)

    def handle_starttag(self, tag, attributes):
        names = [name for name, _ in attributes]
        self.wrong += [f"{tag} {name}" for name in names if name == "style" or name.startswith("on")]
        if tag in self.texts:
            self.wrong += [f"{tag} {name}" for name in names]
            self.inside = tag
            self.texts[tag].append("")

    def handle_endtag(self, tag):
        self.inside = None

    def handle_data(self, data):
        if self.inside:
            self.texts[self.inside][-1] += data


class OfServer(unittest.TestCase):
    """Each test has a server with limits of its own."""

    limits = {}

    def setUp(self):
        self.serve = loaded()
        for name in self.limits:
            self.assertTrue(hasattr(self.serve, name), f"the server has no {name}")
        self.usual = {name: getattr(self.serve, name) for name in self.limits}
        self.set_limits(self.limits)
        folder = tempfile.TemporaryDirectory()
        self.addCleanup(folder.cleanup)
        path = os.path.join(folder.name, "program")
        with open(path, "w", encoding="ascii") as it:
            it.write(PROGRAM)
        os.chmod(path, 0o755)
        self.page = bundle.bundle(self.serve.ENGINE)
        self.server = self.serve.Server(0, self.page, self.serve.Program(path))
        self.port = self.server.server_address[1]
        thread = threading.Thread(target=self.server.serve_forever, kwargs={"poll_interval": 0.02})
        thread.start()
        self.addCleanup(self.server.server_close)
        self.addCleanup(thread.join)
        self.addCleanup(self.server.shutdown)

    def request(self, method, path, body=None, **headers):
        with contextlib.closing(http.client.HTTPConnection("127.0.0.1", self.port, timeout=60)) as connection:
            connection.request(method, path, body, {name.replace("_", "-"): it for name, it in headers.items()})
            response = connection.getresponse()
            return response.status, response.read(), response.headers

    def post(self, body):
        status, said, _ = self.request("POST", "/answer", body, Content_Type="application/json")
        return status, said

    def check_refused(self, answer, status, words):
        """The answer has the status and one sentence, which has the words."""
        found, said = answer
        self.assertEqual(found, status, said)
        self.assertRegex(said, rb"\A[^\n]+\.\n\Z")
        self.assertIn(words, said.decode())

    def set_limits(self, limits):
        for name, value in limits.items():
            setattr(self.serve, name, value)

    def check_works(self):
        """The server still answers, with its usual limits, and holds nothing."""
        self.set_limits(self.usual)
        self.assertEqual(self.post(call_body("input", "text")), (200, b'{"status": 0, "text": "text"}'))
        self.set_limits(self.limits)
        self.wait_for(lambda: self.server.held.bytes == 0, "the server holds something")

    def wait_for(self, holds, sentence):
        end = time.monotonic() + 60
        while not holds():
            self.assertLess(time.monotonic(), end, sentence)
            time.sleep(0.01)

    @contextlib.contextmanager
    def connected(self, *sent):
        """A connection over which this was sent."""
        with socket.create_connection(("127.0.0.1", self.port), timeout=60) as line:
            for data in sent:
                line.sendall(data)
            yield line

    def head(self, length, path="/answer"):
        return (f"POST {path} HTTP/1.1\r\nHost: 127.0.0.1:{self.port}\r\nContent-Type: application/json\r\n"
                f"Content-Length: {length}\r\n\r\n").encode()


def answer_on(line):
    """The status and the body of what comes over a connection until its end."""
    data = b""
    with contextlib.suppress(ConnectionResetError):
        while piece := line.recv(65536):
            data += piece
    head, _, body = data.partition(b"\r\n\r\n")
    return (int(head.split()[1]) if head else None), body


class Usual(OfServer):
    def test_page_and_answers(self):
        status, body, headers = self.request("GET", "/")
        self.assertEqual((status, body.decode()), (200, self.page))
        self.check_works()
        self.assertEqual(self.post(call_body("bytes 3000000"))[0], 200)
        self.check_works()
        self.check_refused(self.post(call_body("fails 9")), 500, "ended with status 9, and said 'crossbar5: it fails'")
        self.check_works()

    def test_many_requests_on_one_connection(self):
        with contextlib.closing(http.client.HTTPConnection("127.0.0.1", self.port, timeout=60)) as connection:
            for number in range(5):
                body = call_body("input", str(number))
                connection.request("POST", "/answer", body, {"Content-Type": "application/json"})
                self.assertEqual(json.load(connection.getresponse()), {"status": 0, "text": str(number)})

    def test_refusals(self):
        post = lambda **headers: self.request("POST", "/answer", call_body("input"), **headers)[:2]
        json_type = {"Content_Type": "application/json"}
        self.check_refused(post(Host="elsewhere.example", **json_type), 403, "host")
        self.check_refused(post(Origin="http://elsewhere.example", **json_type), 403, "Only the page")
        self.check_refused(post(Content_Type="text/plain"), 400, "application/json")
        self.check_refused(self.request("GET", "/answer")[:2], 404, "nothing here but the page")
        self.check_refused(self.request("PUT", "/answer", b"")[:2], 501, "PUT")
        self.check_refused(self.post(b"{"), 400, "JSON")
        self.check_works()


class Policy(OfServer):
    """The page may run what stands in it, and nothing else."""

    def policy(self):
        """The policy of the page, by its directives."""
        _, _, headers = self.request("GET", "/")
        self.assertEqual(len(headers.get_all("Content-Security-Policy")), 1)
        parts = (part.split() for part in headers["Content-Security-Policy"].split(";"))
        return {name: values for name, *values in parts}

    def hashes(self, page, name):
        digests = (hashlib.sha256(text.encode()).digest() for text in Elements(page).texts[name])
        return [f"'sha256-{base64.b64encode(digest).decode()}'" for digest in digests]

    def test_policy_of_the_page(self):
        self.assertEqual(self.policy(), {
            "default-src": ["'none'"], "script-src": [*self.hashes(self.page, "script"), "'wasm-unsafe-eval'"],
            "style-src": self.hashes(self.page, "style"), "img-src": ["data:"], "connect-src": ["'self'"],
            "base-uri": ["'none'"], "form-action": ["'none'"], "frame-ancestors": ["'none'"],
        })

    def test_nothing_that_it_forbids_is_in_the_page(self):
        for page in (self.page, bundle.bundle(os.path.join(HERE, "engine", "inside.js"), b"module")):
            found = Elements(page)
            self.assertEqual((found.wrong, len(found.texts["script"]), len(found.texts["style"])), ([], 1, 1))
            self.assertIn(self.hashes(page, "script")[0], self.serve.policy_of(page))

    def test_line_ends_as_a_browser_reads_them(self):
        one, other = "<script>a\nb</script><style>c</style>", "<script>a\r\nb</script><style>c</style>"
        self.assertEqual(self.serve.policy_of(one), self.serve.policy_of(other))

    def test_every_answer_has_it(self):
        for method, path in (("GET", "/"), ("GET", "/none"), ("PUT", "/"), ("POST", "/answer")):
            _, _, headers = self.request(method, path)
            self.assertIn("default-src 'none'", headers["Content-Security-Policy"], path)


class Connections(OfServer):
    limits = {"MOST_CONNECTIONS": 2, "MOST_REFUSED": 1, "SLOWEST_REFUSED": 0.5, "LINGER": 0.2}

    def test_more_than_the_server_works_at(self):
        threads = threading.active_count()
        with self.connected() as one, self.connected() as other:
            self.wait_for(lambda: threading.active_count() == threads + 2, "the connections have no threads")
            # Each of these gets its answer, though only one can be refused at a time.
            for _ in range(5):
                self.check_refused(self.post(call_body("input")), 503, "works at 2 connections already")
            self.check_refused(self.post(call_body("input", "x" * 3_000_000)), 503, "works at 2 connections already")
            one.sendall(self.head(0, "/none"))
            self.assertEqual(answer_on(one)[0], 404)
            self.wait_for(lambda: threading.active_count() == threads + 1, "a connection keeps its thread")
            self.check_works()
            del other
        self.check_works()

    def test_threads_are_bounded(self):
        threads = threading.active_count()
        most = 0
        with contextlib.ExitStack() as lines:
            for _ in range(20):
                lines.enter_context(self.connected())
                most = max(most, threading.active_count())
            time.sleep(0.3)
            most = max(most, threading.active_count())
        self.assertLessEqual(most, threads + 3)
        self.wait_for(lambda: threading.active_count() == threads, "threads are left")
        self.check_works()


class Bodies(OfServer):
    limits = {"MOST_BODY": 100_000, "MOST_HEAD": 20_000, "LINGER": 0.5}

    def test_bodies_that_are_too_long(self):
        body = call_body("input", "x" * 99_900)
        self.assertLessEqual(len(body), 100_000)
        self.assertEqual(self.post(body)[0], 200)
        self.check_refused(self.post(body + b" " * 200), 413, "longer than 100,000 bytes")
        self.check_refused(self.post(body + b" " * 5_000_000), 413, "longer than 100,000 bytes")
        with self.connected(self.head(10**30)) as line:
            self.check_refused(answer_on(line), 413, "longer than 100,000 bytes")
        self.check_works()

    def test_heads_that_are_too_long(self):
        lines = b"".join(b"X-Field: %s\r\n" % (b"x" * 1000) for _ in range(60))
        with self.connected(b"GET / HTTP/1.1\r\n", lines, b"\r\n") as line:
            self.check_refused(answer_on(line), 431, "longer than 20,000 bytes")
        status, _, _ = self.request("GET", "/", X_Field="x" * 10_000)
        self.assertEqual(status, 200)
        self.check_works()


class Total(OfServer):
    limits = {"MOST_HELD": 100_000}

    def test_bodies_that_are_too_much_together(self):
        with self.connected(self.head(60_000), b"x" * 50_000) as line:
            self.wait_for(lambda: self.server.held.bytes == 60_000, "the body isn't counted")
            self.check_refused(self.post(call_body("input", "x" * 50_000)), 503, "holds 100,000 bytes")
            # A small one has its place.
            self.assertEqual(self.post(call_body("input", "text"))[0], 200)
            line.sendall(b"x" * 10_000)
            line.shutdown(socket.SHUT_WR)
            self.assertEqual(answer_on(line)[0], 400)
        self.check_works()

    def test_an_answer_that_is_too_much(self):
        self.assertEqual(self.post(call_body("bytes 99000"))[0], 200)
        self.check_refused(self.post(call_body("bytes 100000")), 503, "holds 100,000 bytes")
        self.check_refused(self.post(call_body("bytes 300000000")), 503, "holds 100,000 bytes")
        self.check_works()

    def test_a_caller_that_goes_away(self):
        with self.connected(self.head(60_000), b"x" * 50_000):
            self.wait_for(lambda: self.server.held.bytes == 60_000, "the body isn't counted")
        self.check_works()


class Slow(OfServer):
    limits = {"SLOWEST_REQUEST": 1, "SLOWEST_ANSWER": 1, "LINGER": 0.1}

    def check_works(self):
        self.wait_for(lambda: self.server.held.bytes == 0, "the server holds something")
        super().check_works()

    def drip(self, line, data):
        """Sends bytes one by one, until the server answers or all are sent; how long that took."""
        began = time.monotonic()
        with contextlib.suppress(ConnectionError):
            for at in range(len(data)):
                line.sendall(data[at:at + 1])
                time.sleep(0.1)
                if time.monotonic() - began > 30:
                    break
                line.settimeout(0.001)
                with contextlib.suppress(TimeoutError):
                    if line.recv(1, socket.MSG_PEEK):
                        break
                line.settimeout(20)
        line.settimeout(20)
        return time.monotonic() - began

    def test_a_request_that_comes_slowly(self):
        whole = self.head(1000) + b"x" * 1000
        for sent in (0, 30, len(whole) - 1000, len(whole) - 500):
            with self.subTest(sent=sent), self.connected(whole[:sent]) as line:
                self.assertLess(self.drip(line, whole[sent:]), 30)
                self.check_refused(answer_on(line), 408, "took more than 1 seconds to come")
        self.check_works()

    def test_a_request_that_stops(self):
        for sent in (b"GET", self.head(10), self.head(10) + b"x"):
            with self.subTest(sent), self.connected(sent) as line:
                self.check_refused(answer_on(line), 408, "took more than 1 seconds to come")
        self.check_works()

    def test_a_connection_without_a_request(self):
        began = time.monotonic()
        with self.connected() as line:
            self.assertEqual(answer_on(line), (None, b""))
        self.assertTrue(0.9 < time.monotonic() - began < 30)

    def test_an_answer_that_is_not_taken(self):
        body = call_body("bytes 30000000")
        with self.connected(self.head(len(body)), body):
            self.wait_for(lambda: self.server.held.bytes > 30_000_000, "the answer isn't counted")
            self.wait_for(lambda: self.server.held.bytes == 0, "the answer is held for ever")
        self.check_works()


class Busy(OfServer):
    limits = {"MOST_SECONDS": 2}

    def test_a_call_that_takes_long(self):
        self.check_refused(self.post(call_body("sleeps 60")), 503, "didn't end within 2 seconds")
        self.check_works()

    def test_calls_that_wait(self):
        self.server.program.free = threading.Semaphore(1)
        self.server.program.free.acquire()
        self.check_refused(self.post(call_body("input")), 503, "had other calls to do for 2 seconds")
        self.server.program.free.release()
        self.check_works()


class Closing(unittest.TextTestRunner):
    """Prints how many tests passed and how many failed, last."""

    def run(self, test):
        result = super().run(test)
        failed = len({str(it[0]).split(" [")[0].split(") (")[0] for it in result.failures + result.errors})
        print(f"{result.testsRun - failed} passed, {failed} failed", flush=True)
        return result


if __name__ == "__main__":
    unittest.main(testRunner=Closing(stream=sys.stdout, verbosity=0), argv=[sys.argv[0], *sys.argv[1:]])
