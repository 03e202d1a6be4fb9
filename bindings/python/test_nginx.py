"""Tests of lookups over nginx on this machine. Without nginx they are skipped."""

import os
import pathlib
import random
import shutil
import signal
import socket
import subprocess
import tempfile
import threading
import time
import unittest

from rkyv_btree import build
from rkyv_btree.remote import Changed, Remote
from rkyv_btree.shards import Shards, gc, write_shards
from rkyv_btree.top import write_top

NGINX = shutil.which("nginx", path=os.environ.get("PATH", "") + ":/usr/sbin")
TYPES = ("text", "u32")
WORDS = [f"{n:05} {'x' * (n % 40)}" for n in range(20000)]
CONFIGURATION = """
daemon off;
master_process off;
pid {folder}/pid;
error_log {folder}/error.log;
events {{ worker_connections 64; }}
http {{
    access_log off;
    keepalive_requests 100000;
    client_body_temp_path {folder}/body;
    proxy_temp_path {folder}/proxy;
    fastcgi_temp_path {folder}/fastcgi;
    uwsgi_temp_path {folder}/uwsgi;
    scgi_temp_path {folder}/scgi;
    server {{
        listen 127.0.0.1:{port};
        root {folder}/objects;
        location /slow/ {{ alias {folder}/objects/; limit_rate 1000; }}
        location /plain/ {{ alias {folder}/objects/; max_ranges 0; }}
        location /untagged/ {{ alias {folder}/objects/; etag off; }}
    }}
}}
"""


def free_port():
    with socket.socket() as taken:
        taken.bind(("127.0.0.1", 0))
        return taken.getsockname()[1]


def archive(version):
    """Returns an archive that differs from one of another version in each value, and has as many bytes."""
    return build(*TYPES, ((word, n + 100_000 * version) for n, word in enumerate(WORDS)))


@unittest.skipIf(NGINX is None, "there is no nginx")
class Nginx(unittest.TestCase):
    def setUp(self):
        self.folder = pathlib.Path(self.enterContext(tempfile.TemporaryDirectory()))
        os.chmod(self.folder, 0o755)
        self.path = self.folder / "objects" / "archive"
        self.path.parent.mkdir()
        self.written = 0
        self.replace(archive(0))
        self.port = free_port()
        (self.folder / "nginx.conf").write_text(CONFIGURATION.format(folder=self.folder, port=self.port))
        self.start()
        self.addCleanup(lambda: self.stop(signal.SIGTERM))

    def enterContext(self, manager):
        entered = manager.__enter__()
        self.addCleanup(manager.__exit__, None, None, None)
        return entered

    def start(self):
        self.server = subprocess.Popen([NGINX, "-p", str(self.folder), "-c", str(self.folder / "nginx.conf")], stderr=subprocess.DEVNULL)
        for _ in range(200):
            try:
                socket.create_connection(("127.0.0.1", self.port)).close()
                return
            except ConnectionRefusedError:
                time.sleep(0.02)
        self.fail("nginx doesn't start")

    def stop(self, signal_number):
        self.server.send_signal(signal_number)
        self.server.wait()

    def replace(self, data):
        """Puts another object under the same name, by a rename. The ETag of nginx has its second, so each has one of its own."""
        part = self.path.with_name("part")
        part.write_bytes(data)
        self.written += 1
        os.utime(part, (1_700_000_000 + self.written,) * 2)
        os.replace(part, self.path)

    def open(self, name="archive", **settings):
        remote = Remote.open_url(f"http://127.0.0.1:{self.port}/{name}", *TYPES, **settings)
        self.addCleanup(remote.close)
        return remote

    def test_lookups(self):
        wanted = {word: n for n, word in enumerate(WORDS) if n % 97 == 0}
        for block, cache, top in ((512, 0, None), (16384, 8 << 20, None), (16384, 0, write_top(self.path, *TYPES))):
            remote = self.open(block=block, cache=cache, top=top)
            self.assertEqual(remote.get_many(wanted), wanted)
            for word in list(wanted)[::10]:
                self.assertEqual(remote.get(word), wanted[word])
            self.assertIsNone(remote.get("absent"))

    def test_an_object_that_is_replaced_half_way(self):
        other = archive(1)
        self.assertEqual(len(other), self.path.stat().st_size)
        for good in range(5):
            self.replace(archive(0))
            remote = self.open(block=256, cache=0)
            fetch, asked = remote._fetch, 0

            def fetch_then_replace(pos, count):
                nonlocal asked
                if asked == good:
                    self.replace(other)
                asked += 1
                return fetch(pos, count)

            remote._fetch = fetch_then_replace
            with self.assertRaises(Changed):
                remote.get(WORDS[12345])
            self.assertRaises(Changed, remote.get, WORDS[12346])
            self.assertEqual(self.open().get(WORDS[12345]), 112_345)

    def test_an_object_that_is_replaced_again_and_again(self):
        versions, over = [archive(0), archive(1)], threading.Event()

        def replace():
            for data in versions * 100:
                self.replace(data)
                time.sleep(0.01)
                if over.is_set():
                    return

        replacing = threading.Thread(target=replace)
        replacing.start()
        self.addCleanup(replacing.join)
        self.addCleanup(over.set)
        rest, changed, found = random.Random(3), 0, 0
        for _ in range(300):
            remote = self.open(block=256, cache=0)
            seen = set()
            try:
                for n in (rest.randrange(len(WORDS)) for _ in range(3)):
                    seen.add((remote.get(WORDS[n]) - n) // 100_000)
                    found += 1
            except Changed:
                changed += 1
            # All values that one opened map gives are those of one version.
            self.assertLessEqual(len(seen), 1)
            remote.close()
        self.assertTrue(changed and found, (changed, found))

    def test_an_object_that_is_cut(self):
        remote = self.open()
        os.truncate(self.path, self.path.stat().st_size // 2)
        self.assertRaises(Changed, remote.get, WORDS[5])
        remote = self.open()
        self.path.unlink()
        with self.assertRaises(OSError):
            remote.get(WORDS[5])

    def test_answers_that_are_slow(self):
        remote = self.open("slow/archive", timeout=0.2)
        for _ in range(2):
            with self.assertRaises(TimeoutError):
                remote.get(WORDS[5])
        self.assertEqual(self.open("slow/archive", timeout=20, block=1024).get(WORDS[5]), 5)

    def test_answers_that_end_early(self):
        remote = self.open("slow/archive")
        killing = threading.Timer(0.3, self.stop, [signal.SIGKILL])
        killing.start()
        with self.assertRaises(OSError):
            remote.get(WORDS[5])
        killing.join()
        with self.assertRaises(OSError):
            remote.get(WORDS[5])
        self.start()
        # The object is the same, so the map goes on.
        remote._block = 512
        self.assertEqual(remote.get(WORDS[5]), 5)

    def test_data_sets(self):
        folder, url = self.path.parent, f"http://127.0.0.1:{self.port}"
        entries = [(word, n) for n, word in enumerate(WORDS[:2000])]
        for levels in (0, 3):
            write_shards(entries, folder, *TYPES, entries=300, levels=levels)
            for most in (1, 64):
                with Shards(url, most=most) as shards:
                    self.assertEqual(shards.get_many(dict(entries[::37])), dict(entries[::37]))
                    self.assertEqual(list(shards.range(WORDS[250], WORDS[950])), entries[250:950])
                    self.assertEqual(shards.get(WORDS[1999]), 1999)
                    self.assertIsNone(shards.get("absent"))
                    self.assertLessEqual(len(shards._place.open), most)
        shards = Shards(url)
        self.addCleanup(shards.close)
        write_shards([("other", 1)], folder, *TYPES)
        self.assertEqual(shards.get(WORDS[7]), 7)
        shards.close()
        self.assertGreater(len(gc(folder, age=0)), 7)
        with self.assertRaisesRegex(OSError, "status 404"):
            shards.get(WORDS[7])
        self.assertEqual(list(Shards(url).range()), [("other", 1)])
        for writes in (lambda: write_shards(entries, url, *TYPES), lambda: gc(url)):
            with self.assertRaisesRegex(OSError, "over HTTP"):
                writes()

    def test_servers_that_lack_something(self):
        with self.assertRaisesRegex(OSError, "without the range"):
            self.open("plain/archive").get(WORDS[5])
        with self.assertRaisesRegex(OSError, "no strong ETag"):
            self.open("untagged/archive")
        with self.assertRaisesRegex(OSError, "status 404"):
            self.open("absent")


if __name__ == "__main__":
    unittest.main()
