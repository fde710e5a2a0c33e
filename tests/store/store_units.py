"""Unit tests of the store and of kept sums, on files."""
import io
import json
import os
import pathlib
import resource
import shutil
import subprocess
import tarfile
import tempfile
import unittest
from unittest import mock

from proofs_lib import store as stores
from proofs_lib.repository import Refusal
from proofs_lib.store import Store
from proofs_lib.sums import Sums

SUM = "the sum"


class WithFolder(unittest.TestCase):
    """Tests that have a folder with a store and something built."""

    def setUp(self):
        folder = tempfile.TemporaryDirectory()
        self.addCleanup(folder.cleanup)
        self.folder, self.said = pathlib.Path(folder.name), []
        self.built = self.folder / "built"
        (self.built / "lang").mkdir(parents=True)
        (self.built / "format").write_text("format\n" * 100)
        (self.built / "lang" / "made").write_bytes(os.urandom(9_000))

    def store(self, name="store"):
        return Store(self.said.append, self.folder / name)

    def taken(self, store, name="low", key="k1"):
        to = self.folder / "taken"
        shutil.rmtree(to, ignore_errors=True)
        return store.take(name, key, to, lambda _: SUM), to


class StoreTests(WithFolder):
    def test_what_is_kept_is_taken(self):
        """What is taken is what was kept, folders and files, and only under its key."""
        store = self.store()
        store.put("low", "k1", self.built, SUM)
        found, to = self.taken(self.store())
        self.assertEqual((found, self.said), (SUM, []))
        self.assertEqual(subprocess.run(["diff", "-r", self.built, to], check=False).returncode, 0)
        self.assertIsNone(self.taken(store, key="k2")[0])

    def test_without_zstd(self):
        """Without zstd an entry is packed by zlib; one that zstd packed is left as it is."""
        store = self.store()
        store.put("high", "k1", self.built, SUM)
        with mock.patch.object(stores.shutil, "which", return_value=None):
            store.put("low", "k1", self.built, SUM)
            self.assertEqual(self.taken(store)[0], SUM)
            if shutil.which("zstd") is None:
                return
            self.assertIsNone(self.taken(store, "high")[0])
        self.assertEqual(self.said, ["the proof of high in the store can't be read, so it is made anew: it was packed by zstd, which is not installed"])
        self.assertEqual(len(store.entries()), 2)

    def test_damaged_entries(self):
        """An entry that was cut, is empty, is another's, or holds something else, is removed and nothing of it stays."""
        def cut(path):
            path.write_bytes(path.read_bytes()[:-7])

        def empty(path):
            path.write_bytes(b"")

        def other(path):
            os.rename(path, path.with_name(path.name.replace("k1", "k2")))

        for change, key in ((cut, "k1"), (empty, "k1"), (other, "k2")):
            store = self.store(change.__name__)
            store.put("low", "k1", self.built, SUM)
            change(store.path("low", "k1"))
            found, to = self.taken(store, key=key)
            self.assertEqual((found, to.exists(), store.entries(), len(self.said)), (None, False, [], 1))
            self.assertIn("was damaged", self.said.pop())

    def test_another_sum(self):
        """An entry that holds something with another sum than it says is damaged."""
        store = self.store()
        store.put("low", "k1", self.built, "another sum")
        self.assertIsNone(self.taken(store)[0])
        self.assertIn("what it holds has another sum", self.said[0])

    def test_names_that_lead_out(self):
        """An archive writes nothing outside of its place."""
        for name in ("it/../../out", "/out", "other"):
            held = io.BytesIO()
            with tarfile.open(fileobj=held, mode="w") as tar:
                tar.addfile(tarfile.TarInfo(name))
            with self.assertRaises(stores.Damaged):
                stores.write_files(held.getvalue(), self.folder / "place")

    def test_limit(self):
        """Over the limit, what was not used for longest goes first; what is larger than the limit is not kept."""
        store = self.store()
        for number in range(3):
            store.put("low", f"k{number}", self.built, SUM)
            os.utime(store.path("low", f"k{number}"), (number + 1, number + 1))
        self.taken(store, key="k0")
        store.limit = sum(it.size for it in store.entries())
        store.put("low", "k3", self.built, SUM)
        self.assertEqual([store.path("low", it).exists() for it in ("k0", "k1", "k2", "k3")], [True, False, True, True])
        store.limit = 5
        store.put("low", "k4", self.built, SUM)
        self.assertEqual(self.said, ["the proof of low is not kept in the store, which holds 5 bytes: X25SCAN_STORE_LIMIT sets that"])

    def test_words_of_the_limit(self):
        """A limit is a number of bytes, or of K, M or G."""
        for word, size in (("5", 5), ("2k", 2048), ("3M", 3 << 20), ("1G", 1 << 30), (None, 4 << 30), ("", 4 << 30)):
            self.assertEqual(stores.limit_of(word), size)
        for word in ("4 GB", "-1", "1.5G", "x"):
            with self.assertRaises(Refusal):
                stores.limit_of(word)

    def test_full_disk(self):
        """Where an entry can't be written whole, one sentence says so, nothing of it stays, and no other is tried."""
        store = self.store()
        before = resource.getrlimit(resource.RLIMIT_FSIZE)
        resource.setrlimit(resource.RLIMIT_FSIZE, (4_096, before[1]))
        try:
            store.put("low", "k1", self.built, SUM)
            store.put("low", "k2", self.built, SUM)
        finally:
            resource.setrlimit(resource.RLIMIT_FSIZE, before)
        self.assertEqual(self.said, [f"proofs of this run are not kept in the store {store.folder}: File too large"])
        self.assertEqual(list(store.folder.iterdir()), [])

    def test_stores_that_are_not_used(self):
        """A store that can't be made, is another user's, or which others may write to."""
        (self.folder / "file").write_text("")
        self.assertFalse(self.store("file/store").is_used)
        open_to_all = self.folder / "open"
        open_to_all.mkdir()
        open_to_all.chmod(0o777)
        self.assertFalse(self.store("open").is_used)
        with mock.patch.object(stores.os, "geteuid", return_value=os.geteuid() + 1):
            store = self.store()
        store.put("low", "k1", self.built, SUM)
        self.assertEqual((store.entries(), self.taken(store)[0]), ([], None))
        reasons = [it.partition(" is not used, since ")[2] for it in self.said]
        self.assertEqual(reasons, ["it can't be made: Not a directory", "others may write to it; chmod go-w lets it be used", "it is another user's; X25SCAN_STORE names one of yours"])

    def test_where_it_is(self):
        """The store is where the environment says."""
        for environment, folder in (
            ({"X25SCAN_STORE": "/a", "XDG_CACHE_HOME": "/b", "HOME": "/c"}, "/a"),
            ({"XDG_CACHE_HOME": "/b", "HOME": "/c"}, "/b/x25scan"),
            ({"XDG_CACHE_HOME": "b", "HOME": "/c"}, "/c/.cache/x25scan"),
            ({"X25SCAN_STORE": "", "HOME": "/c"}, "/c/.cache/x25scan"),
        ):
            with mock.patch.dict(os.environ, environment, clear=True):
                self.assertEqual(str(stores.default_folder()), folder)


class SumsTests(WithFolder):
    def of(self, path):
        sums = Sums(self.folder / "sums.json")
        found = sums.of(str(path), path.stat())
        sums.save()
        return found

    def test_a_file_with_the_times_of_another(self):
        """A file that is replaced by one of the same size and times has its own sum."""
        path = self.folder / "file"
        path.write_text("1")
        old = path.stat()
        with mock.patch("proofs_lib.sums.SETTLED_NS", -1):
            first = self.of(path)
            self.assertEqual(self.of(path), first)
            path.write_text("2")
            os.utime(path, ns=(old.st_atime_ns, old.st_mtime_ns))
            self.assertNotEqual(self.of(path), first)

    def test_a_file_that_has_just_changed(self):
        """The sum of a file that changed within the last seconds is not kept."""
        path = self.folder / "file"
        path.write_text("1")
        self.of(path)
        self.assertFalse((self.folder / "sums.json").exists() and json.loads((self.folder / "sums.json").read_text()))

    def test_damaged_sums(self):
        """Kept sums that are damaged are not used."""
        path = self.folder / "file"
        path.write_text("1")
        first = self.of(path)
        for text in ("{", "[]", '{"%s": 5}' % path, '{"%s": [[1], 2]}' % path):
            (self.folder / "sums.json").write_text(text)
            self.assertEqual(self.of(path), first)
