"""Processes many files on two workers of Dask's `distributed`, one of which is killed on the way: nothing is lost.

    T85_LIBRARY=bin/libt85.so.1 python3 -m unittest discover bindings/python

The tests are skipped if the interpreter has no `distributed`, no fsspec or no pyftpdlib.
"""
import logging
import os
import signal
import tempfile
import threading
import unittest
import warnings

from t85 import many

try:
    import distributed
except ImportError:
    distributed = None
try:
    import fsspec
except ImportError:
    fsspec = None
try:
    from pyftpdlib import authorizers, handlers, servers
except ImportError:
    servers = None

HERE = os.path.dirname(os.path.abspath(__file__))
EXAMPLES = os.path.join(HERE, "../../examples")
COUNT = 300
# Runs a server during a test.
USER, WORD = "user", "word"


def read(path):
    with open(path, "rb") as file:
        return file.read()


PBM, STREAM = read(os.path.join(EXAMPLES, "letter.pbm")), read(os.path.join(EXAMPLES, "letter.jbg"))


class Deadly(many.Job):
    """A job that kills its own process at one name."""

    def __call__(self, name):
        if name.endswith("deadly.jbg"):
            os.kill(os.getpid(), signal.SIGKILL)
        return super().__call__(name)


@unittest.skipUnless(distributed, "Dask's distributed is not installed")
class Workers(unittest.TestCase):
    def setUp(self):
        folder = tempfile.TemporaryDirectory()
        self.addCleanup(folder.cleanup)
        self.folder = folder.name
        self.addCleanup(os.environ.__setitem__, "PYTHONPATH", os.environ.get("PYTHONPATH", ""))
        os.environ["PYTHONPATH"] = HERE

    def test_one_is_killed(self):
        from t85.dask import run

        warnings.simplefilter("ignore")
        names = []
        for number in range(COUNT):
            names.append(os.path.join(self.folder, f"{number}.pbm"))
            with open(names[-1], "wb") as file:
                file.write(PBM)
        streams = os.path.join(self.folder, "streams")
        os.mkdir(streams)
        job = many.Job("encode", folder=streams, options={"most_offset": 127})
        words = dict(n_workers=2, threads_per_worker=1, processes=True, dashboard_address=None, silence_logs=50)
        with distributed.LocalCluster(local_directory=self.folder, **words) as cluster:
            with distributed.Client(cluster) as client:
                numbers = client.run(os.getpid)
                self.assertEqual(len(set(numbers.values())), 2)
                states = {}
                for outcome in run(client, job, names):
                    if len(states) == COUNT // 10:
                        os.kill(next(iter(numbers.values())), signal.SIGKILL)
                    states[outcome.name] = outcome.state
                again = [outcome.state for outcome in run(client, job, names)]
                client.wait_for_workers(2, timeout=60)
        self.assertEqual(set(states), set(names))
        self.assertLessEqual(set(states.values()), {many.DONE, many.SKIPPED})
        self.assertEqual(again, [many.SKIPPED] * COUNT)
        for number in range(COUNT):
            self.assertEqual(read(os.path.join(streams, f"{number}.jbg")), STREAM)


    def test_one_kills(self):
        from dask import config
        from t85.dask import run

        warnings.simplefilter("ignore")
        names = [os.path.join(self.folder, f"{number}.jbg") for number in range(20)]
        for name in names:
            with open(name, "wb") as file:
                file.write(STREAM)
        names.insert(7, os.path.join(self.folder, "deadly.jbg"))
        words = dict(n_workers=2, threads_per_worker=1, processes=True, dashboard_address=None, silence_logs=50)
        with config.set({"distributed.scheduler.allowed-failures": 0}):
            with distributed.LocalCluster(local_directory=self.folder, **words) as cluster:
                with distributed.Client(cluster) as client:
                    outcomes = {outcome.name: outcome for outcome in run(client, Deadly("decode"), names)}
                    client.wait_for_workers(2, timeout=60)
        self.assertEqual(set(outcomes), set(names))
        self.assertEqual(outcomes[names[7]].state, many.FAILED)
        self.assertIn("KilledWorker", outcomes[names[7]].text)
        # Results that were on the lost worker may have been lost with it.
        others = [outcome for name, outcome in outcomes.items() if name != names[7]]
        self.assertGreaterEqual(sum(outcome.state != many.FAILED for outcome in others), 10)


@unittest.skipUnless(fsspec, "fsspec is not installed")
class Objects(unittest.TestCase):
    def test_memory(self):
        store = fsspec.filesystem("memory")
        self.addCleanup(store.store.clear)
        store.pipe_file("/pages/a.pbm", PBM)
        store.pipe_file("/pages/b.pbm", PBM[:100])
        names = ["memory://pages/a.pbm", "memory://pages/b.pbm", "memory://pages/none.pbm"]
        job = many.Job("encode", folder="memory://streams", options={"most_offset": 127}, stores={"memory"})
        outcomes = list(many.run(job, names))
        states = [(outcome.state, outcome.number) for outcome in outcomes]
        self.assertEqual(states, [("done", 0), ("failed", 36), ("failed", 0)])
        self.assertEqual(store.cat_file("/streams/a.jbg"), STREAM)
        self.assertEqual(many.run(job, names[:1]).__next__().state, many.SKIPPED)
        back = many.Job("decode", folder="memory://back", stores={"memory"})
        self.assertEqual(back("memory://streams/a.jbg").state, many.DONE)
        self.assertEqual(back("memory://streams/a.jbg").state, many.SKIPPED)
        self.assertEqual(store.cat_file("/back/a.pbm"), PBM)


@unittest.skipUnless(fsspec and servers, "fsspec or pyftpdlib is not installed")
class Server(unittest.TestCase):
    """Files of another machine, for which an FTP server on this machine stands."""

    def setUp(self):
        folder = tempfile.TemporaryDirectory()
        self.addCleanup(folder.cleanup)
        self.folder = folder.name
        users = authorizers.DummyAuthorizer()
        users.add_user(USER, WORD, self.folder, perm="elradfmwT")
        handler = type("Handler", (handlers.FTPHandler,), {"authorizer": users})
        logging.disable(logging.CRITICAL)
        self.addCleanup(logging.disable, logging.NOTSET)
        self.server = servers.FTPServer(("127.0.0.1", 0), handler)
        host, port = self.server.address[:2]
        self.store = f"ftp://{USER}:{WORD}@{host}:{port}"
        self.stopped = threading.Event()
        thread = threading.Thread(target=self.serve)
        thread.start()
        self.addCleanup(thread.join)
        self.addCleanup(self.stopped.set)
        self.addCleanup(fsspec.get_filesystem_class("ftp").clear_instance_cache)

    def serve(self):
        while not self.stopped.is_set():
            self.server.serve_forever(timeout=0.05, blocking=False, handle_exit=False)
        self.server.close_all()

    def path(self, name):
        return os.path.join(self.folder, name)

    def test_there_and_back(self):
        warnings.simplefilter("ignore", ResourceWarning)
        for name in "streams", "back":
            os.mkdir(self.path(name))
        for name, data in ("a.pbm", PBM), ("b.pbm", PBM[:100]):
            with open(self.path(name), "wb") as file:
                file.write(data)
            os.utime(self.path(name), (1_000_000_000, 1_000_000_000))
        job = many.Job("encode", folder=f"{self.store}/streams", options={"most_offset": 127}, stores={"ftp"})
        names = [f"{self.store}/{name}" for name in ("a.pbm", "b.pbm", "none.pbm")]
        states = [(outcome.state, outcome.number) for outcome in many.run(job, names, 1)]
        self.assertEqual(states, [("done", 0), ("failed", 36), ("failed", 0)])
        self.assertEqual(read(self.path("streams/a.jbg")), STREAM)
        self.assertEqual(os.listdir(self.path("streams")), ["a.jbg"])
        self.assertEqual(job(names[0]).state, many.SKIPPED)
        # A partial output that a lost worker left is written again.
        with open(self.path("streams/a.jbg"), "wb") as file:
            file.write(STREAM[:100])
        self.assertEqual(job(names[0]).state, many.DONE)
        self.assertEqual(read(self.path("streams/a.jbg")), STREAM)
        back = many.Job("decode", folder=f"{self.store}/back", stores={"ftp"})
        self.assertEqual(back(f"{self.store}/streams/a.jbg").state, many.DONE)
        self.assertEqual(read(self.path("back/a.pbm")), PBM)


if __name__ == "__main__":
    unittest.main()
