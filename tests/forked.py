"""Tools of this repository that run in a copy of the suite's process, which has their modules already.

Most runs of a tool take less time than the start of Python with the tool's modules. Where its start, its streams or signals
matter, a suite starts the tool itself.
"""
import contextlib
import os
import signal
import subprocess
import sys
import tempfile
import traceback

SECONDS = 60


def run(program, words, folder=".", octets=b""):
    """Runs a tool, by its function of the words, on octets that come through a pipe; no other thread may run.

    Returns its status and what it printed, as `subprocess.run` does.
    """
    with tempfile.TemporaryFile() as out, tempfile.TemporaryFile() as errors:
        reader, writer = os.pipe()
        child = os.fork()
        if child == 0:
            os.close(writer)
            become(program, words, folder, (reader, out.fileno(), errors.fileno()))
        os.close(reader)
        with contextlib.suppress(BrokenPipeError), open(writer, "wb") as stream:
            stream.write(octets)
        _, status = os.waitpid(child, 0)
        printed = [os.pread(it.fileno(), os.fstat(it.fileno()).st_size, 0) for it in (out, errors)]
    return subprocess.CompletedProcess(words, os.waitstatus_to_exitcode(status), *printed)


def become(program, words, folder, descriptors):
    """Makes this process the tool, and ends it with the tool's status."""
    status = 70
    try:
        signal.alarm(SECONDS)
        for number, descriptor in enumerate(descriptors):
            os.dup2(descriptor, number)
        sys.stdin, sys.stdout, sys.stderr = map(reopened, (sys.__stdin__, sys.__stdout__, sys.__stderr__), "rww")
        os.chdir(folder)
        status = program([os.fsdecode(it) for it in words])
    except SystemExit as ending:
        status = ending.code
    except BaseException:
        traceback.print_exc()
    finally:
        sys.stdout.flush()
        sys.stderr.flush()
        os._exit(status or 0)


def reopened(stream, mode):
    """A standard stream of the same number, with nothing in its buffer."""
    return open(stream.fileno(), mode, encoding=stream.encoding, errors=stream.errors, closefd=False)
