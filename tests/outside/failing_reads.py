"""The resident program where a read or a write fails, or a file goes away. The last line is `N tried, M differ`.

An interrupted read is made again; any other failure is told on standard error, the line in which it came is answered `unreadable`, and the
session goes on with the next line. Reads that fail eight times in a row end it. It needs a C compiler for `failing_read.c`.
"""
import errno
import fcntl
import os
import pathlib
import subprocess
import sys
import tempfile
import time

TOP = pathlib.Path(__file__).resolve().parent.parent.parent
PANEL = TOP / "target/bin/panel_main"
CIRCUIT = "aag 3 1 1 0 1 1\n2\n4 6\n6\n6 2 5\n"
LOADED = "loads 3 1 1 0 1 1 0\n"
UNREADABLE = "unreadable\n"
DIFFER = []


def framed(*answers):
    return "".join(f"{len(a)}\n{a}" for a in answers)


def same(what, seen, expected):
    if seen != expected:
        DIFFER.append(what)
        print("differs:", what, "\n  seen    ", repr(seen)[:300], "\n  expected", repr(expected)[:300])


def run(folder, text=None, stdin=None, faults=None, library=None):
    """The program's output, what it said on standard error, and its exit status."""
    env = dict(os.environ)
    if faults:
        env.update(LD_PRELOAD=str(library), FAILING_READS=faults)
    given = {"input": text.encode()} if text is not None else {"stdin": stdin}
    done = subprocess.run([PANEL], cwd=folder, capture_output=True, env=env, timeout=60, **given)
    return done.stdout.decode("latin-1"), done.stderr.decode(), done.returncode


def descriptors(folder):
    """Standard inputs that always fail: each is answered once, told on standard error, and ends the session."""
    only_written = os.open("/dev/null", os.O_WRONLY)
    directory = os.open(folder, os.O_RDONLY)
    for what, fd, error in (("written only", only_written, errno.EBADF), ("a directory", directory, errno.EISDIR)):
        said, told, status = run(folder, stdin=fd)
        same(f"standard input {what}: answer", said, framed(UNREADABLE))
        same(f"standard input {what}: told", told, f"standard input: {os.strerror(error)}\n")
        same(f"standard input {what}: status", status, 0)
        os.close(fd)
    said, told, status = run(folder, stdin=subprocess.DEVNULL)
    same("standard input at its end", (said, told, status), ("", "", 0))
    read, write = os.pipe()
    fcntl.fcntl(read, fcntl.F_SETFL, os.O_NONBLOCK)
    os.write(write, b"0 load c\n1 pin 0 1\n")
    said, told, status = run(folder, stdin=read)
    same("an input that does not wait", (said, told, status), (framed(LOADED, "set\n", UNREADABLE), f"standard input: {os.strerror(errno.EAGAIN)}\n", 0))
    os.close(read), os.close(write)


def failures(folder, library):
    """Reads that fail between bytes. A request has as many reads as bytes with its line feed."""
    first, second, third = "0 load c\n", "0 pin 0 1\n", "1 write\n"
    text, eio = first + second + third, errno.EIO
    written = CIRCUIT.replace("aag 3 1 1 0 1 1\n", "aag 3 1 1 0 1 1 0\n")
    plain = framed(LOADED, "set\n", written)
    same("no failure", run(folder, text), (plain, "", 0))
    interrupted = " ".join(f"{i} 1 {errno.EINTR}" for i in (1, 5, 7, 14)) + f" 20 100 {errno.EINTR}"
    same("interrupted reads", run(folder, text, faults=interrupted, library=library), (plain, "", 0))
    io = f"standard input: {os.strerror(eio)}\n"
    for what, at, times, answers in (
        ("before a line", len(first) + 1, 1, (LOADED, UNREADABLE, written)),
        ("within a line", len(first) + 5, 1, (LOADED, UNREADABLE, written)),
        ("within a line, seven times", len(first) + 5, 7, (LOADED, UNREADABLE, written)),
        ("before a line feed", len(first) + len(second), 1, (LOADED, UNREADABLE, written)),
        ("within the last line", len(first) + len(second) + 2, 1, (LOADED, "set\n", UNREADABLE)),
        ("within a line, eight times", len(first) + 5, 8, (LOADED, UNREADABLE)),
        ("before the first line, eight times", 1, 8, (UNREADABLE,)),
    ):
        same(f"a read that fails {what}", run(folder, text, faults=f"{at} {times} {eio}", library=library), (framed(*answers), io, 0))
    twice = f"{len(first) + 2} 1 {eio} {len(first) + 6} 1 {eio}"
    same("two failures in a line", run(folder, text, faults=twice, library=library), (framed(LOADED, UNREADABLE, written), 2 * io, 0))
    same("a failure at the end of the input", run(folder, first, faults=f"{len(first) + 1} 1 {eio}", library=library), (framed(LOADED, UNREADABLE), io, 0))
    same("a line without its line feed", run(folder, first + "1 pin 0 1"), (framed(LOADED, "set\n"), "", 0))
    same("a failed line changes nothing", run(folder, first + "0 pin 0 0\n0 search 0 3 16\n", faults=f"{len(first) + 9} 1 {eio}", library=library)[0],
         framed(LOADED, UNREADABLE, "found 0\n1\nb0\n0\n1\n.\n"))


def vanishing(folder):
    """Files that go away, come back and cannot be read, between two requests."""
    panel = subprocess.Popen([PANEL], cwd=folder, stdin=subprocess.PIPE, stdout=subprocess.PIPE, stderr=subprocess.PIPE)

    def ask(line):
        panel.stdin.write((line + "\n").encode())
        panel.stdin.flush()
        return panel.stdout.read(int(panel.stdout.readline())).decode()

    file = folder / "v"
    file.write_text(CIRCUIT)
    (folder / "empty").write_text("")
    empty = "refused 1: "
    same("a file that is there", ask("0 load v"), LOADED)
    same("its pin", ask("1 pin 0 0"), "set\n")
    file.unlink()
    same("a file that vanished", ask("0 load v"), UNREADABLE)
    same("for the other user", ask("1 load v").split(":")[0], "refused 18")
    same("a join with it", ask("0 join c v"), UNREADABLE)
    same("the circuit is the one before", ask("0 search 0 3 16"), "found 0\n1\nb0\n0\n1\n.\n")
    same("and so are the pins", ask("1 search 0 3 16"), "none 3\n")
    same("an empty file after it", ask("0 load empty")[:len(empty)], empty)
    file.mkdir()
    same("a directory in its place", ask("0 load v"), UNREADABLE)
    file.rmdir()
    file.write_text(CIRCUIT)
    same("it came back", ask("0 load v"), LOADED)
    same("and freed the pins", ask("1 search 0 3 16"), "found 0\n1\nb0\n0\n1\n.\n")
    panel.stdin.close()
    told = panel.stderr.read().decode()
    missing, directory = (f"v: {os.strerror(e)}\n" for e in (errno.ENOENT, errno.EISDIR))
    same("what was told of files", told, 3 * missing + directory)
    same("its end", (panel.stdout.read(), panel.wait()), (b"", 0))


def full(folder):
    """A pipe that nobody reads: the program waits where the pipe waits; where it does not, the failure is told and the session goes on."""
    count, answer = 4000, framed(CIRCUIT.replace("aag 3 1 1 0 1 1\n", "aag 3 1 1 0 1 1 0\n"))
    text = "0 load c\n" + count * "1 write\n"
    panel = subprocess.Popen([PANEL], cwd=folder, stdin=subprocess.PIPE, stdout=subprocess.PIPE, stderr=subprocess.PIPE)
    panel.stdin.write(text.encode())
    panel.stdin.close()
    time.sleep(1)
    same("a full pipe: it waits", panel.poll(), None)
    same("a full pipe: every answer", panel.stdout.read().decode(), framed(LOADED) + count * answer)
    same("a full pipe: nothing told", (panel.stderr.read(), panel.wait()), (b"", 0))
    read, write = os.pipe()
    fcntl.fcntl(write, fcntl.F_SETFL, os.O_NONBLOCK)
    with open(folder / "told", "w") as told:
        panel = subprocess.Popen([PANEL], cwd=folder, stdin=subprocess.PIPE, stdout=write, stderr=told)
    panel.stdin.write(text.encode())
    panel.stdin.flush()
    time.sleep(3)
    os.set_blocking(read, False)
    seen = b""
    try:
        while part := os.read(read, 1 << 20):
            seen += part
    except BlockingIOError:
        pass
    same("a pipe that does not wait: the first answers", seen.decode()[:2000], (framed(LOADED) + count * answer)[:2000])
    same("a pipe that does not wait: it goes on", panel.poll(), None)
    panel.stdin.write(b"1 write\n")
    panel.stdin.close()
    same("a pipe that does not wait: its end", panel.wait(), 0)
    told = (folder / "told").read_text()
    same("a pipe that does not wait: told", set(told.split("\n")), {f"standard output: {os.strerror(errno.EAGAIN)}", ""})
    same("a pipe that does not wait: the last answer", os.read(read, 1 << 20).decode(), answer)
    os.close(read), os.close(write)


def main():
    tried = [0]
    compare = globals()["same"]
    globals()["same"] = lambda *args: (tried.__setitem__(0, tried[0] + 1), compare(*args))
    with tempfile.TemporaryDirectory() as name:
        folder = pathlib.Path(name)
        (folder / "c").write_text(CIRCUIT)
        library = folder / "failing_read.so"
        subprocess.run(["cc", "-shared", "-fPIC", "-O1", "-o", library, TOP / "tests/outside/failing_read.c"], check=True)
        descriptors(folder)
        failures(folder, library)
        vanishing(folder)
        full(folder)
    print(f"{tried[0]} tried, {len(DIFFER)} differ")
    return 1 if DIFFER else 0


if __name__ == "__main__":
    sys.exit(main())
