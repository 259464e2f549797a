"""Looks at what docpage asks of the operating system for its FILE, call by call. Usage: file_calls.py PROGRAM TESTS LIBRARY
TESTS are those of crate storage_tests. LIBRARY tells the calls, and can refuse one (tests/file_calls). Calls are said in these words,
with ! behind the one that was refused:
  make, open   the file is made; it is opened as it stands        folder   the folder of the file is synced
  pages        pages are written, from 4,096 on                   root     a sector is written, at 0 or 512
  sync         the file is synced                                 prints, replies   bytes go to standard output, to a socket
Every wait has an end, and so has the whole."""
import atexit, collections, json, os, re, shutil, signal, socket, struct, subprocess, sys, tempfile, threading

PROGRAM, TESTS, LIBRARY = map(os.path.abspath, sys.argv[1:])
FOLDER = os.path.realpath(tempfile.mkdtemp(prefix="file_calls."))
PATIENCE = 60
COMMIT = "pages sync root sync"
Call = collections.namedtuple("Call", "what result offset length name")
Ran = collections.namedtuple("Ran", "calls words status said output")
passed = 0
signal.signal(signal.SIGALRM, lambda *_: sys.exit("file_calls: it hasn't ended after five minutes"))
signal.alarm(300)
atexit.register(shutil.rmtree, FOLDER, True)


def want(what, wanted, came):
    global passed
    if wanted != came:
        print(f"file_calls: {what}\n  wanted: {wanted}\n  came:   {came}")
        sys.exit(1)
    passed += 1


def path(name):
    return os.path.join(FOLDER, name)


# What calls are made

def calls_told():
    with open(path("calls")) as lines:
        parts = [line.rstrip("\n").split(" ", 4) for line in lines]
    os.unlink(path("calls"))
    return [Call(what, *map(int, numbers), name) for what, *numbers, name in parts]


def word_of(call, file):
    """What a call does, or None where it has no word."""
    if call.what == "write":
        return {"pipe": "prints", "sock": "replies"}.get(call.name[:4])
    refused = "!" if call.result < 0 else ""
    if call.name == os.path.dirname(file):
        return "folder" + refused if call.what == "sync" else None
    if call.name != file or call.what == "pread":
        return None
    if call.what != "pwrite":
        return call.what + refused
    if call.offset in (0, 512) and call.length == 512:
        return "root" + refused
    return ("pages" if call.offset >= 4096 else f"write({call.offset},{call.length})") + refused


def steps_of(calls, file):
    return [word for word in (word_of(call, file) for call in calls) if word]


def told(steps):
    """Steps in words, where several of one kind in a row are one."""
    several = ("pages", "prints", "replies")
    return " ".join(step for before, step in zip([None] + steps, steps) if step != before or step not in several)


def environment(fail, most):
    return dict(os.environ, LD_PRELOAD=LIBRARY, CALLS=path("calls"), FAIL=str(fail), MOST=str(most))


def run(task, file, *words, lines=b"", fail=0, most=0):
    """The program, run to its end."""
    with open(path("errors"), "w+") as errors:
        ran = subprocess.run([PROGRAM, task, file, *words], input=lines, stdout=subprocess.PIPE, stderr=errors, cwd=FOLDER,
                             env=environment(fail, most), timeout=PATIENCE)
        errors.seek(0)
        said = errors.read()
    calls = calls_told()
    return Ran(calls, told(steps_of(calls, os.path.normpath(path(file)))), ran.returncode, said, ran.stdout)


# Commands, as Extended JSON and as frames

def insert(*numbers, text=""):
    return json.dumps({"insert": "c", "documents": [{"_id": number, "text": text} for number in numbers]})


def find(number):
    return json.dumps({"find": "c", "filter": {"_id": number}})


def ids_in(file):
    reply = json.loads(run("ask", file, '{"find": "c", "projection": {"_id": 1}}').output)
    return [document["_id"] for document in reply["cursor"]["firstBatch"]]


def text(value):
    return struct.pack("<i", len(value) + 1) + value.encode() + b"\0"


def document(*elements):
    return struct.pack("<i", sum(map(len, elements)) + 5) + b"".join(elements) + b"\0"


def insert_frame(number):
    stored = document(b"\x10_id\0" + struct.pack("<i", number))
    body = document(b"\2insert\0" + text("c"), b"\4documents\0" + document(b"\x030\0" + stored), b"\2$db\0" + text("test"))
    return struct.pack("<iiiiiB", len(body) + 21, 7, 0, 2013, 0, 0) + body


class Client:
    def __init__(self, port):
        self.socket = socket.create_connection(("127.0.0.1", port), timeout=PATIENCE)

    def insert(self, number):
        """Whether the document was acknowledged; not where the connection ends in place of that."""
        reply = b""
        try:
            self.socket.sendall(insert_frame(number))
            while len(reply) < 41 and (part := self.socket.recv(41 - len(reply))):
                reply += part
        except ConnectionError:
            pass
        assert not reply or reply[21:] == document(b"\x10n\0" + struct.pack("<i", 1), b"\x10ok\0" + struct.pack("<i", 1)), reply
        return bool(reply)


class Service:
    """`docpage listen`, until it is ended."""
    def __init__(self, file, fail=0):
        self.file, self.errors = path(file), open(path("errors"), "w+")
        self.process = subprocess.Popen([PROGRAM, "listen", self.file, "--port", "0"], stdout=subprocess.PIPE, stderr=self.errors,
                                        env=environment(fail, 0))
        atexit.register(self.process.kill)
        line = self.process.stdout.readline()
        self.port = int(line.decode().rsplit(":", 1)[1]) if line else None

    def ended(self, is_killed):
        if is_killed:
            self.process.terminate()
        status = self.process.wait(PATIENCE)
        self.process.stdout.close()
        self.errors.seek(0)
        calls, said = calls_told(), self.errors.read()
        self.errors.close()
        return Ran(calls, told(steps_of(calls, self.file)), status, said, b"")


# The cases

def commits():
    """Each commit in its order, and no byte of a reply before it is done. An opening that may make the file syncs the folder."""
    made = run("ask", "asked", insert(1))
    want("an insert into a new file", f"make folder sync {COMMIT} prints", made.words)
    again = run("ask", "asked", insert(2), find(2), insert(3))
    want("two inserts into a file that is there", f"open folder sync {COMMIT} prints {COMMIT} prints", again.words)
    want("a find in it", "open folder sync prints", run("ask", "asked", find(1)).words)
    want("one connection's insert into a new file", f"make folder sync {COMMIT} prints", run("exec", "one", lines=insert_frame(1)).words)
    want("the same in a file that is there", f"open folder sync {COMMIT} prints", run("exec", "one", lines=insert_frame(2)).words)
    lines = b"".join(b'{"_id": %d}\n' % number for number in range(2500))
    imported = run("import", "imported", "test.c", lines=lines)
    want("an import of 2,500 documents", f"make folder sync {COMMIT} {COMMIT} {COMMIT} prints", imported.words)
    roots = [call.offset for call in imported.calls if word_of(call, path("imported")) == "root"]
    want("its roots stand, in turn, at", [512, 0, 512], roots)
    want("a dump, which makes no file", "open sync prints", run("dump", "imported", "test.c").words)
    want("a check of the file", "open sync prints", run("check", "imported").words)


def folders():
    """Which folder it is."""
    os.mkdir(path("folder"))
    want("a new file in a folder that its path names", f"make folder sync {COMMIT} prints", run("ask", "folder/new", insert(1)).words)
    want("a new file by its whole path", f"make folder sync {COMMIT} prints", run("ask", path("folder/whole"), insert(1)).words)


def each_refused(kind, before):
    """Each write and sync of a run refused in turn: it is the last, what was to be acknowledged behind it isn't, and the program ends."""
    def run_anew(fail):
        if os.path.exists(path("refused")):
            os.unlink(path("refused"))
        if before:
            shutil.copy(path(before), path("refused"))
        return run("ask", "refused", *(insert(number) for number in (1, 2, 3)), fail=fail)
    steps = steps_of(run_anew(0).calls, path("refused"))
    places = [place for place, step in enumerate(steps) if step not in ("make", "open", "prints")]
    for number, place in enumerate(places, 1):
        ran = run_anew(number)
        what = f"call {number} of three inserts into {kind} is refused"
        want(what, told(steps[:place] + [steps[place] + "!"]), ran.words)
        want(f"{what}, and it says", (1, "docpage: Stopped\n" if "pages" in steps[:place + 1] else "docpage: Device\n"), (ran.status, ran.said))
        acknowledged = steps[:place].count("prints")
        want(f"{what}, and it prints", b'{"n":1,"ok":1}\n' * acknowledged, ran.output)
        found = [number for number in ids_in("refused") if number > 0]
        want(f"{what}; that what was acknowledged is found, and one more at most", True, found in ([1, 2, 3][:acknowledged], [1, 2, 3][:acknowledged + 1]))


def disk_refused():
    """A disk in a file by itself: once a write or a sync is refused, each later call fails, which the test follows."""
    wanted = ("pages pages sync " * 4).split()
    for number in range(13):
        ran = subprocess.run([TESTS, "file_disk::a_refused_call_stays"], stdout=subprocess.PIPE, stderr=subprocess.STDOUT, text=True,
                             cwd=FOLDER, env=environment(number, 0), timeout=PATIENCE)
        steps = [step for step in steps_of(calls_told(), path("storage_tests_refused")) if step not in ("make", "open", "prints")]
        what = f"call {number} of a disk is refused" if number else "no call of a disk is refused"
        want(f"{what}, and its test says", "", "" if ran.returncode == 0 else ran.stdout)
        want(what, " ".join(wanted[:number - 1] + [wanted[number - 1] + "!"] if number else wanted), " ".join(steps))


def serving():
    """A service and one client that waits for each reply; then each write and sync of two commits is refused in turn."""
    service = Service("served")
    client = Client(service.port)
    want("a service acknowledges three inserts", [True] * 3, [client.insert(number) for number in (1, 2, 3)])
    ran = service.ended(is_killed=True)
    want("its calls", f"make folder sync prints {COMMIT} replies {COMMIT} replies {COMMIT} replies", ran.words)

    def serve_anew(fail):
        """What becomes of two more inserts into the same file: whether each is acknowledged, whether the service listened, and its run."""
        shutil.copy(path("served"), path("served_anew"))
        service = Service("served_anew", fail=fail)
        acknowledged = []
        if service.port:
            client = Client(service.port)
            acknowledged = [client.insert(number) for number in (4, 5)]
        return acknowledged, bool(service.port), service.ended(is_killed=not fail)
    acknowledged, _, ran = serve_anew(0)
    want("a service acknowledges two more", [True] * 2, acknowledged)
    want("its calls", f"open folder sync prints {COMMIT} replies {COMMIT} replies", ran.words)
    # each call, since pages that don't lie side by side are written by several
    steps = steps_of(ran.calls, path("served_anew"))[:-1]
    places = [place for place, step in enumerate(steps) if step not in ("open", "prints", "replies")]
    for number, place in enumerate(places, 1):
        acknowledged, has_listened, ran = serve_anew(number)
        what = f"call {number} of a service is refused"
        want(what, told(steps[:place] + [steps[place] + "!"]), ran.words)
        want(f"{what}, and it says", (1, "docpage: Stopped\n" if has_listened else "docpage: Device\n"), (ran.status, ran.said))
        want(f"{what}; how many inserts are acknowledged", steps[:place].count("replies"), acknowledged.count(True))


def clients_at_once():
    """Many clients share commits, and each of their inserts has one between its message and its reply."""
    service = Service("many")
    done = []

    def work(first):
        client = Client(service.port)
        done.extend(client.insert(first + i) for i in range(20))
    threads = [threading.Thread(target=work, args=(100 * i,)) for i in range(8)]
    for thread in threads:
        thread.start()
    for thread in threads:
        thread.join(PATIENCE)
    ran = service.ended(is_killed=True)
    want("160 inserts of 8 clients are acknowledged", [True] * 160, done)
    wanted = f"make folder sync prints( {COMMIT} replies)+"
    want(f"what their calls are behind {wanted}", "", re.sub("^" + wanted, "", ran.words)[:200])
    committed, last, early = {}, None, 0
    for call in ran.calls:
        word = word_of(call, service.file)
        if call.what == "read" and call.name.startswith("sock") and call.result > 0:
            committed[call.name] = False
        elif word == "replies":
            early += not committed[call.name]
        elif word == "sync" and last == "root":
            committed = dict.fromkeys(committed, True)
        last = word or last
    want("replies whose message no commit has followed", 0, early)
    want("documents that are found then", 160, json.loads(run("ask", "many", '{"count": "c"}').output)["n"])


def read_anew():
    """A page that was read, written since and then let go of the cache is read from the file again."""
    run("ask", "anew", insert(1))
    many = [insert(*range(10 * i, 10 * i + 10), text="x" * 60_000) for i in range(1, 9)]  # 1,200 pages, and the cache keeps 1,024
    commands = [insert(2), insert(3, text="a chain" * 400), *many, find(3)]
    ran = run("ask", "anew", lines="".join(command + "\n" for command in commands).encode())
    is_of_file = [call for call in ran.calls if call.name == path("anew")]
    first_write = next(place for place, call in enumerate(is_of_file) if call.what == "pwrite")
    page = [call.offset for call in is_of_file[:first_write] if call.what == "pread"][-1]
    here = [call.what for call in is_of_file if call.what in ("pread", "pwrite") and call.offset <= page < call.offset + call.length]
    want(f"the page at {page}, which was read last before the first write, is from then on", "pread pwrite pread", " ".join(here[-3:]))
    want("what is found there", "a chain" * 400, json.loads(ran.output.splitlines()[-1])["cursor"]["firstBatch"][0]["text"])


def in_parts():
    """Where the system reads and writes at most 1,000 bytes at a time, the replies and the file are the same."""
    lines = "".join(insert(number, text="y" * (number % 7 * 900)) + "\n" + find(number // 2) + "\n" for number in range(60)).encode()
    whole, parts = run("ask", "whole", lines=lines), run("ask", "parts", lines=lines, most=1000)
    want("replies where reads and writes are in parts", whole.output, parts.output)
    with open(path("whole"), "rb") as one, open(path("parts"), "rb") as other:
        want("the file then is the same", True, one.read() == other.read())


commits()
folders()
run("ask", "there", insert(0))
each_refused("a file that is there", "there")
each_refused("a new file", None)
disk_refused()
serving()
clients_at_once()
read_anew()
in_parts()
print(f"file_calls: {passed} checks passed")
