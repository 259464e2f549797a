"""Runs docpage's programs with words, inputs and files worked by hand, and compares what each prints, what it says of faults, and its status.
Usage: words.py PROGRAM. It works in a folder of its own and ends by itself, after two minutes at the latest."""
import fcntl, os, signal, socket, subprocess, sys, tempfile

PROGRAM = os.path.abspath(sys.argv[1])
PATIENCE = 60
signal.alarm(120)

# Words that no program has. A part in brackets is one word with what stands in it, blanks too.
WRONG = """
dump
dump no/f
dump no/f t.c more
dump no/f t.c --canonical
ask
exec
exec no/f more
exec --more
serve no/f
serve no/f --port 1 --connections 1
serve no/f --port 1 --turns 1
serve no/f --connections 1 --turns 1
serve --port 1 --connections 1 --turns 1
serve no/f --port 0 --connections 1 --turns 1
serve no/f --port 65536 --connections 1 --turns 1
serve no/f --port +1 --connections 1 --turns 1
serve no/f --port [] --connections 1 --turns 1
serve no/f --port 1 --connections 0 --turns 1
serve no/f --port 1 --connections 65 --turns 1
serve no/f --port 1 --connections 1 --turns 1x
serve no/f --port 1 --connections 1 --turns 18446744073709551616
serve no/f --port 1 --connections 1 --turns 1 --more
listen no/f
listen --port 1
listen no/f --port 65536
listen no/f --port 1 --idle-seconds 0
listen no/f --port 1 --idle-seconds -1
listen no/f --port 1 --idle-seconds
listen no/f --port 1 --turns 1
"""

# Words of a program whose file can't be opened.
NO_FILE = """
exec no/f
export no/f t.c
export missing.docpage t.c
dump no/f t.c
dump missing.docpage t.c
serve no/f --port 65535 --connections 64 --turns 18446744073709551615
listen no/f --port 0
listen no/f --idle-seconds 007 --port 1
"""

# A document of each kind, in the canonical form of the public specification of Extended JSON, and the same for people.
CANONICAL = r"""{"_id":{"$numberInt":"1"},"a":{"$oid":"56e1fc72e0c917e9c4714161"},"b":"\""}
{"_id":{"$numberLong":"2"},"d":{"$date":{"$numberLong":"-284643869501"}}}
{"_id":{"$numberInt":"3"},"t":{"$timestamp":{"t":123456789,"i":42}},"l":[true,null,{}]}
{"_id":{"$numberInt":"4"},"b":{"$binary":{"base64":"//8=","subType":"00"}},"m":{"$minKey":1},"n":{"$maxKey":1}}
"""
RELAXED = r"""{"_id":1,"a":{"$oid":"56e1fc72e0c917e9c4714161"},"b":"\""}
{"_id":{"$numberLong":"2"},"d":{"$date":{"$numberLong":"-284643869501"}}}
{"_id":3,"t":{"$timestamp":{"t":123456789,"i":42}},"l":[true,null,{}]}
{"_id":4,"b":{"$binary":{"base64":"//8=","subType":"00"}},"m":{"$minKey":1},"n":{"$maxKey":1}}
"""
FOUND_ADA = '{"cursor":{"firstBatch":[{"_id":1,"name":"Ada"}],"id":{"$numberLong":"0"},"ns":"test.people"},"ok":1}\n'
TWICE = '{"ok":0,"errmsg":"duplicate key","code":11000,"codeName":"DuplicateKey"}\n'

# Each over what the ones before left in the file: the program, the words behind the file, the input, and the status, what is printed, and what is
# said of faults.
ONE_FILE = [
    ("ask", ['{"insert": "people", "documents": [{"_id": 1, "name": "Ada"}]}', '{"find": "people"}'], "", 0, '{"n":1,"ok":1}\n' + FOUND_ADA, ""),
    # a refusal, and what comes behind it
    ("ask", ['{"insert": "people", "documents": [{"_id": {"$numberLong": "1"}}]}', '{"count": "people"}'], "",
     1, TWICE + '{"n":1,"ok":1}\n', "docpage: DuplicateKey\n"),
    # lines, a blank one among them, and the last without an end
    ("ask", ["--db", "other"], '{"ping": 1}\n\n{"count": "people"}\r\n{"count": "people", "$db": "test"}', 0, '{"ok":1}\n{"n":0,"ok":1}\n{"n":1,"ok":1}\n', ""),
    # a line that is no document ends it
    ("ask", [], '{"ping": 1}\n{"ping": 1, "ping": 2}\n{"ping": 1}\n', 1, '{"ok":1}\n', "docpage: Repeated at line 2, column 13\n"),
    ("ask", ["--pretty", '{"count": "people"}'], "", 0, '{\n  "n": 1,\n  "ok": 1\n}\n', ""),
    ("import", ["shop.goods"], CANONICAL, 0, "4 documents\n", ""),
    ("export", ["shop.goods", "--canonical"], "", 0, CANONICAL, ""),
    ("export", ["shop.goods"], "", 0, RELAXED, ""),
    # what stands before a wrong line stays
    ("import", ["shop.other"], '{"_id": 1}\n{"_id": 2}\n{"_id": }\n{"_id": 4}\n', 1, "", "docpage: Syntax at line 3, column 9\n"),
    ("export", ["shop.other"], "", 0, '{"_id":1}\n{"_id":2}\n', ""),
    ("import", ["shop.other"], '{"_id": 3}\n{"_id": 1}\n', 1, "", "docpage: DuplicateKey\n"),
    ("export", ["shop"], "", 1, "", "docpage: InvalidNamespace\n"),
]

# The words behind the file of a dump, and how it ends: the documents {_id: 1} and {_id: 2}, an empty collection, and namespaces that there aren't.
DUMPS = [
    ("t.c", 0, "0e000000105f6964000100000000\n0e000000105f6964000200000000\n", ""),
    ("t.empty", 0, "", ""),
    ("t.d", 1, "", "docpage: NamespaceNotFound\n"),
    ("t", 1, "", "docpage: NamespaceNotFound\n"),
]

# The first bytes of a file, and the fault that it is: another file, a root of format 0, and one of format 2.
FAULTY = [(b"DOCPAGE2", "NotADatabase"), (b"DOCPAGE1", "Damaged"), (b"DOCPAGE1\x02", "NewerFormat")]

# Message 7, {ping: 1, $db: "t"}, and the first reply, {ok: 1}.
PING = b"\x2f\0\0\0\x07\0\0\0\0\0\0\0\xdd\x07\0\0\0\0\0\0\0\x1a\0\0\0\x10ping\0\x01\0\0\0\x02$db\0\x02\0\0\0t\0\0"
PONG = b"\x22\0\0\0\x01\0\0\0\x07\0\0\0\xdd\x07\0\0\0\0\0\0\0\x0d\0\0\0\x10ok\0\x01\0\0\0\0"

# What the file holds, if it is there, what follows a ping, and how that ends.
ENDS = [
    (None, b"", 0, PONG, b""),
    (b"", b"", 0, PONG, b""),
    (None, b"\x3c\0\0\0\x01", 0, PONG, b""),
    (None, b"\x19\0\0\0", 1, PONG, b"docpage: Length\n"),
    (b"A" * 1_024, b"", 1, b"", b"docpage: NotADatabase\n"),
]

# Which standard stream is closed before the program begins, what its input is else, and what it is asked.
CLOSED = [
    (0, b"", ["exec", "closed.docpage"]),
    (1, PING, ["exec", "closed.docpage"]),
    (1, b"", ["ask", "closed.docpage", '{"ping": 1}']),
    (1, b"", ["import", "closed.docpage", "test.d"]),
    (1, b"", ["listen", "closed.docpage", "--port", "0"]),
]


def ended(words, given=b"", **streams):
    """The status of docpage with these words over this input, what it printed, and what it said of faults."""
    how = {"stdout": subprocess.PIPE, "stderr": subprocess.PIPE, **streams}
    ran = subprocess.run([PROGRAM, *words], timeout=PATIENCE, **({"input": given} if "stdin" not in how else {}), **how)
    return ran.returncode, ran.stdout, ran.stderr


def told(words, given=""):
    status, output, errors = ended(words, given.encode())
    return status, output.decode(), errors.decode()


def wanted(got, right, what):
    assert got == right, f"{what}: {got} in place of {right}"


def words_of(line):
    return [word.strip("[]") for word in line.split()]


def bytes_in(name):
    with open(name, "rb") as file:
        return file.read()


def put_bytes(name, data):
    with open(name, "wb") as file:
        file.write(data)


def wrong_words():
    for line in WRONG.strip().splitlines():
        wanted(told(words_of(line), "\1\2\3\4"), (2, "", "docpage: Usage\n"), line)


def no_file():
    """A file that is read alone is not made."""
    for line in NO_FILE.strip().splitlines():
        wanted(told(words_of(line), "\1\2\3\4"), (1, "", "docpage: Device\n"), line)
    assert not os.path.exists("missing.docpage")


def help_is_printed():
    for words in (["help", "import"], ["import", "--help"]):
        status, output, errors = told(words)
        assert output.startswith("docpage import FILE NAMESPACE\n"), output
        wanted((status, errors), (2, "docpage: Usage\n"), words)


def a_port_in_use():
    with socket.create_server(("127.0.0.1", 0)) as other:
        port = str(other.getsockname()[1])
        for words in (["serve", "port.docpage", "--connections", "1", "--turns", "1"], ["listen", "port.docpage"]):
            wanted(told([*words, "--port", port]), (1, "", "docpage: Accept\n"), words)


def one_file():
    for number, (program, behind, given, status, output, errors) in enumerate(ONE_FILE):
        wanted(told([program, "people.docpage", *behind], given), (status, output, errors), f"run {number}")


def many_documents():
    """More than one batch by their number, and by their bytes."""
    for count, length in ((2_500, 1), (40, 60_000)):
        file = f"many_{count}.docpage"
        lines = "".join('{"_id":%d,"t":"%s"}\n' % (number, "x" * length) for number in range(count))
        wanted(told(["import", file, "t.c"], lines), (0, f"{count} documents\n", ""), "import")
        wanted(told(["export", file, "t.c"]), (0, lines, ""), "export")
        status, output, _ = told(["ask", file, "--db", "t", "--all", '{"find": "c", "batchSize": 39}'])
        assert status == 0 and output.count("\n") > 1, output[:200]


def documents_as_bytes():
    file = "dump.docpage"
    wanted(told(["import", file, "t.c"], '{"_id": 2}\n{"_id": 1}\n')[0], 0, "import")
    wanted(told(["ask", file, "--db", "t", '{"create": "empty"}'])[0], 0, "create")
    before = bytes_in(file)
    for namespace, *end in DUMPS:
        wanted(told(["dump", file, namespace]), tuple(end), namespace)
    wanted(bytes_in(file), before, "the file after dumps")


def files_that_are_none():
    for start, fault in FAULTY:
        put_bytes("faulty.docpage", start)
        wanted(told(["dump", "faulty.docpage", "t.c"]), (1, "", f"docpage: {fault}\n"), start)
        wanted(bytes_in("faulty.docpage"), start, "the file after a dump")


def a_file_in_use():
    """Others may read the file at the same time, and none may write it."""
    put_bytes("in_use.docpage", b"")
    with open("in_use.docpage", "rb+") as other:
        for lock, fault in ((fcntl.LOCK_SH, "NamespaceNotFound"), (fcntl.LOCK_EX, "Locked")):
            fcntl.flock(other, lock)
            wanted(told(["dump", "in_use.docpage", "t.c"]), (1, "", f"docpage: {fault}\n"), lock)


def the_end_of_the_input():
    """No run changes what the file holds."""
    for number, (held, behind, *end) in enumerate(ENDS):
        file = f"end_{number}.docpage"
        if held is not None:
            put_bytes(file, held)
        wanted(ended(["exec", file], PING + behind), tuple(end), f"row {number}")
        wanted(bytes_in(file), held or b"", f"the file of row {number}")


def streams_that_fail():
    """An input that is a folder, and outputs whose reader has gone."""
    folder = os.open(".", os.O_RDONLY)
    wanted(ended(["exec", "streams.docpage"], stdin=folder), (1, b"", b"docpage: Device\n"), "an input that fails")
    os.close(folder)
    reader, gone = os.pipe()
    os.close(reader)
    wanted(ended(["exec", "streams.docpage"], PING, stdout=gone), (1, None, b"docpage: Device\n"), "an output that fails")
    wanted(ended([], stdout=gone, stderr=gone), (2, None, None), "faults that can't be said")
    os.close(gone)


def streams_that_are_closed():
    """The system gives a file that is opened the number of one: none is read or written as that stream."""
    told(["ask", "closed.docpage", '{"insert": "c", "documents": [{"_id": 1}]}'])
    held = bytes_in("closed.docpage")
    for closed, given, words in CLOSED:
        how = {} if closed == 0 else {"input": given}
        ran = subprocess.run([PROGRAM, *words], stderr=subprocess.PIPE, timeout=PATIENCE, preexec_fn=lambda: os.close(closed), **how)
        wanted((ran.returncode, ran.stderr), (1, b"docpage: Device\n"), f"{words[0]} without stream {closed}")
        wanted(bytes_in("closed.docpage"), held, f"the file of {words[0]} without stream {closed}")


with tempfile.TemporaryDirectory(prefix="words.") as place:
    os.chdir(place)
    for case in (wrong_words, no_file, help_is_printed, a_port_in_use, one_file, many_documents, documents_as_bytes, files_that_are_none,
                 a_file_in_use, the_end_of_the_input, streams_that_fail, streams_that_are_closed):
        case()
        print(f"{case.__name__}: ok", flush=True)
