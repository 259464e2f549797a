"""Drives `docpage serve` and `docpage listen` by real clients on 127.0.0.1. Usage: serving.py PROGRAM [CASE ..]
Every wait has an end, and so has the whole."""
import os, resource, select, signal, socket, struct, subprocess, sys, tempfile, threading, time

PROGRAM = os.path.abspath(sys.argv[1])
FOLDER = tempfile.mkdtemp(prefix="serving.")
PATIENCE = 20.0
signal.alarm(600)
# Where a shell runs this in the background it ignores SIGINT, and so would the programs that it starts.
signal.signal(signal.SIGINT, signal.default_int_handler)


# BSON and OP_MSG, as far as the cases need them: numbers are int32, lists are arrays.
def spelled(value):
    if isinstance(value, dict):
        body = b"".join(element(name, item) for name, item in value.items())
        return 3, struct.pack("<i", len(body) + 5) + body + b"\0"
    if isinstance(value, list):
        return 4, spelled({str(i): item for i, item in enumerate(value)})[1]
    if isinstance(value, str):
        return 2, struct.pack("<i", len(value) + 1) + value.encode() + b"\0"
    return 16, struct.pack("<i", value)


def element(name, value):
    kind, content = spelled(value)
    return bytes([kind]) + name.encode() + b"\0" + content


def message(number, body):
    content = struct.pack("<i", 0) + b"\0" + spelled(body)[1]
    return struct.pack("<iiii", len(content) + 16, number, 0, 2013) + content


def ping(number=7):
    return message(number, {"ping": 1, "$db": "t"})


def insert(identity, number=7, **more):
    return message(number, {"insert": "c", "documents": [dict(_id=identity, **more)], "$db": "t"})


def find(filter=None, number=7):
    return message(number, {"find": "c", "filter": filter or {}, "$db": "t"})


def document_at(data, at):
    out, end = {}, at + struct.unpack_from("<i", data, at)[0]
    at += 4
    while data[at] != 0:
        kind, name_end = data[at], data.index(0, at + 1)
        name, at = data[at + 1:name_end].decode(), name_end + 1
        if kind in (3, 4):
            out[name], at = document_at(data, at)
            if kind == 4:
                out[name] = list(out[name].values())
        elif kind == 2:
            size = struct.unpack_from("<i", data, at)[0]
            out[name], at = data[at + 4:at + 3 + size].decode(), at + 4 + size
        elif kind == 16:
            out[name], at = struct.unpack_from("<i", data, at)[0], at + 4
        elif kind == 18:
            out[name], at = struct.unpack_from("<q", data, at)[0], at + 8
        else:
            raise AssertionError(f"a value of kind {kind}")
    return out, end


class Client:
    def __init__(self, port, patience=PATIENCE):
        self.socket = socket.create_connection(("127.0.0.1", port), timeout=patience)
        self.socket.setsockopt(socket.IPPROTO_TCP, socket.TCP_NODELAY, 1)
        self.waiting = b""

    def send(self, data):
        self.socket.sendall(data)

    def exactly(self, count):
        while len(self.waiting) < count:
            part = self.socket.recv(65536)
            if not part:
                raise EOFError
            self.waiting += part
        data, self.waiting = self.waiting[:count], self.waiting[count:]
        return data

    def reply(self):
        head = self.exactly(16)
        rest = self.exactly(struct.unpack_from("<i", head)[0] - 16)
        return document_at(rest, 5)[0]

    def ask(self, data):
        self.send(data)
        return self.reply()

    def is_ended(self):
        try:
            return self.socket.recv(1) == b""
        except ConnectionResetError:
            return True

    def close(self):
        self.socket.close()


class Server:
    """The program with these words; it is killed where it doesn't end by itself."""
    def __init__(self, *words, before=None):
        self.process = subprocess.Popen([PROGRAM, *map(str, words)], stdout=subprocess.PIPE, stderr=subprocess.PIPE,
                                        text=True, preexec_fn=before)
        line = self.process.stdout.readline()
        self.port = int(line.rsplit(":", 1)[1]) if line else None
        assert not line or line == f"listening on 127.0.0.1:{self.port}\n", line

    def __enter__(self):
        return self

    def __exit__(self, *_):
        self.process.kill()
        self.process.communicate(timeout=PATIENCE)

    def ended(self):
        said = self.process.communicate(timeout=PATIENCE)[1]
        return self.process.returncode, said

    def kill(self, number):
        self.process.send_signal(number)
        return self.process.wait(timeout=PATIENCE)


def free_port():
    with socket.socket() as probe:
        probe.bind(("127.0.0.1", 0))
        return probe.getsockname()[1]


def file(name):
    return os.path.join(FOLDER, name + ".docpage")


def found(reply):
    assert reply["ok"] == 1, reply
    return [document["_id"] for document in reply["cursor"]["firstBatch"]]


def at_once(count, work):
    """Runs `work(i)` on as many threads, and raises what one of them raised."""
    faults = []

    def run(i):
        try:
            work(i)
        except BaseException as fault:
            faults.append((i, repr(fault)))

    threads = [threading.Thread(target=run, args=(i,)) for i in range(count)]
    for thread in threads:
        thread.start()
    for thread in threads:
        thread.join(PATIENCE * 2)
        assert not thread.is_alive(), "a client waits for ever"
    assert not faults, faults[:3]


def fill(client, data):
    """Sends data over and over until the server takes no more; how often it went whole, and what went of the last."""
    client.socket.setblocking(False)
    sent = 0
    while True:
        try:
            sent += client.socket.send(data[sent % len(data):])
        except BlockingIOError:
            if not select.select([], [client.socket], [], 0.5)[1]:
                client.socket.settimeout(PATIENCE)
                return sent


# serve

def serve_many():
    """62 clients insert and find at the same time, beside an idle one and one that never reads."""
    with Server("serve", file("many"), "--port", free_port(), "--connections", 64, "--turns", 10**9) as server:
        idle, deaf = Client(server.port), Client(server.port)
        clients = [Client(server.port) for _ in range(62)]
        fill(deaf, ping() * 1000)

        def work(i):
            for k in range(5):
                identity = 100 * i + k
                assert clients[i].ask(insert(identity)) == {"n": 1, "ok": 1}
                assert found(clients[i].ask(find({"_id": identity}))) == [identity]
        at_once(62, work)
        assert clients[0].ask(message(7, {"count": "c", "$db": "t"})) == {"n": 310, "ok": 1}
        for client in [idle, deaf] + clients:
            client.close()
        assert server.ended() == (0, "")


def serve_turns():
    """It makes so many turns: a client that has no message doesn't use them up."""
    with Server("serve", file("turns"), "--port", free_port(), "--connections", 2, "--turns", 3) as server:
        first, second = Client(server.port), Client(server.port)
        time.sleep(0.2)
        for _ in range(3):
            assert first.ask(ping())["ok"] == 1
        assert server.ended() == (0, "")
        assert first.is_ended() and second.is_ended()


def serve_ends_early():
    """It ends once no connection is open, also in a message."""
    with Server("serve", file("early"), "--port", free_port(), "--connections", 2, "--turns", 1000) as server:
        first, second = Client(server.port), Client(server.port)
        assert first.ask(ping())["ok"] == 1
        first.close()
        second.send(ping()[:20])
        second.socket.shutdown(socket.SHUT_WR)
        assert second.is_ended()
        assert server.ended() == (0, "")


# listen

def comers():
    """More than 64, one after the other, and each gets its reply."""
    with Server("listen", file("comers"), "--port", 0) as server:
        for i in range(300):
            client = Client(server.port)
            assert client.ask(insert(i)) == {"n": 1, "ok": 1}
            if i % 3 == 1:
                client.send(find()[:30])
            client.close()
        client = Client(server.port)
        assert client.ask(message(7, {"count": "c", "$db": "t"}))["n"] == 300
        client.close()


def one_too_many():
    """A 65th waits until a number is free, and what came of the connection before it is forgotten."""
    with Server("listen", file("waits"), "--port", 0) as server:
        clients = [Client(server.port) for _ in range(64)]
        for client in clients:
            assert client.ask(ping())["ok"] == 1
        late = Client(server.port, 0.5)
        late.send(ping())
        try:
            late.reply()
            raise AssertionError("a 65th was served")
        except socket.timeout:
            pass
        late.socket.settimeout(PATIENCE)
        clients[17].send(find()[:30])
        assert clients[16].ask(ping())["ok"] == 1
        clients[17].close()
        assert late.reply()["ok"] == 1
        for i, client in enumerate(clients):
            if i != 17:
                assert client.ask(ping())["ok"] == 1


def a_byte_at_a_time():
    with Server("listen", file("bytes"), "--port", 0) as server:
        slow, other = Client(server.port), Client(server.port)
        data = insert(1) + find()
        for i in range(len(data)):
            slow.send(data[i:i + 1])
            if i % 8 == 0:
                assert other.ask(ping())["ok"] == 1
        assert slow.reply() == {"n": 1, "ok": 1}
        assert found(slow.reply()) == [1]


def half_closed():
    """All replies come, and then the end, where the client ends its writing first."""
    with Server("listen", file("half"), "--port", 0) as server:
        for count in (1, 3, 1000):
            client = Client(server.port)
            client.send(ping() * count)
            client.socket.shutdown(socket.SHUT_WR)
            for _ in range(count):
                assert client.reply()["ok"] == 1
            assert client.is_ended()


def cut_off():
    """Clients that end amid a frame, by an end or a reset, hurt no other."""
    with Server("listen", file("cut"), "--port", 0) as server:
        other = Client(server.port)
        for i in range(200):
            client = Client(server.port)
            client.send(insert(i)[:20 + i % 40])
            if i % 2:
                client.socket.setsockopt(socket.SOL_SOCKET, socket.SO_LINGER, struct.pack("ii", 1, 0))
            client.close()
        assert found(other.ask(find())) == []


def a_frame_fault():
    """It closes its connection alone, after the reply to what came before it."""
    with Server("listen", file("fault"), "--port", 0) as server:
        bad, good = Client(server.port), Client(server.port)
        bad.send(ping() + struct.pack("<i", 25) + ping())
        assert bad.reply()["ok"] == 1
        assert bad.is_ended()
        assert good.ask(ping())["ok"] == 1
        anew = Client(server.port)
        assert anew.ask(ping())["ok"] == 1


def deaf():
    """One that doesn't read its replies delays no other, isn't read from meanwhile, and gets all of them in the end."""
    with Server("listen", file("deaf"), "--port", 0) as server:
        other, quiet = Client(server.port), Client(server.port)
        assert other.ask(insert(1, text="x" * 50000)) == {"n": 1, "ok": 1}
        request = find()
        sent = fill(quiet, request * 100)
        assert sent < 64 << 20, "the server goes on reading from one that doesn't read"
        start = time.monotonic()
        for _ in range(500):
            assert other.ask(ping())["ok"] == 1
        assert time.monotonic() - start < 5
        quiet.socket.shutdown(socket.SHUT_WR)
        for _ in range(sent // len(request)):
            assert found(quiet.reply()) == [1]
        assert quiet.is_ended()


def silent():
    """A connection that sends nothing for so many seconds is closed, also one that doesn't read, and no other."""
    with Server("listen", file("silent"), "--port", 0, "--idle-seconds", 2) as server:
        idle, part, busy = Client(server.port), Client(server.port), Client(server.port)
        part.send(ping()[:20])
        quiet = Client(server.port)
        assert busy.ask(insert(1, text="x" * 50000)) == {"n": 1, "ok": 1}
        fill(quiet, find() * 100)
        start = time.monotonic()
        while time.monotonic() - start < 4:
            assert busy.ask(ping())["ok"] == 1
            time.sleep(0.2)
        for client in (idle, part):
            client.socket.settimeout(1)
            assert client.is_ended()
        left = [Client(server.port) for _ in range(63)]
        for client in left:
            assert client.ask(ping())["ok"] == 1


def patient():
    """With no such limit an idle connection stays."""
    with Server("listen", file("patient"), "--port", 0) as server:
        idle = Client(server.port)
        time.sleep(2)
        assert idle.ask(ping())["ok"] == 1


def killed():
    """What was acknowledged before a signal is there when it is started again, on the same port too."""
    port, kept = 0, []
    for round, number in enumerate((signal.SIGTERM, signal.SIGKILL, signal.SIGINT, signal.SIGKILL)):
        with Server("listen", file("killed"), "--port", port) as server:
            port = server.port
            client = Client(port)
            for identity in kept:
                assert found(client.ask(find({"_id": identity}))) == [identity], identity
            stop, last = threading.Event(), []

            def work(i):
                mine = Client(port)
                last.append(mine)
                try:
                    for k in range(10**6):
                        identity = (round * 8 + i) * 10000 + k
                        assert mine.ask(insert(identity)) == {"n": 1, "ok": 1}
                        kept.append(identity)
                except (EOFError, OSError):
                    assert stop.is_set()
            timer = threading.Timer(0.3, lambda: (stop.set(), server.kill(number)))
            timer.start()
            at_once(8, work)
            timer.join(PATIENCE)
            assert server.process.returncode == -number
    assert len(kept) > 8


def stopped():
    """A write of the file that fails ends it; the file opens as it was."""
    with Server("listen", file("stopped"), "--port", 0) as server:
        assert Client(server.port).ask(insert(1)) == {"n": 1, "ok": 1}

    def limit():
        signal.signal(signal.SIGXFSZ, signal.SIG_IGN)
        size = os.path.getsize(file("stopped"))
        resource.setrlimit(resource.RLIMIT_FSIZE, (size, size))
    with Server("listen", file("stopped"), "--port", 0, before=limit) as server:
        client = Client(server.port)
        try:
            for identity in range(2, 100):
                assert client.ask(insert(identity, text="x" * 3000)) == {"n": 1, "ok": 1}
            raise AssertionError("the file has no limit")
        except (EOFError, OSError):
            pass
        assert server.ended() == (1, "docpage: Stopped\n")
    with Server("listen", file("stopped"), "--port", 0) as server:
        ids = found(Client(server.port).ask(find()))
        assert ids == list(range(1, identity)), ids


def few_descriptors():
    """With few of them some are served and the others wait, at no cost, until some have left."""
    def limit():
        resource.setrlimit(resource.RLIMIT_NOFILE, (14, 14))
    with Server("listen", file("few"), "--port", 0, before=limit) as server:
        clients = [Client(server.port, 0.5) for _ in range(20)]
        served = []
        for client in clients:
            client.send(ping())
            try:
                assert client.reply()["ok"] == 1
                served.append(client)
            except socket.timeout:
                pass
        assert 4 <= len(served) < 20, len(served)
        before = processor_time(server.process.pid)
        time.sleep(1.5)
        assert processor_time(server.process.pid) - before < 0.2
        for client in served[:3]:
            client.close()
        time.sleep(1.5)
        more = 0
        for client in clients:
            if client not in served:
                try:
                    assert client.reply()["ok"] == 1
                    more += 1
                except socket.timeout:
                    pass
        assert more == 3, more


def processor_time(pid):
    with open(f"/proc/{pid}/stat") as stat:
        fields = stat.read().rsplit(")", 1)[1].split()
    return (int(fields[11]) + int(fields[12])) / os.sysconf("SC_CLK_TCK")


def faults():
    """A port or a file in use, in the order words, file, the rest."""
    with Server("listen", file("one"), "--port", 0) as server:
        for words, said in (
            (("listen", file("two"), "--port", server.port), (1, "docpage: Accept\n")),
            (("serve", file("two"), "--port", server.port, "--connections", 1, "--turns", 1), (1, "docpage: Accept\n")),
            (("listen", file("one"), "--port", server.port), (1, "docpage: Locked\n")),
            (("listen", FOLDER + "/none/x", "--port", server.port), (1, "docpage: Device\n")),
            (("listen", file("one"), "--port", 65536), (2, "docpage: Usage\n")),
        ):
            with Server(*words) as other:
                assert other.ended() == said, (words, said)


CASES = [serve_many, serve_turns, serve_ends_early, comers, one_too_many, a_byte_at_a_time, half_closed, cut_off,
         a_frame_fault, deaf, silent, patient, killed, stopped, few_descriptors, faults]
wanted = sys.argv[2:]
failed = 0
for case in CASES:
    if wanted and case.__name__ not in wanted:
        continue
    start = time.monotonic()
    try:
        case()
        print(f"serving: {case.__name__} passed in {time.monotonic() - start:.1f} s", flush=True)
    except Exception as fault:
        failed += 1
        line = fault.__traceback__.tb_next.tb_lineno if fault.__traceback__.tb_next else 0
        print(f"serving: {case.__name__} FAILED at line {line}: {fault!r}", flush=True)
for name in os.listdir(FOLDER):
    os.unlink(os.path.join(FOLDER, name))
os.rmdir(FOLDER)
sys.exit(1 if failed else 0)
