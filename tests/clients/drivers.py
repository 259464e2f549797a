"""Drives `docpage listen --drivers` by pymongo, and by those of the drivers for Ruby, Perl, Node, C, PHP and Go that are installed.
Usage: drivers.py PROGRAM [CASE ..]
Every wait has an end, and so has the whole. The last line is `N passed, M failed`."""
import os, resource, shutil, signal, socket, struct, subprocess, sys, tempfile, threading, time, traceback

import bson
import pymongo
from bson.son import SON
from pymongo import DeleteOne, InsertOne, ReplaceOne, UpdateMany, UpdateOne
from pymongo.collection import ReturnDocument
from pymongo.errors import BulkWriteError, DuplicateKeyError, OperationFailure

PROGRAM = os.path.abspath(sys.argv[1])
FOLDER = tempfile.mkdtemp(prefix="drivers.")
PATIENCE = 20.0
AFTER = ReturnDocument.AFTER
PROCESSES = []
signal.alarm(int(os.environ.get("SECONDS_AT_MOST", 110)))  # also while it looks which drivers there are


class Server:
    """A server of a file, on a port of its own."""

    def __init__(self, name):
        self.file = os.path.join(FOLDER, name)
        self.start()

    def start(self, port=0):
        words = [PROGRAM, "listen", self.file, "--port", str(port), "--drivers"]
        self.process = subprocess.Popen(words, stdout=subprocess.PIPE, stderr=subprocess.PIPE)
        PROCESSES.append(self.process)
        line = self.process.stdout.readline().decode()
        if not line.startswith("listening on "):
            raise AssertionError(line + self.process.stderr.read().decode())
        self.port = int(line.split(":")[1])

    def client(self, **options):
        return pymongo.MongoClient("127.0.0.1", self.port, serverSelectionTimeoutMS=5000,
                                   socketTimeoutMS=int(PATIENCE * 1000), **options)

    def kill(self):
        self.process.send_signal(signal.SIGKILL)
        self.process.wait(PATIENCE)
        self.process.stdout.close()
        self.process.stderr.close()


def expect(answer, wanted):
    if answer != wanted:
        raise AssertionError(f"{answer!r}, and not {wanted!r}")


def refused(kind, call, code=None):
    """Whether a call is refused in this way."""
    try:
        answer = call()
    except kind as fault:
        if code is not None:
            expect(fault.code, code)
        return fault
    raise AssertionError(f"answered {answer!r}")


def answer_to(server, opcode, content):
    """What follows the header of the answer to a message."""
    with socket.create_connection(("127.0.0.1", server.port), PATIENCE) as connection, connection.makefile("rb") as reader:
        connection.sendall(struct.pack("<iiii", len(content) + 16, 1, 0, opcode) + content)
        length = struct.unpack("<i", reader.read(4))[0]
        return reader.read(length - 4)[12:]


def sent(server, body, documents):
    """The reply to a message whose documents stand behind its body."""
    behind = b"documents\0" + b"".join(bson.encode(document) for document in documents)
    content = struct.pack("<I", 0) + b"\0" + bson.encode(body) + b"\1" + struct.pack("<i", len(behind) + 4) + behind
    return bson.decode(answer_to(server, 2013, content)[5:])


def greeted(server, body):
    """The reply to a handshake of the older form."""
    content = struct.pack("<i", 0) + b"admin.$cmd\0" + struct.pack("<ii", 0, -1) + bson.encode(body)
    return bson.decode(answer_to(server, 2004, content)[20:])


def all_of(threads):
    """Runs these at the same time, and gives the faults of all."""
    faults = []

    def run(call):
        try:
            call()
        except Exception as fault:
            faults.append(fault)

    running = [threading.Thread(target=run, args=(call,)) for call in threads]
    for thread in running:
        thread.start()
    for thread in running:
        thread.join(PATIENCE)
    return faults


def handshake(server):
    client = server.client()
    expect(client.admin.command("ping")["ok"], 1)
    expect(client.server_info()["version"], "4.2.0")
    hello = client.admin.command("isMaster")
    expect((hello["ismaster"], hello["maxBsonObjectSize"], hello["maxWireVersion"]), (True, 65535, 8))
    client.close()


def inserts(server):
    people = server.client().test.inserted
    expect(people.insert_one({"_id": 1, "name": "Ada"}).inserted_id, 1)
    made = people.insert_one({"name": "Grace"}).inserted_id
    expect(type(made), bson.ObjectId)
    expect(people.find_one({"_id": made}), {"_id": made, "name": "Grace"})
    expect(people.insert_many([{"_id": n} for n in range(10, 1500)]).inserted_ids, list(range(10, 1500)))
    expect(people.estimated_document_count(), 1492)
    many = [{"_id": n, "text": "x" * 30_000} for n in range(2000, 2080)]
    expect(len(people.insert_many(many).inserted_ids), 80)
    expect(people.find_one({"_id": 2079}), many[-1])


def raw_inserts(server):
    """Documents that say no `_id`, in commands as they are: the driver makes none there."""
    database = server.client().test

    def insert(documents, **fields):
        told = database.command("insert", "raw", documents=documents, **fields)
        return told["n"], [(error["index"], error["code"]) for error in told.get("writeErrors", [])]

    expect(insert([{"name": "Ada"}, {"name": "Grace"}]), (2, []))
    expect(insert([{"name": "Alan"}, {"name": "Edsger"}]), (2, []))
    made = list(database.raw.find())
    expect([list(document) for document in made], [["_id", "name"]] * 4)
    expect([document["name"] for document in made], ["Ada", "Grace", "Alan", "Edsger"])
    expect([type(document["_id"]) for document in made], [bson.ObjectId] * 4)
    expect(len({document["_id"] for document in made}), 4)
    # some say one, and where one is refused the others are made once
    some = [{"name": "Barbara"}, {"_id": made[0]["_id"]}, {"name": "Tony", "_id": 7}, {}]
    expect(insert(some, ordered=False), (3, [(1, 11000)]))
    expect(insert(some), (1, [(1, 11000)]))
    expect(database.raw.find_one({"_id": 7}), {"_id": 7, "name": "Tony"})
    expect((database.raw.count_documents({}), database.raw.count_documents({"name": "Barbara"})), (8, 2))
    refused(OperationFailure, lambda: insert([{}] * 1001), 9002)
    expect(insert([{}] * 1000), (1000, []))
    expect(database.raw.count_documents({}), 1008)
    # with their `_id`s these are too long for one command, so each is asked by itself
    expect(sent(server, {"insert": "raw", "$db": "test"}, [{"text": "x" * 52_394}] * 20), {"n": 20, "ok": 1})
    expect(database.raw.count_documents({}), 1028)


def finds(server):
    numbers = server.client().test.numbers
    numbers.insert_many([{"_id": n, "half": n // 2, "tags": ["even" if n % 2 == 0 else "odd"]} for n in range(500)])
    expect([d["_id"] for d in numbers.find({"half": {"$gte": 248}}).sort("_id", -1)], [499, 498, 497, 496])
    expect(list(numbers.find({"_id": 7}, {"half": 1})), [{"_id": 7, "half": 3}])
    expect([d["_id"] for d in numbers.find({"tags": "odd"}).sort([("half", 1), ("_id", 1)]).skip(2).limit(3)], [5, 7, 9])
    expect([d["_id"] for d in numbers.find({"$or": [{"_id": 3}, {"half": {"$in": [4]}}]}).sort("_id", 1)], [3, 8, 9])
    expect(numbers.find_one({"_id": 1000}), None)
    expect([d["_id"] for d in numbers.find({}).limit(-2)], [0, 1])


def cursors(server):
    client = server.client()
    numbers = client.test.batches
    numbers.insert_many([{"_id": n} for n in range(500)])
    expect([d["_id"] for d in numbers.find().batch_size(7)], list(range(500)))
    one, other = numbers.find().batch_size(3), numbers.find().sort("_id", -1).batch_size(2)
    expect([(next(one)["_id"], next(other)["_id"]) for _ in range(500)], [(n, 499 - n) for n in range(500)])
    early = numbers.find().batch_size(2)
    next(early)
    early.close()
    refused(OperationFailure, lambda: client.test.command({"getMore": bson.Int64(99999), "collection": "batches"}), 43)


def abandoned_cursors(server):
    """Each connection of the server has room for 16 cursors, so 1,024 are open at most."""
    server.client().test.many.insert_many([{"_id": n} for n in range(5)])
    for _ in range(3):
        client = server.client()
        opened = [client.test.many.find().batch_size(1) for _ in range(1000)]
        expect([next(cursor)["_id"] for cursor in opened], [0] * 1000)
        expect([next(cursor)["_id"] for cursor in opened[::100]], [1] * 10)
        for cursor in opened:
            cursor._Cursor__killed = True
        client.close()


def updates(server):
    people = server.client().test.updated
    people.insert_many([{"_id": n, "age": 20 + n} for n in range(10)])
    done = people.update_one({"_id": 3}, {"$set": {"name": "Ada"}, "$inc": {"age": 1}})
    expect((done.matched_count, done.modified_count), (1, 1))
    expect(people.find_one({"_id": 3}), {"_id": 3, "age": 24, "name": "Ada"})
    done = people.update_many({"age": {"$gte": 25}}, {"$push": {"tags": "old"}})
    expect((done.matched_count, done.modified_count), (5, 5))
    done = people.replace_one({"_id": 4}, {"other": True})
    expect((done.matched_count, people.find_one({"_id": 4})), (1, {"_id": 4, "other": True}))
    done = people.update_one({"_id": 77}, {"$set": {"age": 77}}, upsert=True)
    expect((done.matched_count, done.upserted_id), (0, 77))
    expect(people.find_one({"_id": 77}), {"_id": 77, "age": 77})
    expect(people.update_one({"_id": 78}, {"$set": {"age": 1}}).matched_count, 0)


def batches(server):
    """Batches of which some statements are refused: in order up to the first, else past it."""
    people = server.client().test.batched
    people.insert_one({"_id": 2})

    def told(call):
        details = refused(BulkWriteError, call).details
        counts = {name: details[name] for name in ("nInserted", "nMatched", "nModified", "nRemoved") if details[name]}
        return counts, [(error["index"], error["code"]) for error in details["writeErrors"]]

    expect(told(lambda: people.insert_many([{"_id": n} for n in range(5)])), ({"nInserted": 2}, [(2, 11000)]))
    expect([d["_id"] for d in people.find()], [0, 1, 2])
    some = [{"_id": n} for n in (5, 1, 6, 2, 7)]
    expect(told(lambda: people.insert_many(some, ordered=False)), ({"nInserted": 3}, [(1, 11000), (3, 11000)]))
    expect([d["_id"] for d in people.find()], [0, 1, 2, 5, 6, 7])
    mixed = [UpdateOne({"_id": 0}, {"$set": {"a": "x"}}), UpdateMany({}, {"$inc": {"n": 1}}), UpdateOne({"_id": 0}, {"$inc": {"a": 1}}),
             UpdateOne({"_id": 1}, {"$set": {"a": 1}}), DeleteOne({"_id": 7})]
    expect(told(lambda: people.bulk_write(mixed)), ({"nMatched": 7, "nModified": 7}, [(2, 14)]))
    expect(told(lambda: people.bulk_write(mixed, ordered=False)),
           ({"nMatched": 8, "nModified": 7, "nRemoved": 1}, [(2, 14)]))
    expect(people.find_one({"_id": 1}), {"_id": 1, "n": 2, "a": 1})
    expect(told(lambda: people.insert_many([{"_id": n % 290} for n in range(300)], ordered=False))[0], {"nInserted": 285})
    unheard = people.with_options(write_concern=pymongo.WriteConcern(w=0))
    unheard.insert_many([{"_id": n} for n in (2000, 0, 2001)], ordered=False)
    expect(people.count_documents({"_id": {"$gte": 2000}}), 2)


def upserts(server):
    """Upserts that say no `_id` for the document that they make."""
    people = server.client().test.upserted
    done = people.update_one({"name": "Ada"}, {"$set": {"age": 36}}, upsert=True)
    made = done.upserted_id
    expect((type(made), done.matched_count), (bson.ObjectId, 0))
    expect(people.find_one({"name": "Ada"}), {"_id": made, "name": "Ada", "age": 36})
    done = people.update_one({"name": "Ada"}, {"$inc": {"age": 1}}, upsert=True)
    expect((done.upserted_id, done.matched_count, done.modified_count), (None, 1, 1))
    done = people.replace_one({"name": "Alan"}, {"name": "Alan", "born": 1912}, upsert=True)
    expect(people.find_one({"name": "Alan"}), {"_id": done.upserted_id, "name": "Alan", "born": 1912})
    done = people.replace_one({"name": "Alan"}, {"born": 1912}, upsert=True)
    expect((done.upserted_id, people.find_one({"born": 1912})["_id"] is None), (None, False))
    done = people.bulk_write([InsertOne({"_id": 1}), UpdateOne({"name": "Grace"}, {"$set": {"a": 1}}, upsert=True),
                              UpdateOne({"name": "Ada"}, {"$set": {"a": 1}}, upsert=True),
                              ReplaceOne({"name": "Edsger"}, {"name": "Edsger"}, upsert=True),
                              UpdateOne({"_id": 7}, {"$set": {"a": 1}}, upsert=True)])
    expect((done.matched_count, sorted(done.upserted_ids)), (1, [1, 3, 4]))
    expect(people.find_one({"_id": done.upserted_ids[1]})["name"], "Grace")
    expect(people.find_one({"_id": done.upserted_ids[3]})["name"], "Edsger")
    expect(done.upserted_ids[4], 7)
    # what was found isn't made anew, also where the update is refused
    people.insert_one({"_id": 9, "tag": "x", "list": 1})
    refused(OperationFailure, lambda: people.update_one({"tag": "x"}, {"$push": {"list": 2}}, upsert=True), 2)
    expect(people.count_documents({"tag": "x"}), 1)


def modifications(server):
    """Documents that are found and changed in one go."""
    jobs = server.client().test.modified
    jobs.insert_many([{"_id": n, "rank": 9 - n, "state": "new"} for n in range(5)])
    taken = jobs.find_one_and_update({"state": "new"}, {"$set": {"state": "taken"}}, sort=[("rank", 1)])
    expect(taken, {"_id": 4, "rank": 5, "state": "new"})
    expect(jobs.find_one_and_update({"_id": 4}, {"$inc": {"rank": 1}}, return_document=AFTER), {"_id": 4, "rank": 6, "state": "taken"})
    expect(jobs.find_one_and_delete({"state": "new"}, sort=[("rank", -1)]), {"_id": 0, "rank": 9, "state": "new"})
    expect(jobs.find_one_and_delete({"_id": 0}), None)
    expect(jobs.find_one_and_replace({"_id": 1}, {"other": True}), {"_id": 1, "rank": 8, "state": "new"})
    expect(jobs.find_one({"_id": 1}), {"_id": 1, "other": True})
    expect(jobs.find_one_and_update({"state": "lost"}, {"$set": {"a": 1}}), None)
    expect(jobs.find_one_and_update({"_id": "x"}, {"$set": {"a": 1}}, upsert=True), None)
    expect(jobs.find_one({"_id": "x"}), {"_id": "x", "a": 1})
    made = jobs.find_one_and_update({"name": "Ada"}, {"$set": {"a": 2}}, upsert=True, return_document=AFTER)
    expect((type(made.pop("_id")), made), (bson.ObjectId, {"name": "Ada", "a": 2}))
    told = server.client().test.command("findAndModify", "modified", query={"_id": 2}, update={"$set": {"a": 3}}, new=True)
    expect((told["lastErrorObject"], told["value"]["a"]), ({"n": 1, "updatedExisting": True}, 3))
    told = server.client().test.command("findAndModify", "modified", query={"_id": 77}, remove=True)
    expect((told["lastErrorObject"], told["value"]), ({"n": 0}, None))
    for code, fields in ((9, {}), (9, {"remove": True, "update": {"a": 1}}), (9, {"remove": True, "upsert": True}),
                         (14, {"update": [{"$set": {"a": 1}}]}), (14, {"remove": 1}),
                         (72, {"update": {"$set": {"a": 1}}, "fields": {"a": 1}}), (14, {"update": {"$inc": {"state": 1}}})):
        refused(OperationFailure, lambda: server.client().test.command("findAndModify", "modified", query={"_id": 2}, **fields), code)
    expect(jobs.find_one({"_id": 2}), {"_id": 2, "rank": 7, "state": "new", "a": 3})
    # an update that is none is refused where no document is found too
    for code, update in ((2, {"$foo": {"a": 1}}), (40, {"$rename": {"b": "b"}})):
        refused(OperationFailure, lambda: server.client().test.command("findAndModify", "modified", query={"_id": 77}, update=update), code)
    # a counter that many raise at the same time: each is told another number, and others change it between
    jobs.insert_one({"_id": "counter", "n": 0})
    client, told = server.client(), []

    def raise_it():
        counters = client.test.modified
        for _ in range(20):
            counters.update_one({"_id": "counter"}, {"$inc": {"others": 1}})
            told.append(counters.find_one_and_update({"_id": "counter"}, {"$inc": {"n": 1}}, return_document=AFTER)["n"])

    expect(all_of([raise_it] * 16), [])
    expect(sorted(told), list(range(1, 321)))
    expect(jobs.find_one({"_id": "counter"}), {"_id": "counter", "n": 320, "others": 320})
    # a queue from which each takes another job
    queue = client.test.queue
    queue.insert_many([{"_id": n, "state": 0} for n in range(200)])
    mine = []

    def take():
        while (job := queue.find_one_and_delete({"state": 0}, sort=[("_id", 1)])) is not None:
            mine.append(job["_id"])

    expect(all_of([take] * 8), [])
    expect((sorted(mine), queue.count_documents({})), (list(range(200)), 0))


def deletes(server):
    people = server.client().test.deleted
    people.insert_many([{"_id": n, "odd": n % 2} for n in range(20)])
    expect(people.delete_one({"_id": 4}).deleted_count, 1)
    expect(people.delete_many({"odd": 1}).deleted_count, 10)
    expect([d["_id"] for d in people.find()], [0, 2, 6, 8, 10, 12, 14, 16, 18])
    expect(people.delete_many({}).deleted_count, 9)
    expect(people.count_documents({}), 0)


def counts(server):
    sold = server.client().test.sold
    sold.insert_many([{"_id": n, "what": "abc"[n % 3], "price": n} for n in range(30)])
    expect(sold.count_documents({"what": "a"}), 10)
    expect(sold.count_documents({}), 30)
    groups = sold.aggregate([{"$match": {"price": {"$gte": 3}}},
                             {"$group": {"_id": "$what", "sum": {"$sum": "$price"}, "n": {"$sum": 1}}},
                             {"$sort": {"_id": 1}}])
    expect(list(groups), [{"_id": "a", "sum": 135, "n": 9}, {"_id": "b", "sum": 144, "n": 9},
                          {"_id": "c", "sum": 153, "n": 9}])


def distincts(server):
    """The distinct values of a path, over several batches of documents."""
    client = server.client()
    books = client.test.distinct
    books.insert_many([{"_id": n, "shelf": n % 3, "tags": [f"t{n % 4}", "all"], "by": [{"name": f"n{n % 5}"}, {"name": "we"}, {"other": 1}]}
                       for n in range(500)])
    expect(books.distinct("shelf"), [0, 1, 2])
    expect(books.distinct("shelf", {"_id": {"$lt": 2}}), [0, 1])
    expect(books.distinct("tags"), ["all", "t0", "t1", "t2", "t3"])
    expect(books.distinct("by.name", {"_id": {"$in": [1, 7]}}), ["n1", "n2", "we"])
    expect(books.distinct("by.1.name"), ["we"])
    expect(books.distinct("_id", {"shelf": 0, "_id": {"$gte": 490}}), [492, 495, 498])
    expect(len(books.distinct("_id")), 500)
    expect(books.distinct("missing"), [])
    expect(client.test.nowhere.distinct("a"), [])
    # equal numbers are one value, as it was found first; null is a value, what is missing none; arrays in arrays stay whole
    mixed = client.test.mixed
    mixed.insert_many([{"_id": 0, "a": bson.Int64(1)}, {"_id": 1, "a": 1}, {"_id": 2, "a": None}, {"_id": 3}, {"_id": 4, "a": []},
                       {"_id": 5, "a": [[2, 1], {"b": 1}, "x"]}, {"_id": 6, "a": {"b": 1}}])
    expect(mixed.distinct("a"), [None, 1, "x", {"b": 1}, [2, 1]])
    expect(type(mixed.distinct("a")[1]), bson.Int64)
    expect(mixed.distinct("a.b"), [1])
    for code, fields in ((14, {"key": 1}), (14, {}), (2, {"key": ""}), (2, {"key": "$a"}), (2, {"key": "a..b"}), (14, {"key": "a", "query": 1}),
                         (72, {"key": "a", "hint": "a_1"}), (72, {"key": "a", "fields": 1}), (72, {"key": "a", "collation": {"locale": "de"}}),
                         (52, {"key": "a", "query": {"$frob": 1}})):
        refused(OperationFailure, lambda: client.test.command("distinct", "mixed", **fields), code)
    # more values than a message holds
    client.test.wide.insert_many([{"_id": n, "text": f"{n:04}" * 10_000} for n in range(30)])
    refused(OperationFailure, lambda: client.test.wide.distinct("text"), 10334)
    expect(client.test.command("distinct", "mixed", key="a", comment="why", readConcern={"level": "majority"})["ok"], 1)


def indexes(server):
    database = server.client().indexed
    users = database.users
    users.insert_many([{"_id": n, "name": f"n{n}", "city": n % 3} for n in range(30)])
    expect(users.create_index("city"), "city_1")
    expect(users.create_index([("name", pymongo.ASCENDING)], unique=True), "name_1")
    expect(users.create_index([("city", 1), ("name", -1)], name="both"), "both")
    told = users.index_information()
    expect(sorted(told), ["_id_", "both", "city_1", "name_1"])
    expect((told["name_1"]["unique"], told["city_1"].get("unique"), told["both"]["key"]),
           (True, None, [("city", 1), ("name", -1)]))
    expect(([told[name]["v"] for name in sorted(told)], told["_id_"]), ([2, 2, 2, 2], {"key": [("_id", 1)], "v": 2}))
    expect([d["_id"] for d in users.find({"city": 2, "name": "n5"})], [5])
    refused(DuplicateKeyError, lambda: users.insert_one({"_id": 99, "name": "n5"}))
    plan = lambda found: found.explain()["queryPlanner"]["winningPlan"]["stage"]
    expect(plan(users.find({"city": 2})), "INDEX city_1 eq=1 range=none sort=no")
    expect(plan(users.find({"city": 2}).sort([("city", 1), ("name", -1)]).limit(1)), "INDEX both eq=1 range=none sort=yes")
    expect(plan(users.find({"born": 2})), "SCAN")
    refused(OperationFailure, lambda: users.find({"city": 2}).hint("both").explain(), 72)
    users.drop_index("both")
    expect(sorted(users.index_information()), ["_id_", "city_1", "name_1"])
    index_options(database)
    users.drop_indexes()
    expect(sorted(users.index_information()), ["_id_"])


def index_options(database):
    """Options of an index that say nothing are read over, others refused by their names."""
    users = database.users
    expect(users.create_index("born", background=True, sparse=False, hidden=False, partialFilterExpression={}), "born_1")
    plain = {"v": 2, "ns": "indexed.users", "collation": {"locale": "simple"}}
    expect(database.command("createIndexes", "users", indexes=[{"key": {"age": 1}, "name": "age_1", **plain}])["numIndexesAfter"], 5)
    for name, value in (("sparse", True), ("hidden", True), ("partialFilterExpression", {"a": 1}), ("v", 3), ("collation", {"locale": "de"}),
                        ("expireAfterSeconds", 60)):
        fault = refused(OperationFailure, lambda: users.create_index("other", **{name: value}), 72)
        expect(f"'{name}'" in str(fault), True)
    command = lambda **options: database.command("createIndexes", "users", indexes=[{"key": {"o": 1}, "name": "o_1", **options}])
    refused(OperationFailure, lambda: command(comment="why"), 9)
    expect("o_1" in users.index_information() or "other_1" in users.index_information(), False)


def statement_fields(server):
    """Fields of a statement that say nothing are read over, others refused by their names, and then nothing is done."""
    database = server.client().statements
    database.c.insert_many([{"_id": n, "a": n} for n in range(4)])
    plain = {"hint": None, "arrayFilters": [], "collation": {"locale": "simple"}}
    update = lambda n, **more: {"q": {"_id": n}, "u": {"$set": {"b": n}}, **more}
    expect(database.command("update", "c", updates=[update(0, **plain), update(1, hint={})])["nModified"], 2)
    expect(database.command("delete", "c", deletes=[{"q": {"_id": 3}, "limit": 1, "hint": None, "collation": {"locale": "simple"}}])["n"], 1)
    for name, value in (("hint", "a_1"), ("hint", {"a": 1}), ("arrayFilters", [{"x": 1}]), ("collation", {"locale": "de"})):
        fault = refused(OperationFailure, lambda: database.command("update", "c", updates=[update(2), update(0, **{name: value})]), 72)
        expect(f"'{name}'" in str(fault), True)
    refused(OperationFailure, lambda: database.command("delete", "c", deletes=[{"q": {}, "limit": 0, "hint": "a_1"}]), 72)
    expect(database.command("update", "c", updates=[update(2, comment="why")])["writeErrors"][0]["code"], 9)
    expect(list(database.c.find()), [{"_id": 0, "a": 0, "b": 0}, {"_id": 1, "a": 1, "b": 1}, {"_id": 2, "a": 2}])


def collections(server):
    database = server.client().listed
    database.one.insert_one({"_id": 1})
    database.create_collection("two")
    expect(sorted(database.list_collection_names()), ["one", "two"])
    expect(database.list_collection_names(filter={"name": "two"}), ["two"])
    expect([c["type"] for c in database.list_collections()], ["collection", "collection"])
    database.one.drop()
    expect(database.list_collection_names(), ["two"])
    database.one.insert_one({"_id": 1})
    server.client().other.one.insert_one({"_id": 1})
    server.client().drop_database("listed")
    expect((database.list_collection_names(), server.client().other.list_collection_names()), ([], ["one"]))
    server.client().drop_database("listed")


def refusals(server):
    client = server.client()
    people = client.test.refused
    people.insert_one({"_id": 1})
    refused(DuplicateKeyError, lambda: people.insert_one({"_id": 1}), 11000)
    refused(OperationFailure, lambda: client.admin.command("frobnicate"), 59)
    refused(OperationFailure, lambda: people.find_one({"$frob": 1}), 52)
    refused(Exception, lambda: people.insert_one({"_id": 2, "weight": 1.5}))
    refused(Exception, lambda: people.insert_one({"_id": 2, "text": "x" * 70_000}))
    expect(people.count_documents({}), 1)
    with client.start_session() as session:
        session.start_transaction()
        refused(OperationFailure, lambda: people.insert_one({"_id": 3}, session=session), 20)
        session.abort_transaction()
    expect(people.count_documents({}), 1)


def directly_in_commands(client):
    """What an old shell sends around its work: whole doubles beside the commands' names, and how long they may take."""
    database = client.shell
    for name in ["ping", "hello", "isMaster", "ismaster", "buildInfo", "buildinfo"]:
        expect(database.command({name: 1.0, "forShell": 1.0} if name == "isMaster" else {name: 1.0})["ok"], 1)
    expect(database.command({"ping": 1.0, "maxTimeMS": 5000.0})["ok"], 1)
    one = {"insert": "one", "documents": [{"_id": 1}], "writeConcern": {"w": 1.0, "wtimeout": 5000.0}}
    expect(database.command(one)["n"], 1)
    expect(database.command({"find": "one", "limit": 5.0, "maxTimeMS": 5000.0})["cursor"]["firstBatch"], [{"_id": 1}])
    explained = {"explain": {"find": "one", "maxTimeMS": 5000.0}, "verbosity": "queryPlanner"}
    expect(database.command(explained)["queryPlanner"]["winningPlan"], {"stage": "SCAN"})
    listed = database.command("listCollections", 1.0, nameOnly=True, authorizedCollections=True)
    expect([entry["name"] for entry in listed["cursor"]["firstBatch"]], ["one"])
    for name in ["listDatabases", "serverStatus", "replSetGetStatus"]:
        refused(OperationFailure, lambda: database.command({name: 1.0, "forShell": 1.0}), 59)
    refused(OperationFailure, lambda: database.command({**one, "writeConcern": {"w": 2.0}}), 2)
    refused(OperationFailure, lambda: database.command({"findAndModify": "one", "update": {}, "new": 1.0}), 14)
    expect(database.command("dropDatabase", 1.0)["ok"], 1)
    expect(database.list_collection_names(), [])


def whole_doubles(server):
    """Numbers of the commands themselves that are doubles, as clients send them whose numbers all are."""
    client = server.client()
    database = client.test
    whole = database.whole
    whole.insert_many([{"_id": n, "half": n // 2, "name": str(n)} for n in range(20)])

    def batch(*command, **fields):
        cursor = database.command(*command, **fields)["cursor"]
        return cursor["id"], cursor.get("firstBatch", cursor.get("nextBatch"))

    def ids(*command, **fields):
        return [document["_id"] for document in batch(*command, **fields)[1]]

    late = SON([("half", -1.0), ("_id", 1.0)])
    cursor, first = batch("find", "whole", sort=late, skip=1.0, limit=3.0, batchSize=2.0, projection={"half": 0.0, "name": 0.0})
    expect(first, [{"_id": 19}, {"_id": 16}])
    expect(batch("getMore", cursor, collection="whole", batchSize=5.0), (0, [{"_id": 17}]))
    expect(ids("find", "whole", limit=-0.0, skip=17.0), [17, 18, 19])
    stages = [{"$sort": {"_id": -1.0}}, {"$skip": 2.0}, {"$limit": 1.0}, {"$project": {"half": 1.0, "_id": 0.0}}]
    expect(batch("aggregate", "whole", pipeline=stages, cursor={"batchSize": 10.0}), (0, [{"half": 8}]))
    expect(database.command("count", "whole", skip=5.0, limit=100.0)["n"], 15)
    keys = [{"key": SON([("half", -1.0), ("name", 1)]), "name": "late"}]
    database.command("createIndexes", "whole", indexes=keys)
    database.command("createIndexes", "whole", indexes=[{"key": SON([("half", -1), ("name", 1)]), "name": "late"}])
    expect(whole.index_information()["late"]["key"], [("half", -1), ("name", 1)])
    plan = database.command("explain", SON([("find", "whole"), ("filter", {"half": 3}), ("sort", {"name": 1.0}), ("limit", 2.0)]))
    expect(plan["queryPlanner"]["winningPlan"]["stage"].split()[:2], ["INDEX", "late"])
    expect(database.command("delete", "whole", deletes=[{"q": {}, "limit": 1.0}])["n"], 1)
    expect(database.command("findAndModify", "whole", sort={"_id": -1.0}, remove=True)["value"]["_id"], 19)
    directly_in_commands(client)
    expect(greeted(server, {"isMaster": 1.0})["ismaster"], True)
    expect(greeted(server, {"isMaster": 0.5})["code"], 22)
    # anything else that is a double is refused, and so is the command
    for place, command in [("limit", {"find": "whole", "limit": 1.5}), ("skip", {"find": "whole", "skip": float("inf")}),
                           ("batchSize", {"find": "whole", "limit": 1.0, "batchSize": float("nan")}),
                           ("limit", {"find": "whole", "limit": 2.0 ** 63}), ("filter.half", {"find": "whole", "filter": {"half": 1.0}, "limit": 1.0}),
                           ("projection.a.b", {"find": "whole", "projection": {"a": {"b": 1.0}}}), ("ping", {"ping": 0.5}),
                           ("maxTimeMS", {"ping": 1.0, "maxTimeMS": 0.5}), ("getMore", {"getMore": 1.0, "collection": "whole"}),
                           ("cursors.0", {"killCursors": "whole", "cursors": [1.0]}),
                           ("updates.0.u.$set.half", {"update": "whole", "updates": [{"q": {}, "u": {"$set": {"half": 1.0}}}]}),
                           ("documents.0.limit", {"insert": "whole", "documents": [{"_id": 100, "limit": 1.0}]}),
                           ("deletes.0.q.limit", {"delete": "whole", "deletes": [{"q": {"limit": 1.0}, "limit": 1.0}]}),
                           ("pipeline.0.$match.$limit", {"aggregate": "whole", "pipeline": [{"$match": {"$limit": 1.0}}], "cursor": {}})]:
        fault = refused(OperationFailure, lambda: database.command(command), 22)
        expect(fault.details["errmsg"], f"docpage has no BSON type double (at '{place}')")
    expect(refused(OperationFailure, lambda: ids("find", "whole", limit=-1.0)).code, refused(OperationFailure, lambda: ids("find", "whole", limit=-1)).code)
    expect(database.command("count", "whole")["n"], 18)


def unacknowledged(server):
    client = server.client()
    people = client.test.get_collection("unheard", write_concern=pymongo.WriteConcern(w=0))
    for n in range(20):
        people.insert_one({"_id": n})
    expect(client.admin.command("ping")["ok"], 1)
    expect(client.test.unheard.count_documents({}), 20)


def pool(server):
    """100 sockets of one client, all in use at the same time, and their cursors."""
    client = server.client(maxPoolSize=100, minPoolSize=100)
    written = client.test.pool
    start = threading.Barrier(100)

    def work(worker):
        for turn in range(10):
            start.wait(PATIENCE)
            written.insert_one({"_id": worker * 10 + turn, "worker": worker})
        found = written.find({"worker": worker}).batch_size(3)
        expect([d["_id"] for d in found], [worker * 10 + turn for turn in range(10)])

    faults = all_of([lambda worker=worker: work(worker) for worker in range(100)])
    expect(faults, [])
    expect(written.count_documents({}), 1000)
    client.close()


def clients(server):
    """200 clients of their own, each with three sockets or so."""
    many = [server.client() for _ in range(200)]
    faults = all_of([lambda n=n, client=client: client.test.each.insert_one({"_id": n}) for n, client in enumerate(many)])
    expect(faults, [])
    expect(many[0].test.each.count_documents({}), 200)
    for client in many:
        client.close()


def idle_sockets(server):
    """1,000 sockets that say nothing, or half a message, and one that sends what is no message, beside a client."""
    idle = [socket.create_connection(("127.0.0.1", server.port)) for _ in range(1_000)]
    for one in idle[::3]:
        one.sendall(b"\x40\0\0\0\1\0\0\0")
    client = server.client()
    client.test.idle.insert_one({"_id": 1})
    expect(client.test.idle.count_documents({}), 1)
    stranger = socket.create_connection(("127.0.0.1", server.port), timeout=PATIENCE)
    stranger.sendall(bytes.fromhex("160301020001000100030345"))
    stranger.sendall(b"x" * 16)
    expect(stranger.recv(10), b"")
    for one in idle:
        one.close()
    expect(client.test.idle.count_documents({}), 1)


def killed(server):
    """What was acknowledged before a kill is there after it."""
    server = Server("killed.docpage")
    acknowledged, is_over = [], threading.Event()

    def write(worker):
        client = server.client(retryWrites=False)
        for n in range(100_000):
            if is_over.is_set():
                return
            try:
                client.test.kept.insert_one({"_id": worker * 1_000_000 + n, "worker": worker})
            except pymongo.errors.PyMongoError:
                return
            acknowledged.append(worker * 1_000_000 + n)

    threads = [threading.Thread(target=write, args=(worker,)) for worker in range(8)]
    for thread in threads:
        thread.start()
    is_over.wait(2)
    server.kill()
    is_over.set()
    for thread in threads:
        thread.join(PATIENCE)
    server.start()
    there = {d["_id"] for d in server.client().test.kept.find({}, {"_id": 1})}
    expect(sorted(set(acknowledged) - there), [])
    if len(acknowledged) < 8 or len(there) > len(acknowledged) + 8:
        raise AssertionError(f"{len(acknowledged)} acknowledged, {len(there)} there")
    server.kill()


def sockets(server, of_unread=False):
    """How many sockets to a server are open, or how many of these have bytes that it has not read (/proc/net/tcp)."""
    with open("/proc/net/tcp") as table:
        rows = [row.split() for row in table][1:]
    here = [row for row in rows if row[1] == f"0100007F:{server.port:04X}" and row[3] == "01"]
    return len([row for row in here if not (of_unread and row[4].endswith(":00000000"))])


class Rounds:
    """A client's program that says `ready`, and does a round of its work for each line that it is sent before it says so again."""

    def __init__(self, words, patience):
        self.patience, self.said = patience, tempfile.TemporaryFile()
        self.process = subprocess.Popen(words, stdin=subprocess.PIPE, stdout=subprocess.PIPE, stderr=self.said)
        PROCESSES.append(self.process)

    def begin(self):
        self.process.stdin.write(b"round\n")
        self.process.stdin.flush()

    def ready(self):
        timer = threading.Timer(self.patience, self.process.kill)
        timer.start()
        line = self.process.stdout.readline()
        timer.cancel()
        if line != b"ready\n":
            self.said.seek(0)
            raise AssertionError(f"{line!r}, and not that it is ready\n{self.said.read().decode()}")

    def end(self):
        self.process.stdin.close()
        expect((self.process.wait(self.patience), self.process.stdout.read()), (0, b""))

    def __enter__(self):
        return self

    def __exit__(self, *_):
        self.process.kill()
        self.process.wait(PATIENCE)


class Driver:
    """Another driver, by a client's program of its own, which takes the port and the part that it is to do: where that driver is installed."""

    def __init__(self, language, probe, words, patience=PATIENCE, has_pool=True):
        self.language, self.words, self.patience, self.has_pool = language, words, patience, has_pool
        self.is_there = bool(shutil.which(probe[0])) and not subprocess.run(probe, stdin=subprocess.DEVNULL, capture_output=True).returncode

    def cases(self):
        for part, suffix in ((self.session, ""), (self.pool, "_pool"), (self.killed, "_killed")):
            case = lambda server, part=part: part(server)
            case.__name__ = self.language + suffix
            yield case

    def rounds(self, server, part):
        return Rounds(self.words + [str(server.port), part], self.patience)

    def expect_written(self, server, count):
        """The documents that the client's program wrote, each once and no other."""
        client = server.client()
        expect([d["_id"] for d in client[self.language].people.find().sort("_id")], list(range(count)))
        client.close()

    def session(self, server):
        ran = subprocess.run(self.words + [str(server.port), "session"], stdin=subprocess.DEVNULL, capture_output=True, text=True,
                             timeout=self.patience)
        if ran.returncode:
            raise AssertionError(ran.stdout + ran.stderr)

    def pool(self, _):
        """A hundred sockets of one program. While the server is stopped, each of the hundred has a message that waits for it: in the
        first round those that open most of the sockets, then those of the driver's user. Drivers without a pool ask by one after the other."""
        server = Server(f"{self.language}_pool.docpage")
        with self.rounds(server, "pool") as rounds:
            for _ in range(2):
                rounds.ready()
                if self.has_pool:
                    server.process.send_signal(signal.SIGSTOP)
                try:
                    rounds.begin()
                    self.wait_for_100(server)
                finally:
                    server.process.send_signal(signal.SIGCONT)
            rounds.ready()
            if not self.has_pool:
                expect(sockets(server), 100)
            rounds.end()
        self.expect_written(server, 200)
        server.kill()

    def wait_for_100(self, server):
        end = time.monotonic() + self.patience
        while self.has_pool and sockets(server, of_unread=True) != 100:
            if time.monotonic() > end:
                raise AssertionError(f"{sockets(server, of_unread=True)} of {sockets(server)} sockets wait for an answer, and not 100")
            time.sleep(0.01)

    def killed(self, _):
        """The server is killed once a write is acknowledged, and another one opens the file: the same client goes on by itself."""
        server = Server(f"{self.language}_killed.docpage")
        with self.rounds(server, "killed") as rounds:
            rounds.ready()
            for _ in range(3):
                rounds.begin()
                rounds.ready()
                server.kill()
                server.start(server.port)
            rounds.end()
        self.expect_written(server, 30)
        server.kill()


HERE = os.path.dirname(os.path.abspath(__file__))
COMPILE = f"cc -pthread -o {FOLDER}/session {HERE}/drivers.c $(pkg-config --cflags --libs libmongoc-1.0)"
NODE = ["env", "NODE_PATH=/usr/share/nodejs", "nodejs"]
GO = ["env", "GO111MODULE=off", "GOPATH=/usr/share/gocode", "go"]
RUN_GO = ["sh", "-c", f"{' '.join(GO)} build -o {FOLDER}/session.go {HERE}/drivers.go && exec {FOLDER}/session.go \"$@\"", "go"]
OTHERS = [Driver("ruby", ["ruby", "-rmongo", "-e", "1"], ["ruby", f"{HERE}/drivers.rb"]),
          Driver("perl", ["perl", "-MMongoDB", "-e", "1"], ["perl", f"{HERE}/drivers.pl"], has_pool=False),
          Driver("node", NODE + ["-e", "require('mongodb')"], NODE + [f"{HERE}/drivers.js"]),
          Driver("c", ["sh", "-c", COMPILE], [f"{FOLDER}/session"]),
          Driver("php", ["php", "-r", "exit(extension_loaded('mongodb') ? 0 : 1);"], ["php", f"{HERE}/drivers.php"], has_pool=False),
          # it is compiled first, and at the first time the driver too, which takes twenty seconds
          Driver("go", GO + ["list", "go.mongodb.org/mongo-driver/mongo"], RUN_GO, 2 * PATIENCE)]

CASES = [handshake, inserts, raw_inserts, finds, cursors, abandoned_cursors, updates, statement_fields, batches, upserts, modifications, deletes, counts, distincts, indexes,
         collections, refusals, whole_doubles, unacknowledged, pool, clients, idle_sockets, killed]


def main():
    for other in OTHERS:
        if not other.is_there:
            print(f"{other.language}: its driver is not there, so it was not tried", flush=True)
    chosen = [case for case in CASES + [case for other in OTHERS if other.is_there for case in other.cases()]
              if not sys.argv[2:] or case.__name__ in sys.argv[2:]]
    passed = []

    def end(*_):
        for process in PROCESSES:
            process.kill()
        print(f"{len(passed)} passed, {len(chosen) - len(passed)} failed", flush=True)
        shutil.rmtree(FOLDER, ignore_errors=True)
        os._exit(0 if len(passed) == len(chosen) else 1)

    most = resource.getrlimit(resource.RLIMIT_NOFILE)[1]
    resource.setrlimit(resource.RLIMIT_NOFILE, (most if most < 4_096 else 4_096, most))  # the server's too, which inherits it
    signal.signal(signal.SIGALRM, end)
    server = Server("main.docpage")
    for case in chosen:
        try:
            case(server)
            passed.append(case)
            print(f"{case.__name__}: passed", flush=True)
        except Exception:
            print(f"{case.__name__}: FAILED\n{traceback.format_exc()}", flush=True)
    end()


main()
