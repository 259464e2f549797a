<?php
// A client of MongoDB's driver for PHP (the extension). Use: php drivers.php PORT session|pool|killed     It ends with 0 only if all answers are as
// expected. `pool` and `killed` say `ready`, and do a round of their work for each line that they read (class Rounds in drivers.py).
use MongoDB\BSON\ObjectId;
use MongoDB\Driver\Exception\{BulkWriteException, CommandException};
use MongoDB\Driver\{BulkWrite, Command, Manager, Query, WriteResult};

function expect($answer, $wanted): void
{
    if ($answer !== $wanted) {
        throw new Exception(var_export($answer, true) . ", and not " . var_export($wanted, true));
    }
}

/** What a call is refused with. */
function refused(string $kind, callable $call): Exception
{
    try {
        $call();
    } catch (Exception $fault) {
        expect(get_class($fault), $kind);
        return $fault;
    }
    throw new Exception("it was taken, and not refused as a $kind");
}

/** The documents that a find gives. */
function found(Manager $client, array $filter, array $options = []): array
{
    return $client->executeQuery("php.people", new Query($filter, $options))->toArray();
}

/** The one document that a command answers, or those of its cursor. */
function asked(Manager $client, array $command): array
{
    return $client->executeCommand("php", new Command($command))->toArray();
}

/** What these writes do, each the name of a method of BulkWrite and its arguments. */
function written(Manager $client, array $writes, array $options = []): WriteResult
{
    $bulk = new BulkWrite($options);
    foreach ($writes as [$kind, $arguments]) {
        $bulk->$kind(...$arguments);
    }
    return $client->executeBulkWrite("php.people", $bulk);
}

/** Inserts of documents that have this as their `_id`. */
function inserts(int ...$ids): array
{
    return array_map(fn($id) => ["insert", [["_id" => $id]]], $ids);
}

/** How many documents a batch inserts one of which is a duplicate, at this place. */
function inserted_but_one(Manager $client, array $writes, array $options, int $index): int
{
    $fault = refused(BulkWriteException::class, fn() => written($client, $writes, $options));
    expect($fault->getCode(), 11000);
    $errors = $fault->getWriteResult()->getWriteErrors();
    expect(array_map(fn($error) => [$error->getIndex(), $error->getCode()], $errors), [[$index, 11000]]);
    return $fault->getWriteResult()->getInsertedCount();
}

function writes_and_finds(Manager $client): void
{
    expect((int) asked($client, ["ping" => 1])[0]->ok, 1);
    expect(written($client, [["insert", [["_id" => 1, "name" => "Ada"]]]])->getInsertedCount(), 1);
    $people = array_map(fn($n) => ["insert", [["_id" => $n, "half" => intdiv($n, 2)]]], range(2, 300));
    expect(written($client, $people)->getInsertedCount(), 299);
    $late = found($client, ["half" => ['$gte' => 149]], ["sort" => ["_id" => -1]]);
    expect(array_column($late, "_id"), [300, 299, 298]);
    expect(array_column(found($client, [], ["batchSize" => 7]), "_id"), range(1, 300));
    $late = ["sort" => ["half" => -1.0, "_id" => 1.0], "projection" => ["half" => 1.0, "_id" => 0.0], "skip" => 1, "limit" => 2];
    expect(array_column(found($client, [], $late), "half"), [149, 149]);
    expect(array_column(asked($client, ["find" => "people", "skip" => 297.0, "limit" => 2.0, "batchSize" => 5.0]), "_id"), [298, 299]);
    $early = $client->executeQuery("php.people", new Query([], ["batchSize" => 2]));
    $early->rewind();
    expect([$early->current()->_id, $early->isDead()], [1, false]);
}

function duplicates(Manager $client): void
{
    expect(inserted_but_one($client, inserts(1), [], 0), 0);
    expect(inserted_but_one($client, inserts(301, 1, 302), ["ordered" => false], 1), 2);
    expect(inserted_but_one($client, inserts(303, 1, 304), [], 1), 1);
    expect(written($client, [["delete", [["_id" => 303], ["limit" => 1]]]])->getDeletedCount(), 1);
}

function changes(Manager $client): void
{
    $upsert = [["name" => "Grace"], ['$set' => ["born" => 1906]], ["upsert" => true]];
    $done = written($client, [["update", [["name" => "Ada"], ['$set' => ["born" => 1815]]]], ["update", $upsert],
                              ["insert", [["_id" => 400]]], ["delete", [["_id" => 400]]]]);
    expect([$done->getInsertedCount(), $done->getMatchedCount(), $done->getModifiedCount(), $done->getUpsertedCount(), $done->getDeletedCount()],
           [1, 1, 1, 1, 1]);
    $made = $done->getUpsertedIds()[1];
    expect(get_class($made), ObjectId::class);
    expect((string) found($client, ["name" => "Grace"])[0]->_id, (string) $made);
    expect(written($client, [["update", $upsert]])->getUpsertedCount(), 0);
    $raised = ["findAndModify" => "people", "query" => ["name" => "Ada"], "update" => ['$inc' => ["born" => 1]], "new" => true];
    expect(asked($client, $raised)[0]->value->born, 1816);
    expect(asked($client, ["findAndModify" => "people", "query" => ["_id" => 302], "remove" => true])[0]->value->_id, 302);
}

function indexes(Manager $client): void
{
    asked($client, ["createIndexes" => "people", "indexes" => [["key" => ["half" => 1], "name" => "half_1"],
                                                             ["key" => ["half" => 1, "_id" => -1], "name" => "both", "unique" => true]]]);
    $told = array_map(fn($index) => [$index->name, (array) $index->key, $index->v, $index->unique ?? null],
                      asked($client, ["listIndexes" => "people"]));
    expect($told, [["_id_", ["_id" => 1], 2, null], ["half_1", ["half" => 1], 2, null], ["both", ["half" => 1, "_id" => -1], 2, true]]);
    expect(array_column(found($client, ["half" => 149], ["sort" => ["_id" => 1]]), "_id"), [298, 299]);
    asked($client, ["dropIndexes" => "people", "index" => "both"]);
    expect(array_column(asked($client, ["listIndexes" => "people"]), "name"), ["_id_", "half_1"]);
}

function aggregates(Manager $client): void
{
    $most = ['$group' => ["_id" => null, "most" => ['$max' => '$half']]];
    $groups = asked($client, ["aggregate" => "people", "pipeline" => [$most], "cursor" => new stdClass()]);
    expect(array_map(fn($group) => (array) $group, $groups), [["_id" => null, "most" => 150]]);
    $half = [['$match' => ["half" => ['$gte' => 0]]], ['$sort' => ["_id" => -1]]];
    expect(array_column(asked($client, ["aggregate" => "people", "pipeline" => $half, "cursor" => ["batchSize" => 7]]), "_id"), range(300, 2));
    expect(asked($client, ["distinct" => "people", "key" => "half", "query" => ["_id" => ['$gte' => 297]]])[0]->values, [148, 149, 150]);
    expect(asked($client, ["count" => "people", "query" => ["half" => ['$lt' => 100]]])[0]->n, 198);
}

function ends(Manager $client): void
{
    expect(written($client, [["delete", [["half" => ['$lt' => 100]]]]])->getDeletedCount(), 198);
    expect(array_column(asked($client, ["listCollections" => 1]), "name"), ["people"]);
    expect(refused(CommandException::class, fn() => asked($client, ["frobnicate" => 1]))->getCode(), 59);
    asked($client, ["drop" => "people"]);
    expect(found($client, []), []);
}

function connected(): Manager
{
    global $argv;
    // those that are made alike share one client of the C driver, but for this option
    return new Manager("mongodb://127.0.0.1:$argv[1]", ["serverSelectionTimeoutMS" => 5000], ["disableClientPersistence" => true]);
}

function session(): void
{
    $client = connected();
    foreach (["writes_and_finds", "duplicates", "changes", "indexes", "aggregates", "ends"] as $part) {
        $part($client);
    }
}

/** Does the work of each round, which a line begins, with the round's number. */
function rounds(callable $work): void
{
    echo "ready\n";
    for ($round = 0; fgets(STDIN) !== false; $round++) {
        $work($round);
        echo "ready\n";
    }
}

/** This driver has no pool, a client has one socket: a hundred clients each write a document and find it, one after the other. */
function pool(): void
{
    $all = array_map(fn() => connected(), range(0, 99));
    rounds(function ($round) use ($all) {
        foreach ($all as $i => $client) {
            expect(written($client, inserts(100 * $round + $i))->getInsertedCount(), 1);
            expect(array_column(found($client, ["_id" => 100 * $round + $i]), "_id"), [100 * $round + $i]);
        }
    });
}

/** What was written in the rounds before is found by the same client, whose driver asks anew where the socket has ended; and more is written. */
function killed(): void
{
    $client = connected();
    rounds(function ($round) use ($client) {
        $numbers = array_column(found($client, [], ["sort" => ["_id" => 1], "batchSize" => 7]), "_id");
        expect($numbers, $round ? range(0, 10 * $round - 1) : []);
        expect(written($client, inserts(...range(10 * $round, 10 * $round + 9)))->getInsertedCount(), 10);
    });
}

["session" => session(...), "pool" => pool(...), "killed" => killed(...)][$argv[2]]();
