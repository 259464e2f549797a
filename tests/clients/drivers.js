// A client of MongoDB's driver for Node. Use: nodejs drivers.js PORT session|pool|killed     It ends with 0 only if all answers are as expected.
// `pool` and `killed` say `ready`, and do a round of their work for each line that they read (class Rounds in drivers.py).
const { MongoClient, MongoError, MongoBulkWriteError, ObjectId } = require("mongodb");
const assert = require("assert");
const readline = require("readline");

async function session(people, db) {
  assert.strictEqual((await people.insertOne({ _id: 1, name: "Ada" })).insertedCount, 1);
  const again = await people.insertOne({ _id: 1 }).catch((fault) => fault);
  assert.deepStrictEqual([again.constructor, again.code], [MongoError, 11000]);
  const numbers = [...Array(300).keys()].map((n) => n + 1);
  await people.insertMany(numbers.slice(1).map((n) => ({ _id: n, half: Math.floor(n / 2) })));
  const late = await people.find({ half: { $gte: 149 } }).sort({ _id: -1 }).toArray();
  assert.deepStrictEqual(late.map((d) => d._id), [300, 299, 298]);
  assert.deepStrictEqual((await people.find().batchSize(7).toArray()).map((d) => d._id), numbers);
  const fault = await people.insertMany([{ _id: 301 }, { _id: 1 }, { _id: 302 }], { ordered: false }).catch((fault) => fault);
  assert.deepStrictEqual([fault.constructor, fault.code, fault.result.nInserted], [MongoBulkWriteError, 11000, 2]);
  const first = await people.insertMany([{ _id: 303 }, { _id: 1 }, { _id: 304 }]).catch((fault) => fault);
  assert.deepStrictEqual([first.constructor, first.code, first.result.nInserted], [MongoBulkWriteError, 11000, 1]);
  assert.strictEqual((await people.deleteOne({ _id: 303 })).deletedCount, 1);
  assert.strictEqual((await people.updateOne({ name: "Ada" }, { $set: { born: 1815 } })).modifiedCount, 1);
  const made = (await people.updateOne({ name: "Grace" }, { $set: { born: 1906 } }, { upsert: true })).upsertedId._id;
  assert(made instanceof ObjectId);
  assert((await people.findOne({ name: "Grace" }))._id.equals(made));
  const told = await people.findOneAndUpdate({ name: "Ada" }, { $inc: { born: 1 } }, { returnOriginal: false, sort: { _id: 1 } });
  assert.deepStrictEqual([told.value.born, told.lastErrorObject.updatedExisting], [1816, true]);
  assert.strictEqual((await people.findOneAndDelete({ _id: 302 })).value._id, 302);
  await people.createIndex({ half: 1 });
  assert.deepStrictEqual((await people.indexes()).map((index) => [index.name, index.v]), [["_id_", 2], ["half_1", 2]]);
  const groups = await people.aggregate([{ $group: { _id: null, most: { $max: "$half" } } }]).toArray();
  assert.deepStrictEqual(groups, [{ _id: null, most: 150 }]);
  assert.deepStrictEqual(await people.distinct("half", { _id: { $gte: 297 } }), [148, 149, 150]);
  assert.strictEqual((await people.deleteMany({ half: { $lt: 100 } })).deletedCount, 198);
  assert.deepStrictEqual((await db.listCollections().toArray()).map((c) => c.name), ["people"]);
}

// The numbers from one up to another, without that.
function from(one, end) {
  return [...Array(end - one).keys()].map((n) => one + n);
}

async function rounds(work) {
  let round = 0;
  process.stdout.write("ready\n");
  for await (const _ of readline.createInterface({ input: process.stdin })) {
    await work(round);
    process.stdout.write("ready\n");
    round += 1;
  }
}

// A hundred documents are written at once and each is found, by a pool of a hundred sockets.
async function pool(people, db) {
  async function write(n) {
    await people.insertOne({ _id: n });
    assert.deepStrictEqual(await people.find({ _id: n }).toArray(), [{ _id: n }]);
  }
  await db.command({ ping: 1 });
  await rounds((round) => Promise.all(from(100 * round, 100 * round + 100).map(write)));
}

// What was written in the rounds before is found by the same client, whose driver opens another socket where one has ended; and more is written.
async function killed(people) {
  await rounds(async (round) => {
    const found = await people.find().sort({ _id: 1 }).batchSize(7).toArray();
    assert.deepStrictEqual(found.map((d) => d._id), from(0, 10 * round));
    const written = from(10 * round, 10 * round + 10).map((n) => ({ _id: n }));
    assert.strictEqual((await people.insertMany(written)).insertedCount, 10);
  });
}

async function main() {
  const [port, part] = process.argv.slice(2);
  const options = { useUnifiedTopology: true, serverSelectionTimeoutMS: 5000, poolSize: 100, heartbeatFrequencyMS: 60000 };
  const client = new MongoClient(`mongodb://127.0.0.1:${port}`, options);
  await client.connect();
  await { session, pool, killed }[part](client.db("node").collection("people"), client.db("node"));
  await client.close();
}

main().catch((fault) => {
  console.error(fault);
  process.exit(1);
});
