# A client of MongoDB's driver for Ruby. Use: ruby drivers.rb PORT session|pool|killed     It ends with 0 only if all answers are as expected.
# `pool` and `killed` say `ready`, and do a round of their work for each line that they read (class Rounds in drivers.py).
require "mongo"
Mongo::Logger.logger.level = ::Logger::FATAL

def expect(answer, wanted)
  raise "#{answer.inspect}, and not #{wanted.inspect}" unless answer == wanted
end

def session(people)
  expect(people.insert_one(_id: 1, name: "Ada").n, 1)
  begin
    people.insert_one(_id: 1)
    raise "a duplicate was taken"
  rescue Mongo::Error => fault
    expect([fault.class, fault.message[/E11000 duplicate key error.*\(11000\)/].nil?], [Mongo::Error::OperationFailure, false])
  end
  people.insert_many((2..300).map { |n| { _id: n, half: n / 2 } })
  expect(people.find(half: { "$gte" => 149 }).sort(_id: -1).map { |d| d["_id"] }, [300, 299, 298])
  expect(people.find({ half: { "$gte" => 149 } }, projection: { half: 0.0 }).sort(_id: -1.0).to_a, [{ "_id" => 300 }, { "_id" => 299 }, { "_id" => 298 }])
  expect(people.find.batch_size(7).map { |d| d["_id"] }, (1..300).to_a)
  early = people.find.batch_size(2).to_enum
  early.next
  begin
    people.insert_many([{ _id: 301 }, { _id: 1 }, { _id: 302 }], ordered: false)
    raise "a duplicate was taken"
  rescue Mongo::Error::BulkWriteError => fault
    expect(fault.result["writeErrors"].map { |error| [error["index"], error["code"]] }, [[1, 11000]])
    expect(fault.result["n_inserted"], 2)
  end
  begin
    people.insert_many([{ _id: 303 }, { _id: 1 }, { _id: 304 }])
    raise "a duplicate was taken"
  rescue Mongo::Error::BulkWriteError => fault
    expect(fault.result["writeErrors"].map { |error| [error["index"], error["code"]] }, [[1, 11000]])
    expect(fault.result["n_inserted"], 1)
  end
  expect(people.delete_one(_id: 303).deleted_count, 1)
  expect(people.update_one({ name: "Ada" }, { "$set" => { born: 1815 } }).modified_count, 1)
  made = people.update_one({ name: "Grace" }, { "$set" => { born: 1906 } }, upsert: true).upserted_id
  expect(made.class, BSON::ObjectId)
  expect(people.find(name: "Grace").first["_id"], made)
  expect(people.find_one_and_update({ name: "Ada" }, { "$inc" => { born: 1 } }, return_document: :after)["born"], 1816)
  expect(people.find_one_and_delete(_id: 302)["_id"], 302)
  people.indexes.create_one({ half: 1 })
  expect(people.indexes.map { |index| [index["name"], index["v"], index["unique"]] }, [["_id_", 2, nil], ["half_1", 2, nil]])
  listed = people.database.command(listCollections: 1).documents.first["cursor"]["firstBatch"]
  expect(listed.map { |collection| collection["name"] }, ["people"])
  begin
    people.database.collection_names
    raise "a regular expression was taken"
  rescue Mongo::Error::OperationFailure => fault
    expect(fault.message.include?("docpage has no BSON type regex (at 'filter.name.$not')"), true)
  end
  expect(people.aggregate([{ "$group" => { _id: nil, most: { "$max" => "$half" } } }]).first["most"], 150)
  expect(people.distinct(:half, _id: { "$gte" => 297 }), [148, 149, 150])
  expect(people.delete_many(half: { "$lt" => 100 }).deleted_count, 198)
end

# Numbers of rounds, one for each line.
def rounds
  (0..).each do |round|
    puts "ready"
    $stdout.flush
    return unless $stdin.gets
    yield round
  end
end

# Each of a hundred threads writes a document and finds it, by a pool of a hundred sockets.
def pool(people)
  people.database.command(ping: 1)
  rounds do |round|
    threads = (100 * round...100 * round + 100).map do |n|
      Thread.new do
        people.insert_one(_id: n)
        expect(people.find(_id: n).to_a, [{ "_id" => n }])
      end
    end
    threads.each(&:join)
  end
end

# What was written in the rounds before is found by the same client, whose driver asks anew where the socket has ended; and more is written.
def killed(people)
  rounds do |round|
    expect(people.find.sort(_id: 1).batch_size(7).map { |d| d["_id"] }, (0...10 * round).to_a)
    expect(people.insert_many((10 * round...10 * round + 10).map { |n| { _id: n } }).inserted_count, 10)
  end
end

client = Mongo::Client.new(["127.0.0.1:#{ARGV[0]}"], database: "ruby", server_selection_timeout: 5, max_pool_size: 100, wait_queue_timeout: 20,
                           heartbeat_frequency: 60)
send(ARGV[1], client[:people])
client.close
