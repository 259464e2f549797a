// A client of MongoDB's driver for Go. Use: GO111MODULE=off GOPATH=/usr/share/gocode go run drivers.go PORT session|pool|killed
// It ends with 0 only if all answers are as expected. `pool` and `killed` say `ready`, and do a round of their work for each line that they read
// (class Rounds in drivers.py).
package main

import (
	"bufio"
	"context"
	"errors"
	"fmt"
	"log"
	"os"
	"reflect"
	"sync"
	"time"

	"go.mongodb.org/mongo-driver/bson"
	"go.mongodb.org/mongo-driver/bson/primitive"
	"go.mongodb.org/mongo-driver/mongo"
	"go.mongodb.org/mongo-driver/mongo/options"
)

var ctx, _ = context.WithTimeout(context.Background(), 40*time.Second)

func expect(answer, wanted any) {
	if !reflect.DeepEqual(answer, wanted) {
		log.Panicf("%#v, and not %#v", answer, wanted)
	}
}

// done is what a call answers that isn't to fail.
func done[T any](answer T, fault error) T {
	if fault != nil {
		log.Panic(fault)
	}
	return answer
}

// refused is a call's fault, of the kind that is wanted.
func refused[T error](fault error) (refusal T) {
	if !errors.As(fault, &refusal) {
		log.Panicf("%#v, and not a %T", fault, refusal)
	}
	return refusal
}

// all is what a cursor gives.
func all[T any](cursor *mongo.Cursor, fault error) (found []T) {
	if fault = done(cursor, fault).All(ctx, &found); fault != nil {
		log.Panic(fault)
	}
	return found
}

type numbered struct {
	ID int `bson:"_id"`
}

// ids are the numbers of a cursor's documents.
func ids(cursor *mongo.Cursor, fault error) (ids []int) {
	for _, document := range all[numbered](cursor, fault) {
		ids = append(ids, document.ID)
	}
	return ids
}

// from are the numbers from one to the last.
func from(one, last int) (numbers []int) {
	for n := one; n <= last; n++ {
		numbers = append(numbers, n)
	}
	return numbers
}

func writesAndFinds(people *mongo.Collection) {
	expect(done(people.InsertOne(ctx, bson.M{"_id": 1, "name": "Ada"})).InsertedID, int32(1))
	var many []any
	for _, n := range from(2, 300) {
		many = append(many, bson.M{"_id": n, "half": n / 2})
	}
	expect(len(done(people.InsertMany(ctx, many)).InsertedIDs), 299)
	late := bson.M{"half": bson.M{"$gte": 149}}
	expect(ids(people.Find(ctx, late, options.Find().SetSort(bson.M{"_id": -1}))), []int{300, 299, 298})
	expect(ids(people.Find(ctx, bson.M{}, options.Find().SetBatchSize(7))), from(1, 300))
	early := done(people.Find(ctx, bson.M{}, options.Find().SetBatchSize(2)))
	expect([]any{early.Next(ctx), early.ID() != 0, early.Close(ctx)}, []any{true, true, nil})
	expect(people.FindOne(ctx, bson.M{"_id": 999}).Err(), mongo.ErrNoDocuments)
}

func duplicates(people *mongo.Collection) {
	_, fault := people.InsertOne(ctx, bson.M{"_id": 1})
	expect(refused[mongo.WriteException](fault).WriteErrors[0].Code, 11000)
	expect(mongo.IsDuplicateKeyError(fault), true)
	for _, ordered := range []bool{false, true} {
		some := []any{bson.M{"_id": 301}, bson.M{"_id": 1}, bson.M{"_id": 302}}
		_, fault = people.InsertMany(ctx, some, options.InsertMany().SetOrdered(ordered))
		errors := refused[mongo.BulkWriteException](fault).WriteErrors
		expect([]int{len(errors), errors[0].Index, errors[0].Code}, []int{1, 1, 11000})
		there := map[bool][]int{false: {301, 302}, true: {301}}[ordered]
		expect(ids(people.Find(ctx, bson.M{"_id": bson.M{"$gt": 300}})), there)
		expect(done(people.DeleteMany(ctx, bson.M{"_id": bson.M{"$gt": 300}})).DeletedCount, int64(len(there)))
	}
}

// mixed are writes of all kinds, of which the third is a duplicate.
func mixed() []mongo.WriteModel {
	return []mongo.WriteModel{
		mongo.NewInsertOneModel().SetDocument(bson.M{"_id": 401}),
		mongo.NewUpdateOneModel().SetFilter(bson.M{"_id": 401}).SetUpdate(bson.M{"$set": bson.M{"half": 200}}),
		mongo.NewInsertOneModel().SetDocument(bson.M{"_id": 1}),
		mongo.NewReplaceOneModel().SetFilter(bson.M{"_id": 402}).SetReplacement(bson.M{"half": 201}).SetUpsert(true),
		mongo.NewDeleteManyModel().SetFilter(bson.M{"_id": bson.M{"$gt": 400}}),
	}
}

func bulks(people *mongo.Collection) {
	told, fault := people.BulkWrite(ctx, mixed())
	expect(refused[mongo.BulkWriteException](fault).WriteErrors[0].Index, 2)
	expect(*told, mongo.BulkWriteResult{InsertedCount: 1, MatchedCount: 1, ModifiedCount: 1, UpsertedIDs: map[int64]any{}})
	expect(done(people.DeleteOne(ctx, bson.M{"_id": 401})).DeletedCount, int64(1))
	told, fault = people.BulkWrite(ctx, mixed(), options.BulkWrite().SetOrdered(false))
	expect(refused[mongo.BulkWriteException](fault).WriteErrors[0].Code, 11000)
	expect([]int64{told.InsertedCount, told.MatchedCount, told.UpsertedCount, told.DeletedCount}, []int64{1, 1, 1, 2})
}

func changes(people *mongo.Collection) {
	ada, grace := bson.M{"name": "Ada"}, bson.M{"name": "Grace"}
	expect(done(people.UpdateOne(ctx, ada, bson.M{"$set": bson.M{"born": 1815}})).ModifiedCount, int64(1))
	upsert := options.Update().SetUpsert(true)
	made := done(people.UpdateOne(ctx, grace, bson.M{"$set": bson.M{"born": 1906}}, upsert)).UpsertedID
	expect(all[bson.M](people.Find(ctx, grace)), []bson.M{{"_id": made.(primitive.ObjectID), "name": "Grace", "born": int32(1906)}})
	var told bson.M
	after := options.FindOneAndUpdate().SetReturnDocument(options.After)
	fault := people.FindOneAndUpdate(ctx, ada, bson.M{"$inc": bson.M{"born": 1}}, after).Decode(&told)
	expect([]any{fault, told["born"]}, []any{nil, int32(1816)})
	var gone numbered
	done(people.InsertOne(ctx, numbered{303}))
	expect([]any{people.FindOneAndDelete(ctx, numbered{303}).Decode(&gone), gone.ID}, []any{nil, 303})
	expect(people.FindOneAndDelete(ctx, numbered{303}).Err(), mongo.ErrNoDocuments)
}

func indexes(people *mongo.Collection) {
	both := mongo.IndexModel{Keys: bson.D{{Key: "half", Value: 1}, {Key: "_id", Value: -1}}, Options: options.Index().SetUnique(true)}
	names := done(people.Indexes().CreateMany(ctx, []mongo.IndexModel{{Keys: bson.D{{Key: "half", Value: 1}}}, both}))
	expect(names, []string{"half_1", "half_1__id_-1"})
	var told []any
	for _, index := range done(people.Indexes().ListSpecifications(ctx)) {
		told = append(told, index.Name, index.Version, index.Unique != nil && *index.Unique)
	}
	expect(told, []any{"_id_", int32(2), false, "half_1", int32(2), false, "half_1__id_-1", int32(2), true})
	expect(ids(people.Find(ctx, bson.M{"half": 149}, options.Find().SetSort(bson.M{"_id": -1}))), []int{299, 298})
	done(people.Indexes().DropOne(ctx, "half_1__id_-1"))
	expect(len(done(people.Indexes().ListSpecifications(ctx))), 2)
}

func aggregates(people *mongo.Collection) {
	most := mongo.Pipeline{{{Key: "$group", Value: bson.M{"_id": nil, "most": bson.M{"$max": "$half"}}}}}
	expect(all[bson.M](people.Aggregate(ctx, most)), []bson.M{{"_id": nil, "most": int32(150)}})
	some := mongo.Pipeline{{{Key: "$match", Value: bson.M{"half": bson.M{"$gte": 0}}}}}
	expect(ids(people.Aggregate(ctx, some, options.Aggregate().SetBatchSize(7))), from(2, 300))
	expect(done(people.Distinct(ctx, "half", bson.M{"_id": bson.M{"$gte": 297}})), []any{int32(148), int32(149), int32(150)})
	expect(done(people.CountDocuments(ctx, bson.M{"half": bson.M{"$lt": 100}})), int64(198))
	expect(done(people.EstimatedDocumentCount(ctx)), int64(301))
}

func ends(people *mongo.Collection) {
	expect(done(people.DeleteMany(ctx, bson.M{"half": bson.M{"$lt": 100}})).DeletedCount, int64(198))
	expect(done(people.Database().ListCollectionNames(ctx, bson.M{})), []string{"people"})
	fault := people.Database().RunCommand(ctx, bson.M{"frobnicate": 1}).Err()
	expect(refused[mongo.CommandError](fault).Code, int32(59))
	expect(people.Drop(ctx), nil)
	expect(done(people.CountDocuments(ctx, bson.M{})), int64(0))
}

func session(people *mongo.Collection) {
	for _, part := range []func(*mongo.Collection){writesAndFinds, duplicates, bulks, changes, indexes, aggregates, ends} {
		part(people)
	}
}

// rounds does the work of each round, which a line begins, with the round's number.
func rounds(work func(round int)) {
	fmt.Println("ready")
	lines := bufio.NewScanner(os.Stdin)
	for round := 0; lines.Scan(); round++ {
		work(round)
		fmt.Println("ready")
	}
}

// pool has each of a hundred goroutines write a document and find it, by a pool of a hundred sockets.
func pool(people *mongo.Collection) {
	rounds(func(round int) {
		var all sync.WaitGroup
		for _, n := range from(100*round, 100*round+99) {
			all.Add(1)
			go func(n int) {
				done(people.InsertOne(ctx, numbered{n}))
				expect(ids(people.Find(ctx, numbered{n})), []int{n})
				all.Done()
			}(n)
		}
		all.Wait()
	})
}

// killed finds what was written in the rounds before, by the same client, whose driver asks anew where the socket has ended; and writes more.
func killed(people *mongo.Collection) {
	rounds(func(round int) {
		expect(ids(people.Find(ctx, bson.M{}, options.Find().SetSort(bson.M{"_id": 1}).SetBatchSize(7))), from(0, 10*round-1))
		var more []any
		for _, n := range from(10*round, 10*round+9) {
			more = append(more, numbered{n})
		}
		expect(len(done(people.InsertMany(ctx, more)).InsertedIDs), 10)
	})
}

func main() {
	address := options.Client().ApplyURI("mongodb://127.0.0.1:" + os.Args[1]).SetServerSelectionTimeout(5 * time.Second)
	// by itself it opens two sockets at a time
	address.SetMaxPoolSize(100).SetMaxConnecting(100).SetHeartbeatInterval(time.Minute)
	client := done(mongo.Connect(ctx, address))
	expect(client.Ping(ctx, nil), nil)
	parts := map[string]func(*mongo.Collection){"session": session, "pool": pool, "killed": killed}
	parts[os.Args[2]](client.Database("go").Collection("people"))
	expect(client.Disconnect(ctx), nil)
}
