/* A client of MongoDB's driver for C. Use: drivers PORT session|pool|killed     It ends with 0 only if all answers are as expected.
   `pool` and `killed` say `ready`, and do a round of their work for each line that they read (class Rounds in drivers.py). */
#include <mongoc/mongoc.h>
#include <pthread.h>
#include <stdio.h>
#include <stdlib.h>

static void expect(bool holds, const char *what)
{
    if (!holds) {
        fprintf(stderr, "%s\n", what);
        exit(1);
    }
}

/* The number at a path of a reply. */
static int64_t number_at(const bson_t *reply, const char *path)
{
    bson_iter_t start, found;
    expect(bson_iter_init(&start, reply) && bson_iter_find_descendant(&start, path, &found), path);
    return bson_iter_as_int64(&found);
}

/* Whether this is the refusal of a duplicate: a fault that the server tells, by its number (mongoc_client_set_error_api of version 2). */
static bool is_duplicate(const bson_error_t *error)
{
    return error->domain == MONGOC_ERROR_SERVER && error->code == MONGOC_ERROR_DUPLICATE_KEY;
}

/* How many documents a filter gives, the greatest number first, in batches of this size. */
static int count(mongoc_collection_t *people, const bson_t *filter, int batch)
{
    bson_t *options = BCON_NEW("batchSize", BCON_INT32(batch), "sort", "{", "_id", BCON_INT32(-1), "}");
    mongoc_cursor_t *cursor = mongoc_collection_find_with_opts(people, filter, options, NULL);
    const bson_t *document;
    bson_error_t error;
    int64_t before = INT64_MAX;
    int count = 0;
    while (mongoc_cursor_next(cursor, &document)) {
        expect(number_at(document, "_id") < before, "a find gives another order");
        before = number_at(document, "_id");
        count++;
    }
    expect(!mongoc_cursor_error(cursor, &error), error.message);
    mongoc_cursor_destroy(cursor);
    bson_destroy(options);
    return count;
}

/* A batch that stops at its first refusal: two of the four documents are taken, and taken away again. */
static void stop_at_a_duplicate(mongoc_collection_t *people)
{
    bson_error_t error;
    bson_t reply;
    const int numbers[] = {501, 502, 1, 503};
    mongoc_bulk_operation_t *bulk = mongoc_collection_create_bulk_operation_with_opts(people, NULL);
    for (int i = 0; i < 4; i++) {
        bson_t *document = BCON_NEW("_id", BCON_INT32(numbers[i]));
        mongoc_bulk_operation_insert(bulk, document);
        bson_destroy(document);
    }
    expect(!mongoc_bulk_operation_execute(bulk, &reply, &error) && is_duplicate(&error), "a duplicate was taken in order");
    expect(number_at(&reply, "nInserted") == 2, "others of the batch in order are there");
    expect(number_at(&reply, "writeErrors.0.index") == 2, "another one was refused");
    bson_destroy(&reply);
    mongoc_bulk_operation_destroy(bulk);
    bson_t *late = BCON_NEW("_id", "{", "$gt", BCON_INT32(500), "}");
    expect(mongoc_collection_delete_many(people, late, NULL, &reply, &error), error.message);
    expect(number_at(&reply, "deletedCount") == 2, "others were deleted");
    bson_destroy(&reply);
    bson_destroy(late);
}

/* An index is made and told, and a find by what it serves gives the same. */
static void make_an_index(mongoc_client_t *client, mongoc_collection_t *people)
{
    bson_error_t error;
    bson_t reply;
    bson_t *make = BCON_NEW("createIndexes", BCON_UTF8("people"), "indexes", "[", "{", "key", "{", "half", BCON_INT32(1), "}",
                            "name", BCON_UTF8("half_1"), "}", "]");
    expect(mongoc_client_write_command_with_opts(client, "c", make, NULL, &reply, &error), error.message);
    expect(number_at(&reply, "numIndexesAfter") == 2, "no index was made");
    bson_destroy(&reply);
    bson_destroy(make);
    mongoc_cursor_t *cursor = mongoc_collection_find_indexes_with_opts(people, NULL);
    const bson_t *index;
    int indexes = 0;
    while (mongoc_cursor_next(cursor, &index))
        indexes++;
    expect(!mongoc_cursor_error(cursor, &error) && indexes == 2, "other indexes are told");
    mongoc_cursor_destroy(cursor);
    bson_t *late = BCON_NEW("half", "{", "$gte", BCON_INT32(149), "}");
    expect(count(people, late, 2) == 3, "a find by an index gives others");
    bson_destroy(late);
}

/* The greatest half, by a group of all. */
static int64_t greatest_half(mongoc_collection_t *people)
{
    bson_error_t error;
    bson_t *stages = BCON_NEW("pipeline", "[", "{", "$group", "{", "_id", BCON_NULL, "most", "{", "$max", BCON_UTF8("$half"), "}", "}", "}", "]");
    mongoc_cursor_t *cursor = mongoc_collection_aggregate(people, MONGOC_QUERY_NONE, stages, NULL, NULL);
    const bson_t *group;
    expect(mongoc_cursor_next(cursor, &group), "no group came");
    int64_t most = number_at(group, "most");
    expect(!mongoc_cursor_next(cursor, &group) && !mongoc_cursor_error(cursor, &error), "more groups came");
    mongoc_cursor_destroy(cursor);
    bson_destroy(stages);
    return most;
}

/* A document is changed where it is there, and none is made. */
static void change_one(mongoc_collection_t *people)
{
    bson_error_t error;
    bson_t reply;
    bson_t *first = BCON_NEW("_id", BCON_INT32(1)), *change = BCON_NEW("$set", "{", "born", BCON_INT32(1815), "}");
    expect(mongoc_collection_update_one(people, first, change, NULL, &reply, &error), error.message);
    expect(number_at(&reply, "modifiedCount") == 1 && number_at(&reply, "matchedCount") == 1, "another number was changed");
    bson_destroy(&reply);
    bson_destroy(first);
    bson_destroy(change);
}

static void session(mongoc_client_t *client, mongoc_collection_t *people)
{
    bson_error_t error;
    bson_t reply;
    bson_t *ada = BCON_NEW("_id", BCON_INT32(1), "name", BCON_UTF8("Ada"));
    expect(mongoc_collection_insert_one(people, ada, NULL, NULL, &error), error.message);
    expect(!mongoc_collection_insert_one(people, ada, NULL, NULL, &error) && is_duplicate(&error), "a duplicate was taken");

    bson_t *unordered = BCON_NEW("ordered", BCON_BOOL(false));
    mongoc_bulk_operation_t *bulk = mongoc_collection_create_bulk_operation_with_opts(people, unordered);
    for (int n = 1; n <= 300; n++) {
        bson_t *document = BCON_NEW("_id", BCON_INT32(n), "half", BCON_INT32(n / 2));
        mongoc_bulk_operation_insert(bulk, document);
        bson_destroy(document);
    }
    expect(!mongoc_bulk_operation_execute(bulk, &reply, &error) && is_duplicate(&error), "a duplicate was taken in a batch");
    expect(number_at(&reply, "nInserted") == 299, "the others of the batch are not there");
    expect(number_at(&reply, "writeErrors.0.index") == 0 && number_at(&reply, "writeErrors.0.code") == 11000, "another refusal");
    bson_destroy(&reply);
    mongoc_bulk_operation_destroy(bulk);

    bson_t *all = bson_new(), *late = BCON_NEW("half", "{", "$gte", BCON_INT32(149), "}");
    expect(count(people, all, 7) == 300 && count(people, late, 2) == 3, "a find gives others");

    stop_at_a_duplicate(people);
    make_an_index(client, people);
    expect(greatest_half(people) == 150, "another half is the greatest");
    change_one(people);

    bson_t *grace = BCON_NEW("name", BCON_UTF8("Grace")), *born = BCON_NEW("$set", "{", "born", BCON_INT32(1906), "}");
    bson_t *upsert = BCON_NEW("upsert", BCON_BOOL(true));
    expect(mongoc_collection_update_one(people, grace, born, upsert, &reply, &error), error.message);
    expect(number_at(&reply, "upsertedCount") == 1, "no document was made");
    bson_destroy(&reply);
    expect(mongoc_collection_count_documents(people, grace, NULL, NULL, NULL, &error) == 1, "it isn't there");
    expect(mongoc_collection_delete_many(people, late, NULL, &reply, &error), error.message);
    expect(number_at(&reply, "deletedCount") == 3, "others were deleted");
    bson_destroy(&reply);

    mongoc_database_t *database = mongoc_client_get_database(client, "c");
    char **names = mongoc_database_get_collection_names_with_opts(database, NULL, &error);
    expect(names && names[0] && !strcmp(names[0], "people") && !names[1], "other collections");
}

/* Whether another round is to be done, which a line says. */
static bool is_asked_again(void)
{
    char line[16];
    puts("ready");
    fflush(stdout);
    return fgets(line, sizeof line, stdin);
}

struct held {
    pthread_t thread;
    mongoc_client_t *client;
    int number;
};

/* Writes a document by a client of the pool, and finds it. */
static void *write_one(void *argument)
{
    struct held *held = argument;
    bson_error_t error;
    bson_t *document = BCON_NEW("_id", BCON_INT32(held->number));
    mongoc_collection_t *people = mongoc_client_get_collection(held->client, "c", "people");
    expect(mongoc_collection_insert_one(people, document, NULL, NULL, &error), error.message);
    expect(count(people, document, 7) == 1, "what was written isn't there");
    mongoc_collection_destroy(people);
    bson_destroy(document);
    return NULL;
}

/* Each of a hundred threads writes a document and finds it, by a hundred clients of a pool, which are all taken at the same time. */
static void pool(mongoc_client_pool_t *pool)
{
    struct held all[100];
    bson_error_t error;
    bson_t *ping = BCON_NEW("ping", BCON_INT32(1));
    mongoc_client_t *first = mongoc_client_pool_pop(pool);
    expect(mongoc_client_command_simple(first, "c", ping, NULL, NULL, &error), error.message);
    mongoc_client_pool_push(pool, first);
    bson_destroy(ping);
    for (int round = 0; is_asked_again(); round++) {
        for (int i = 0; i < 100; i++) {
            all[i].client = mongoc_client_pool_try_pop(pool);
            all[i].number = 100 * round + i;
            expect(all[i].client, "the pool has no hundred clients");
        }
        expect(!mongoc_client_pool_try_pop(pool), "the pool has more than a hundred clients");
        for (int i = 0; i < 100; i++)
            expect(!pthread_create(&all[i].thread, NULL, write_one, &all[i]), "no thread");
        for (int i = 0; i < 100; i++) {
            expect(!pthread_join(all[i].thread, NULL), "no end of a thread");
            mongoc_client_pool_push(pool, all[i].client);
        }
    }
}

/* What was written in the rounds before is found by the same client, whose driver asks anew where the socket has ended; and more is written. */
static void killed(mongoc_collection_t *people)
{
    bson_error_t error;
    bson_t *all = bson_new();
    for (int written = 0; is_asked_again(); written += 10) {
        expect(count(people, all, 7) == written, "what was written isn't there");
        mongoc_bulk_operation_t *bulk = mongoc_collection_create_bulk_operation_with_opts(people, NULL);
        for (int n = written; n < written + 10; n++) {
            bson_t *document = BCON_NEW("_id", BCON_INT32(n));
            mongoc_bulk_operation_insert(bulk, document);
            bson_destroy(document);
        }
        expect(mongoc_bulk_operation_execute(bulk, NULL, &error), error.message);
        mongoc_bulk_operation_destroy(bulk);
    }
    bson_destroy(all);
}

int main(int argc, char **argv)
{
    char address[128];
    expect(argc == 3, "drivers PORT session|pool|killed");
    mongoc_init();
    snprintf(address, sizeof address, "mongodb://127.0.0.1:%s/?maxPoolSize=100&heartbeatFrequencyMS=60000", argv[1]);
    mongoc_uri_t *uri = mongoc_uri_new(address);
    if (!strcmp(argv[2], "pool")) {
        mongoc_client_pool_t *clients = mongoc_client_pool_new(uri);
        pool(clients);
        mongoc_client_pool_destroy(clients);
    } else {
        mongoc_client_t *client = mongoc_client_new_from_uri(uri);
        expect(mongoc_client_set_error_api(client, 2), "no errors of version 2");
        mongoc_collection_t *people = mongoc_client_get_collection(client, "c", "people");
        if (!strcmp(argv[2], "killed"))
            killed(people);
        else
            session(client, people);
        mongoc_collection_destroy(people);
        mongoc_client_destroy(client);
    }
    return 0;
}
