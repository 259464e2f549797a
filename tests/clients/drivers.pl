# A client of MongoDB's driver for Perl. Use: perl drivers.pl PORT session|pool|killed     It ends with 0 only if all answers are as expected.
# `pool` and `killed` say `ready`, and do a round of their work for each line that they read (class Rounds in drivers.py).
use strict;
use warnings;
use MongoDB;

sub expect {
    my ($answer, $wanted) = @_;
    die "'$answer', and not '$wanted'\n" unless $answer eq $wanted;
}

my ($port, $part) = @ARGV;

sub connected {
    return MongoDB->connect("mongodb://127.0.0.1:$port", { server_selection_timeout_ms => 5000 })->ns("perl.people");
}

sub session {
    my $people = connected();
    $people->insert_one({ _id => 1, name => "Ada" });
    eval { $people->insert_one({ _id => 1 }) };
    expect(ref $@, "MongoDB::DuplicateKeyError");
    $people->insert_many([map { { _id => $_, half => $_ >> 1 } } 2 .. 300]);
    expect(join(" ", map { $_->{_id} } $people->find({ half => { '$gte' => 149 } })->sort({ _id => -1 })->all), "300 299 298");
    my $late = $people->find({ half => { '$gte' => 149 } }, { projection => { half => 0.0 } })->sort({ _id => -1.0 });
    expect(join(" ", map { $_->{_id} } $late->all), "300 299 298");
    expect(join(" ", map { $_->{_id} } $people->find({}, { batchSize => 7 })->all), join(" ", 1 .. 300));
    eval { $people->insert_many([{ _id => 301 }, { _id => 1 }, { _id => 302 }], { ordered => 0 }) };
    my $fault = $@;
    expect(ref $fault, "MongoDB::DuplicateKeyError");
    expect(join(" ", map { "$_->{index} $_->{code}" } @{ $fault->result->write_errors }), "1 11000");
    expect($fault->result->inserted_count, 2);
    eval { $people->insert_many([{ _id => 303 }, { _id => 1 }, { _id => 304 }]) };
    expect(ref $@, "MongoDB::DuplicateKeyError");
    expect($@->result->inserted_count, 1);
    expect($people->delete_one({ _id => 303 })->deleted_count, 1);
    expect($people->update_one({ name => "Ada" }, { '$set' => { born => 1815 } })->modified_count, 1);
    my $made = $people->update_one({ name => "Grace" }, { '$set' => { born => 1906 } }, { upsert => 1 })->upserted_id;
    expect($people->find_one({ name => "Grace" })->{_id}, $made);
    expect($people->find_one_and_update({ name => "Ada" }, { '$inc' => { born => 1 } }, { returnDocument => 'after' })->{born}, 1816);
    expect($people->find_one_and_delete({ _id => 302 })->{_id}, 302);
    $people->indexes->create_one([half => 1]);
    expect(join(" ", map { $_->{name} } $people->indexes->list->all), "_id_ half_1");
    expect($people->aggregate([{ '$group' => { _id => undef, most => { '$max' => '$half' } } }])->next->{most}, 150);
    expect(join(" ", $people->distinct("half", { _id => { '$gte' => 297 } })->all), "148 149 150");
    expect($people->delete_many({ half => { '$lt' => 100 } })->deleted_count, 198);
    expect(join(" ", $people->database->collection_names), "people");
}

# Does the work of each round, which a line begins, with the round's number.
sub rounds {
    my ($work) = @_;
    $| = 1;
    print "ready\n";
    for (my $round = 0; <STDIN>; $round++) {
        $work->($round);
        print "ready\n";
    }
}

# This driver has no pool, a client has one socket: a hundred clients each write a document and find it, one after the other.
sub pool {
    my @all = map { connected() } 1 .. 100;
    rounds(sub {
        my ($round) = @_;
        for my $i (0 .. 99) {
            my $n = 100 * $round + $i;
            $all[$i]->insert_one({ _id => $n });
            expect(join(" ", map { $_->{_id} } $all[$i]->find({ _id => $n })->all), $n);
        }
    });
}

# What was written in the rounds before is found by the same client, whose driver asks anew where the socket has ended; and more is written.
sub killed {
    my $people = connected();
    rounds(sub {
        my ($round) = @_;
        my @found = map { $_->{_id} } $people->find({}, { batchSize => 7 })->sort({ _id => 1 })->all;
        expect(join(" ", @found), join(" ", 0 .. 10 * $round - 1));
        expect($people->insert_many([map { { _id => $_ } } 10 * $round .. 10 * $round + 9])->inserted_count, 10);
    });
}

{ session => \&session, pool => \&pool, killed => \&killed }->{$part}->();
