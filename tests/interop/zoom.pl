#!/usr/bin/perl
# Asks a server by Perl's ZOOM: zoom.pl ADDRESS DATABASE SYNTAX QUERY COUNT. Prints the number of hits, then the octets
# of the first COUNT records in hexadecimal, a line each: `diag CONDITION` in the place of a record that cannot be
# shown. SYNTAX may be -. Records of MARC are as libyaz writes them anew from what it reads in them.
use strict;
use warnings;
use ZOOM;

my ($address, $database, $syntax, $query, $count) = @ARGV;
my %options = (databaseName => $database);
$options{preferredRecordSyntax} = $syntax if $syntax ne '-';
my $connection = ZOOM::Connection->new($address, 0, %options);
my $found = $connection->search_pqf($query);
print $found->size(), "\n";
for my $place (0 .. $count - 1) {
    my $record = $found->record($place) or last;
    if (my $condition = $record->error()) {
        print "diag $condition\n";
        next;
    }
    my $octets = $record->raw();
    print unpack('H*', $octets), "\n";
}
$found->destroy();
$connection->destroy();
