#!/usr/bin/perl
# A server of a few records by SimpleServer: simpleserver.pl tcp:HOST:PORT. The database `books` has records of three
# titles, each found by a word of its title, in MARC and in XML; in `damaged` the second cannot be shown.
use strict;
use warnings;
use Net::Z3950::SimpleServer;

my $MARC = '1.2.840.10003.5.10';
my $XML = '1.2.840.10003.5.109.10';
my @TITLES = ('Dune', 'Children of Dune', "Emma, na\xc3\xafve \"novel\" \\ of 1815");

sub told {
    my ($args, $condition, $what) = @_;
    $args->{ERR_CODE} = $condition;
    $args->{ERR_STR} = $what;
    return;
}

sub marc {
    my ($number, $title) = @_;
    my $control = "x$number\x1e";
    my $field = "10\x1fa$title\x1e";
    my $directory = sprintf('001%04d%05d245%04d%05d', length $control, 0, length $field, length $control) . "\x1e";
    my $base = 24 + length $directory;
    my $size = $base + length($control) + length($field) + 1;
    return sprintf('%05dnam a22%05d a 4500', $size, $base) . "$directory$control$field\x1d";
}

sub xml {
    my ($number, $title) = @_;
    $title =~ s/"/&quot;/g;
    return "<book>\n  <id>x$number</id>\n  <title>$title</title>\n</book>\n";
}

sub word {
    my ($args) = @_;
    my $query = $args->{RPN}{query};
    return ref($query) =~ /Term/ ? $query->{term} : undef;
}

sub search {
    my ($args) = @_;
    my $database = $args->{DATABASES}[0];
    my $word = word($args);
    return told($args, 109, $database) if $database !~ /^(books|damaged)$/;
    return told($args, 110, 'operator') if !defined $word;
    my @found = grep { $TITLES[$_] =~ /\b\Q$word\E\b/i } 0 .. $#TITLES;
    $args->{HANDLE}{$args->{SETNAME}} = { found => \@found, is_damaged => $database eq 'damaged' };
    $args->{HITS} = @found;
    return;
}

sub fetch {
    my ($args) = @_;
    my $place = $args->{OFFSET} - 1;
    my $set = $args->{HANDLE}{$args->{SETNAME}};
    my $number = $set->{found}[$place];
    my $is_xml = ($args->{REQ_FORM} // '') eq $XML;
    if ($set->{is_damaged} && $place == 1) {
        $args->{SUR_FLAG} = 1;
        return told($args, 14, 'damaged');
    }
    $args->{REP_FORM} = $is_xml ? $XML : $MARC;
    $args->{RECORD} = $is_xml ? xml($number, $TITLES[$number]) : marc($number, $TITLES[$number]);
    return;
}

sub init {
    my ($args) = @_;
    $args->{HANDLE} = {};
    $args->{IMP_NAME} = 'A few records';
    return;
}

my $server = Net::Z3950::SimpleServer->new(INIT => 'main::init', SEARCH => 'main::search', FETCH => 'main::fetch');
$server->launch_server('simpleserver.pl', @ARGV);
