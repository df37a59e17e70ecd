#!/usr/bin/perl
# A peer that does not do as it should: badpeer.pl serve HOW PORT, or badpeer.pl call HOW PORT. HOW is one of
#   close    it closes the connection at once
#   garbage  it sends octets that are no message, and closes
#   half     it sends the first octets of a message, and closes
#   stray    it sends a message that nobody waits for (PresentResponse; as a client, an answer to Init), and closes
#   silent   it sends nothing, and waits until the other side closes
# `serve` goes on until it is killed. `call` prints nothing, and ends with 1 where it could not connect.
use strict;
use warnings;
use IO::Socket::INET;

my ($side, $how, $port) = @ARGV;
my %octets = (
    close => '',
    garbage => "HTTP/1.1 400 Bad Request\r\n\r\n",
    half => "\xb5\x30\x83\x02\x05\xe0",
    stray => $side eq 'serve'
        ? "\xb9\x09\x98\x01\x00\x99\x01\x00\x9b\x01\x00"
        : "\xb5\x14\x83\x02\x05\xe0\x84\x02\x06\xc0\x85\x03\x10\x00\x00\x86\x03\x10\x00\x00\x8c\x01\xff",
    silent => '',
);

sub drain {
    my ($peer) = @_;
    while (sysread $peer, my $piece, 4096) { }
    return;
}

sub behave {
    my ($peer) = @_;
    syswrite $peer, $octets{$how} if $octets{$how} ne '';
    shutdown $peer, 1 if $how ne 'silent';
    drain($peer) if $how ne 'close';
    close $peer;
    return;
}

sub serve {
    my $listener = IO::Socket::INET->new(LocalAddr => '127.0.0.1', LocalPort => $port, Listen => 5, ReuseAddr => 1)
        or die "cannot listen at $port\n";
    while (my $peer = $listener->accept()) {
        behave($peer);
    }
    return;
}

sub call {
    my $peer = IO::Socket::INET->new(PeerAddr => '127.0.0.1', PeerPort => $port) or exit 1;
    behave($peer);
    return;
}

$SIG{PIPE} = 'IGNORE';
$side eq 'serve' ? serve() : call();
