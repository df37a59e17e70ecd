#!/usr/bin/perl
# Swallows connections: swallow.pl PORT listens at this port of 127.0.0.1, and takes none. One connection of its own
# fills the queue. So the system drops each packet that begins another, as a dead host does. It prints a line once the
# queue is full, and goes on until it is killed.
use strict;
use warnings;
use Socket;

my $address = pack_sockaddr_in(shift, INADDR_LOOPBACK);
socket my $listener, PF_INET, SOCK_STREAM, 0 or die;
setsockopt $listener, SOL_SOCKET, SO_REUSEADDR, 1 or die;
bind $listener, $address or die "cannot listen\n";
listen $listener, 0 or die;
socket my $own, PF_INET, SOCK_STREAM, 0 or die;
connect $own, $address or die;
$| = 1;
print "full\n";
sleep;
