#!/usr/bin/perl
# A centre for one session of `boxes link`, by Net::SMPP's server side. It takes each message but one, which it refuses, and sends receipts as SMPP 3.4, appendix B
# writes them: which state each message gets, by its text, stands in the table below. When each receipt has its answer, it ends the session.
#   receipts.pl PORT [COUNT]   COUNT is how many messages come, all of the table where it isn't given
use strict;
use warnings;
use Net::SMPP;

my ($port, $count) = @ARGV;
my $failed = 0;
$| = 1;
$SIG{ALRM} = sub { print "FAILED: the centre waits in vain\n"; exit 1 };
alarm 100;

sub say_failed { print "FAILED: @_\n"; $failed = 1; }

# The states of a message's receipts, in their order. `early` is one that is sent before the message is acknowledged; a message without any is never reported.
my %states = (
    one => ['DELIVRD'], two => ['UNDELIV'], three => ['ACCEPTD', 'DELIVRD'], four => ['EXPIRED'], five => ['DELETED'], six => ['REJECTD', 'REJECTD'],
    seven => [], eight => [], nine => [], ten => ['UNKNOWN'],
);
my %early = (eight => 'DELIVRD');
my %refused = (nine => 1);

my $seq = 600;
my %open;

# Sends a receipt on the message of an id.
sub report {
    my ($link, $id, $state, $text) = @_;
    $seq += 1;
    $open{$seq} = 1;
    print "receipt $text: $state\n";
    $link->deliver_sm(seq => $seq, async => 1, source_addr => '0123456', destination_addr => '123', esm_class => 4,
        short_message => "id:$id sub:001 dlvrd:001 submit date:2612020100 done date:2612020101 stat:$state err:000 text:$text");
}

# Answers a message, and sends its receipts.
sub take {
    my ($link, $pdu) = @_;
    my $text = $pdu->{short_message};
    if (!$states{$text}) { say_failed("a message that nobody asked for: $text"); return; }
    my $wanted = $refused{$text} ? 0 : 1;
    say_failed("$text: registered_delivery is $pdu->{registered_delivery}") if $pdu->{registered_delivery} != $wanted;
    my $id = "id-$text";
    report($link, $id, $early{$text}, $text) if $early{$text};
    if ($refused{$text}) { $link->submit_sm_resp(seq => $pdu->{seq}, status => 0x0b, message_id => ''); return; }
    $link->submit_sm_resp(seq => $pdu->{seq}, status => 0, message_id => $id);
    report($link, $id, $_, $text) for @{$states{$text}};
}

my $centre = Net::SMPP->new_listen('127.0.0.1', port => $port, smpp_version => 0x34, timeout => 90) or die "no listener: $@";
print "listening\n";
my $link = $centre->accept or die 'nobody came';
my $login = $link->read_pdu or die 'no login';
$link->bind_transceiver_resp(seq => $login->{seq}, status => 0, system_id => 'centre');
report($link, 'id-of-nobody', 'DELIVRD', 'nobody');

my $left = $count // keys %states;
while (my $pdu = $link->read_pdu) {
    if ($pdu->{cmd} == 0x04) { take($link, $pdu); $left -= 1; }
    elsif ($pdu->{cmd} == 0x80000006) { exit $failed; }
    elsif ($pdu->{cmd} == 0x80000005 && $pdu->{status} == 0 && delete $open{$pdu->{seq}}) { }
    else { say_failed(sprintf 'command %x, status %x, sequence %d', $pdu->{cmd}, $pdu->{status}, $pdu->{seq}); }
    if ($left == 0 && !%open) { $link->unbind(seq => 999, async => 1); $left = -1; }
}
say_failed('the link went away, and', $left, 'messages lack');
exit 1;
