#!/usr/bin/perl
# A centre for one session of `boxes link`, by Net::SMPP's server side. It checks the login, and where that is good asks whether the link is there,
# sends a message, and answers the link's messages: the first time that it sees the one of 8 bits it is too busy, and the one in UCS-2 it refuses. When each
# message has its answer, it ends the session. Each field that Net::SMPP decoded is compared with what smpp.sh asked for.
#   centre.pl PORT PASSWORD
use strict;
use warnings;
use Net::SMPP;

my ($port, $password) = @ARGV;
my $failed = 0;
$| = 1;
$SIG{ALRM} = sub { print "FAILED: the centre waits in vain\n"; exit 1 };
alarm 100;

sub say_failed { print "FAILED: @_\n"; $failed = 1; }

# What each message is to be, in the order in which smpp.sh asked for them. A text in three parts is three messages, with the numbers 4, 5 and 6.
my $header = "\x03p\x01x";
sub part { my ($number, $text) = @_; return pack('C', 8) . substr($header, 1) . pack('C5', 0, 3, 4, 3, $number) . $text; }
my %plain = (
    service_type => '', source_addr_ton => 0, source_addr_npi => 1, source_addr => '123', dest_addr_ton => 0, dest_addr_npi => 1,
    destination_addr => '0123456', esm_class => 0, protocol_id => 0, priority_flag => 0, schedule_delivery_time => '', validity_period => '',
    registered_delivery => 0, replace_if_present_flag => 0, data_coding => 0, sm_default_msg_id => 0,
);
my @asked = (
    ['7 bits with a euro sign', { %plain, short_message => "5\x1Be each" }],
    ['8 bits', { %plain, source_addr_ton => 5, source_addr_npi => 0, source_addr => 'Shop', data_coding => 4, short_message => "\x00\x01\xFE" }],
    ['UCS-2', { %plain, data_coding => 8, short_message => "\x20\xAC\x04\x16" }],
    ['part 1 of 3', { %plain, esm_class => 0x40, short_message => part(1, 'a' x 149) }],
    ['part 2 of 3', { %plain, esm_class => 0x40, short_message => part(2, 'a' x 149) }],
    ['part 3 of 3', { %plain, esm_class => 0x40, short_message => part(3, 'a' x 102) }],
    ['validity', { %plain, dest_addr_ton => 1, destination_addr => '4912345', validity_period => '000000010000000R', short_message => 'soon' }],
);

# What a message is answered: too busy once, refused, or taken.
my %busy = ('8 bits' => 1);
my %refused = ('UCS-2' => 1);

sub hex_of { my ($octets) = @_; return defined $octets ? unpack('H*', $octets) : 'nothing'; }

# Compares what was read with what was asked for, and answers. Whether the message is done with.
sub take {
    my ($link, $pdu) = @_;
    my ($found) = grep { $_->[1]{short_message} eq $pdu->{short_message} } @asked;
    if (!$found) { say_failed('a message that nobody asked for:', hex_of($pdu->{short_message})); return 0; }
    my ($name, $is) = @$found;
    for my $field (sort keys %$is) {
        next if defined $pdu->{$field} && $pdu->{$field} eq $is->{$field};
        say_failed("$name: $field is ", hex_of($pdu->{$field}), ', wanted', hex_of($is->{$field}));
    }
    my $status = delete $busy{$name} ? 0x58 : $refused{$name} ? 0x0b : 0;
    printf "message %s: status %x\n", $name, $status;
    $link->submit_sm_resp(seq => $pdu->{seq}, status => $status, message_id => $status ? '' : "id$pdu->{seq}");
    return $status != 0x58;
}

my $centre = Net::SMPP->new_listen('127.0.0.1', port => $port, smpp_version => 0x34, timeout => 90) or die "no listener: $@";
print "listening\n";
my $link = $centre->accept or die 'nobody came';
my $login = $link->read_pdu or die 'no login';
my %wanted = (cmd => 0x09, system_id => 'gate', system_type => '', interface_version => 0x34, addr_ton => 0, addr_npi => 0, address_range => '');
for my $field (sort keys %wanted) {
    say_failed("login: $field is", hex_of($login->{$field})) if !defined $login->{$field} || $login->{$field} ne $wanted{$field};
}
if ($login->{password} ne $password) {
    $link->bind_transceiver_resp(seq => $login->{seq}, status => 0x0e, system_id => 'centre');
    print "login refused\n";
    exit $failed;
}
$link->bind_transceiver_resp(seq => $login->{seq}, status => 0, system_id => 'centre');
print "login\n";
$link->enquire_link(seq => 501, async => 1);
$link->deliver_sm(seq => 502, async => 1, source_addr_ton => 1, source_addr_npi => 1, source_addr => '4998765', destination_addr => '123', short_message => 'hello to you');

my %open = (0x80000015 => 501, 0x80000005 => 502);
my $left = @asked;
while (my $pdu = $link->read_pdu) {
    if ($pdu->{cmd} == 0x04) { $left -= 1 if take($link, $pdu); }
    elsif ($pdu->{cmd} == 0x15) { $link->enquire_link_resp(seq => $pdu->{seq}, status => 0); }
    elsif ($pdu->{cmd} == 0x80000006) { printf "unbind answered: status %x, sequence %d\n", $pdu->{status}, $pdu->{seq}; exit $failed; }
    elsif (defined $open{$pdu->{cmd}} && $open{$pdu->{cmd}} == $pdu->{seq} && $pdu->{status} == 0) { delete $open{$pdu->{cmd}}; }
    else { say_failed(sprintf 'command %x, status %x, sequence %d', $pdu->{cmd}, $pdu->{status}, $pdu->{seq}); }
    if ($left == 0 && !%open) { $link->unbind(seq => 503, async => 1); $left = -1; }
}
say_failed('the link went away, and', $left, 'messages lack');
exit 1;
