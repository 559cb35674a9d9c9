#!/usr/bin/perl
# Has Net::SMPP read the frames that crates/link_runs says, and compares what it read with what each case asked for. What a message is to be
# in SMPP 3.4 is worked out here anew, from the record of the case.
#   frames.pl CASES       CASES are the lines of crates/link_runs/stdout, each case followed by what it came to
use strict;
use warnings;
use IO::Socket::INET;
use Net::SMPP;

my %command = (login => 0x09, submit => 0x04, keep => 0x15);
my $failed = 0;
my $count = 0;

# What Net::SMPP reads of a frame.
my $centre = Net::SMPP->new_listen('127.0.0.1', port => 0, smpp_version => 0x34) or die "no listener: $@";
sub read_by_net_smpp {
    my ($octets) = @_;
    my $link = IO::Socket::INET->new(PeerAddr => '127.0.0.1', PeerPort => $centre->sockport, Proto => 'tcp') or die "no connection: $@";
    my $seen = $centre->accept or die "not accepted";
    print {$link} $octets;
    close $link;
    return $seen->read_pdu;
}

# A number of so many octets at the front of a record, and octets behind their length.
sub number { my ($record, $size) = @_; my $is = hex unpack "H*", substr($$record, 0, $size, ''); return $is; }
sub counted { my ($record, $size) = @_; return substr($$record, 0, number($record, $size), ''); }

# The parts of a record.
sub record_of {
    my ($octets) = @_;
    my $record = \$octets;
    my %sms;
    @sms{qw(from_kind from)} = (number($record, 1), counted($record, 1));
    @sms{qw(to_kind to)} = (number($record, 1), counted($record, 1));
    $sms{$_} = number($record, 1) for qw(coding class charset total part mask);
    $sms{$_} = number($record, 4) for qw(validity deferred);
    $sms{time} = number($record, 8);
    $sms{udh} = counted($record, 1);
    $sms{body} = counted($record, 2);
    return \%sms;
}

# The coding of a body and its class, as GSM 03.38 has them in one octet.
sub dcs_of {
    my ($sms) = @_;
    my $alphabet = (0, 4, 8)[$sms->{coding}];
    return $sms->{class} == 255 ? $alphabet : $alphabet | 0x10 | $sms->{class};
}

# The header that goes out: a message in parts says which part it is.
sub header_of {
    my ($sms, $number) = @_;
    return $sms->{udh} if $sms->{total} == 1;
    my $joint = pack 'C5', 0, 3, ($number + 257 - $sms->{part}) % 256, $sms->{total}, $sms->{part};
    my $elements = length $sms->{udh} ? substr($sms->{udh}, 1) : '';
    return pack('C', length($elements . $joint)) . $elements . $joint;
}

# The period from now to the end of a validity, in minutes, of which one that has begun counts.
sub period_of {
    my ($sms, $now) = @_;
    return '' if !$sms->{validity};
    my $left = $sms->{time} + 60 * $sms->{validity} - $now;
    my $minutes = $left > 0 ? int(($left + 59) / 60) : 1;
    return sprintf '0000%02d%02d%02d00000R', int($minutes / 1440), int($minutes / 60) % 24, $minutes % 60;
}

sub address_of {
    my ($kind, $octets) = @_;
    return ($kind == 2 ? 5 : $kind, $kind == 2 ? 0 : 1, $octets);
}

# What the fields of a case's message are to be.
sub submit_of {
    my ($tag, $number, $now, $record) = @_;
    my $sms = record_of($record);
    my $header = header_of($sms, $number);
    my %is = (service_type => '', protocol_id => 0, priority_flag => 0, schedule_delivery_time => '', replace_if_present_flag => 0, sm_default_msg_id => 0);
    @is{qw(source_addr_ton source_addr_npi source_addr)} = address_of(@$sms{qw(from_kind from)});
    @is{qw(dest_addr_ton dest_addr_npi destination_addr)} = address_of(@$sms{qw(to_kind to)});
    $is{esm_class} = length $header ? 0x40 : 0;
    $is{data_coding} = dcs_of($sms);
    $is{validity_period} = period_of($sms, $now);
    $is{registered_delivery} = $sms->{mask} & 7 ? 1 : 0;
    $is{short_message} = $header . $sms->{body};
    return \%is;
}

sub same {
    my ($case, $field, $read, $wanted) = @_;
    return if defined $read && $read eq $wanted;
    print "FAILED: $case: $field is ", defined $read ? unpack('H*', $read) : 'nothing', ", wanted ", unpack('H*', $wanted), "\n";
    $failed = 1;
}

sub try_case {
    my ($case, $frame) = @_;
    my ($kind, @words) = split ' ', $case;
    return if !defined $command{$kind};
    my $pdu = read_by_net_smpp(pack 'H*', $frame);
    if (!$pdu) { print "FAILED: $case: Net::SMPP reads no frame\n"; $failed = 1; return; }
    $count += 1;
    same($case, 'command', $pdu->{cmd}, $command{$kind});
    same($case, 'sequence', $pdu->{seq}, $words[0]);
    if ($kind eq 'login') {
        my %is = (system_id => 'gate', password => 'secret', system_type => $words[1] // '', interface_version => 0x34, addr_ton => 0, addr_npi => 0, address_range => '');
        same($case, $_, $pdu->{$_}, $is{$_}) for sort keys %is;
    } elsif ($kind eq 'submit') {
        my ($tag, $number, $now, @record) = @words;
        my $is = submit_of($tag, $number, $now, pack 'H*', join '', @record);
        same($case, $_, $pdu->{$_}, $is->{$_}) for sort keys %$is;
    }
}

my $case = '';
while (my $line = <>) {
    chomp $line;
    if ($line =~ /^    ([0-9A-F]+)$/ && length $1 >= 32) { try_case($case, $1); }
    $case = $line;
}
print $failed ? "FAILED\n" : "ok: Net::SMPP reads $count frames as they were meant\n";
exit($failed || !$count);
