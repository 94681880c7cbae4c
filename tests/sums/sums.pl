#!/usr/bin/perl
# Both check sums of each byte string on standard input, by Digest::CRC; input and output as crates/sumcases has them.
use strict;
use warnings;
use Digest::CRC;

binmode STDIN;
my $crc8 = Digest::CRC->new(width => 8, poly => 0x07, init => 0xFF, xorout => 0, refin => 0, refout => 0);
my $crc16 = Digest::CRC->new(width => 16, poly => 0x8005, init => 0xFFFF, xorout => 0, refin => 1, refout => 1);

while (read(STDIN, my $head, 2)) {
    my $length = unpack 'n', $head;
    my $bytes = '';
    die "cut record\n" if $length > 0 && read(STDIN, $bytes, $length) != $length;
    $crc8->add($bytes);
    $crc16->add($bytes);
    printf "%02x %04x\n", $crc8->digest, $crc16->digest;
}
