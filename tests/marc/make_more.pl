#!/usr/bin/perl
# Further records by MARC::Record 2.0.7: what real files have and a reader must take or refuse; some that the tool itself makes wrong.
use strict; use warnings; use utf8;
use FindBin; chdir $FindBin::Bin;
use MARC::Record; use MARC::Field; use MARC::Charset 'utf8_to_marc8'; use Unicode::Normalize 'NFD'; use Encode;
my $fixed = '860211n| azannaabn          |b aaa      ';
sub rec { my ($coding, @f) = @_; my $r = MARC::Record->new; $r->leader("00000nz  ${coding}2200000n  4500"); $r->append_fields(@f); return $r }
sub f { MARC::Field->new(@_) }
sub keep { my ($name, $bytes) = @_; open my $o, '>:raw', "made/$name" or die $!; print $o $bytes; close $o }
my @head = (f('001', 'a0010'), f('008', $fixed));
# the decomposed form of the same letters, as some national files send it
keep('perl-decomposed.mrc', encode('UTF-8', rec('a', @head, f('100', '1', ' ', a => NFD('Dvořák, Antonín,'), d => '1841-1904'))->as_usmarc));
# MARC-8 by MARC::Charset: bytes, not characters
keep('perl-marc8.mrc', rec(' ', @head, f('100', '1', ' ', a => utf8_to_marc8('Dvořák, Antonín,'), d => '1841-1904'))->as_usmarc);
# two fields 100; d before a; empty d; a twice
keep('perl-two-100.mrc', encode('UTF-8', rec('a', @head,
    f('100', '1', ' ', a => 'Strauss, Johann,', d => '1804-1849'), f('100', '1', ' ', a => 'Strauss, Johann,', d => '1825-1899'))->as_usmarc));
keep('perl-d-first.mrc', encode('UTF-8', rec('a', @head, f('100', '1', ' ', d => '1804-1849', a => 'Strauss, Johann,'))->as_usmarc));
keep('perl-empty-d.mrc', encode('UTF-8', rec('a', @head, f('100', '1', ' ', a => 'Strauss, Johann,', d => ''))->as_usmarc));
keep('perl-two-a.mrc', encode('UTF-8', rec('a', @head,
    f('100', '1', ' ', a => 'Strauss, Johann,', a => 'Strauss, J.', d => '1804-1849'))->as_usmarc));
# a corporate heading; a name with no a
keep('perl-110.mrc', encode('UTF-8', rec('a', @head, f('110', '2', ' ', a => 'Wiener Hofmusikkapelle'))->as_usmarc));
keep('perl-no-a.mrc', encode('UTF-8', rec('a', @head, f('100', '1', ' ', d => '1804-1849'))->as_usmarc));
# no fields at all
keep('perl-empty.mrc', MARC::Record->new->as_usmarc);
# a title under the name: 100 with t
keep('perl-name-title.mrc', encode('UTF-8', rec('a', @head,
    f('100', '1', ' ', a => 'Strauss, Johann,', d => '1825-1899.', t => 'Fledermaus'))->as_usmarc));
# longer than the leader can say: 99,999 bytes is the most
keep('perl-too-long.mrc', encode('UTF-8', rec('a', @head,
    f('100', '1', ' ', a => 'Strauss, Johann,', d => '1804-1849'), map { f('670', ' ', ' ', a => 'x' x 9000) } 1 .. 12)->as_usmarc));
# one field longer than 9,999
keep('perl-long-field.mrc', encode('UTF-8', rec('a', @head,
    f('100', '1', ' ', a => 'Strauss, Johann,', d => '1804-1849'), f('670', ' ', ' ', a => 'x' x 12000))->as_usmarc));
# the usual slip: written through a :utf8 layer when the text was bytes already, so that letters above 7F are coded twice and lengths are too small
{ open my $o, '>:utf8', 'made/perl-coded-twice.mrc' or die $!;
  print $o encode('UTF-8', rec('a', @head, f('100', '1', ' ', a => 'Dvořák, Antonín,', d => '1841-1904'))->as_usmarc); }
# the other slip: the leader says MARC-8 (blank), and the text is UTF-8
{ open my $o, '>:utf8', 'made/perl-blank-coding.mrc' or die $!;
  print $o rec(' ', @head, f('100', '1', ' ', a => 'Dvořák, Antonín,', d => '1841-1904'))->as_usmarc; }
# UNIMARC: there 100 is coded data and the name stands in 200
keep('perl-unimarc.mrc', encode('UTF-8', do {
    my $r = MARC::Record->new;
    $r->leader('00000nx  a2200000   45  ');
    $r->append_fields(f('001', 'a0011'), f('100', ' ', ' ', a => '19990629afrey50      ba0'),
        f('200', ' ', '1', a => 'Strauss', b => 'Johann', f => '1804-1849'));
    $r
}->as_usmarc));
