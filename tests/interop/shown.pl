#!/usr/bin/env perl
# Reads records in MARCXML, as yaz-marcdump writes them of records in MARC 21, and prints the view for readers that is
# due of them: from field 245 the title, from 100, 110 or 111 the main heading where 245 has no $c, from 020 the ISBN,
# from 264, 260 or 008 the year.
#
#     yaz-marcdump -f MARC-8 -t UTF-8 -o marcxml FILE | shown.pl NAME COUNT
use strict;
use warnings;
use open qw(:std :encoding(UTF-8));
use Unicode::Normalize;

my ($name, $count) = @ARGV;

sub plain {
    my ($text) = @_;
    my %meant = (lt => '<', gt => '>', quot => '"', apos => "'", amp => '&');
    $text =~ s/&(lt|gt|quot|apos|amp);/$meant{$1}/g;
    return NFC($text);
}

# subfields FIELD: code and text of each, those that are empty left out
sub subfields {
    my @pairs = shift =~ m{<subfield code="(.)">(.*?)</subfield>}gs;
    my @found;
    while (my ($code, $text) = splice @pairs, 0, 2) {
        push @found, [$code, plain($text)] if length $text;
    }
    return @found;
}

# values RECORD TAG CODE: of each field with this tag
sub values_of {
    my ($record, $tag, $code) = @_;
    my @fields = $record =~ m{<datafield tag="$tag".*?</datafield>}gs;
    return map { my ($first) = grep { $_->[0] eq $code } subfields($_); $first ? $first->[1] : () } @fields;
}

sub title {
    my ($record) = @_;
    my ($field) = $record =~ m{(<datafield tag="245".*?</datafield>)}s or return;
    return map { $_->[1] } grep { $_->[0] =~ /[abnpc]/ } subfields($field);
}

sub maker {
    my ($record) = @_;
    return if values_of($record, '245', 'c');
    my ($heading) = map { values_of($record, $_, 'a') } qw(100 110 111);
    return defined $heading ? ('/', $heading) : ();
}

sub isbn {
    my ($number) = grep { /\d/ } map { /^([^ ]*)/ } values_of(shift, '020', 'a');
    return defined $number ? ('ISBN', $number) : ();
}

sub year {
    my ($record) = @_;
    my @texts = map { values_of($record, @$_) } ['264', 'c'], ['260', 'c'], ['260', 'g'];
    my ($year) = map { /(\d{4})/ } @texts;
    return $year if defined $year;
    return $record =~ m{<controlfield tag="008">.{7}(\d{4})}s ? $1 : '';
}

my @records = do { local $/; <STDIN> } =~ m{<record.*?</record>}gs;
printf "%s: %d found, %d shown\n\n", $name, $count, scalar @records;
my $width = length scalar @records;
my $number = 0;
printf "  %${width}d  %s  %-4s  %s\n", ++$number, $name, year($_), join ' ', title($_), maker($_), isbn($_)
    for @records;
