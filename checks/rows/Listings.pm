# Tests the table `listings`: the output of `show`, byte for byte.
package Listings;
use strict;
use warnings;
use Banks;
use Runs;
use Tables;
use Exporter 'import';
our @EXPORT = qw(try_listings other_line);

# Returns the first line of a text that differs from the expected text, or undef.
sub other_line {
    my ($text, $want) = @_;
    return if $text eq $want;
    my @lines = split /\n/, $text;
    my @want = split /\n/, $want;
    my ($at) = grep { ($lines[$_] // '') ne ($want[$_] // '') } 0 .. (@lines > @want ? $#lines : $#want);
    return defined $at ? sprintf "line %d is '%s'", $at + 1, $lines[$at] // '' : 'other ends of lines';
}

sub try_listing {
    my ($bank, $flags, @lines) = @_;
    my $run = run(['show', split(' ', $flags), $bank]);
    my $wrong = is_right($run, -s $bank) // ($run->{status} ? $run->{line} : undef);
    report("show $flags $bank", $wrong // other_line(read_bytes('printed'), join '', map { "$_\n" } @lines));
}

sub try_listings {
    my ($here) = @_;
    try_listing(@$_) for rows_of("$here/listings");
}

1;
