# Tests the table `pictures`: what `map` draws of presets and instruments, byte for byte, and its line for missing ones.
package Pictures;
use strict;
use warnings;
use Banks;
use Listings;
use Rows;
use Runs;
use Tables;
use Exporter 'import';
our @EXPORT = qw(try_pictures);

# The lines of all pictures, before and after the name of what is drawn.
my %common;

sub map_run { my ($bank, $member, $out) = @_; return run_command(['map', $bank, split(' ', $member), $out], $out); }

sub make_bank {
    my ($script) = @_;
    my $run = apply_text('empty', unescaped($script), 'drawn', 'undo');
    report('the bank that is drawn', Rows::is_done($run));
}

# The first lines of a picture with these lines.
sub front_of {
    my (@lines) = @_;
    my $entries = grep { /^<g class='c\d'><circle / } @lines;
    my $height = 640 + 16 * int(($entries + 7) / 8);
    return map { s/HEIGHT/$height/r } @{ $common{front} };
}

sub try_picture {
    my ($member, $name, @lines) = @_;
    my $owner = "<text class='owner' x='60' y='36'>$name</text>";
    my $want = join '', map { "$_\n" } front_of(@lines), $owner, @{ $common{keyboard} }, @lines;
    my $run = map_run('drawn', $member, 'picture');
    my $wrong = Rows::is_done($run);
    report("the picture of $member", $wrong // other_line(read_bytes('picture'), $want));
}

sub try_refused {
    my ($bank, $member, $line) = @_;
    write_bytes('in', $bank =~ /^words\b(.*)/ ? bytes_of($1) : read_bytes($bank));
    my $run = map_run('in', $member, 'picture');
    report("no picture of $member of $bank", $run->{wrong} // ($run->{line} eq "$line\n" ? undef : $run->{line}));
}

sub try_row {
    my ($first, @parts) = @_;
    return make_bank(@parts) if $first eq 'bank';
    return $common{$first} = \@parts if $first eq 'front' || $first eq 'keyboard';
    return $first =~ /^refused (.*)/ ? try_refused($1, @parts) : try_picture($first, @parts);
}

sub try_pictures {
    my ($here) = @_;
    try_row(@$_) for rows_of("$here/pictures");
}

1;
