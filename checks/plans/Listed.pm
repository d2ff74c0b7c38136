# Reads banks as `sfbank show` lists them, and says what must remain of one.
package Listed;
use strict;
use warnings;
use Banks;
use Runs;
use Exporter 'import';
our @EXPORT = qw(listed numbers_of lines_of lines_of_kept unused_in lonely_links_in);

my $name = qr/"[^"]*"|x[0-9a-f]*/;
my %lists = (preset => 'presets', inst => 'instruments', sample => 'samples');

# Returns the parts of a bank: lists of presets, instruments and samples. A preset or an instrument has its zones, the
# global one first if it isn't empty, each with its target and the rest of its text. A sample has its link, if any.
# `wrong` is what is wrong with the run.
sub listed {
    my ($path) = @_;
    my $run = run(['show', '--zones', '--uses', $path], 'listing');
    my %bank = (wrong => is_right($run, -s $path) // ($run->{status} ? $run->{line} : undef), map { $_ => [] } values %lists);
    read_line(\%bank, $_) for split /\n/, read_bytes('listing');
    return \%bank;
}

sub read_line {
    my ($bank, $line) = @_;
    if ($line =~ /^preset \d+ ($name) (\d+) (\d+) \d+$/) {
        push @{ $bank->{presets} }, { head => "$1 $2 $3", numbers => "$3:$2", zones => [] };
    } elsif ($line =~ /^inst \d+ ($name) \d+$/) {
        push @{ $bank->{instruments} }, { head => $1, zones => [] };
    } elsif ($line =~ /^sample \d+ ($name \d+ \d+ -?\d+) (mono|(right|left|linked) (\d+)) (.*)$/) {
        push @{ $bank->{samples} }, { head => "$1 $5", side => $3, link => $4 };
    } elsif ($line =~ /^uses (\w+) (\d+) zones (\d+)/) {
        $bank->{ $lists{$1} }[$2]{uses} = $3;
    } elsif ($line =~ /^zone (\w+) (\d+) global (.*)$/) {
        push @{ $bank->{ $lists{$1} }[$2]{zones} }, [undef, $3];
    } elsif ($line =~ /^zone (\w+) (\d+) \d+ \{ (\d+) (.*)$/) {
        push @{ $bank->{ $lists{$1} }[$2]{zones} }, [$3, $4];
    }
}

# Returns the numbers of a bank's presets as words of `--preset`, each once.
sub numbers_of {
    my ($bank) = @_;
    my %seen;
    return grep { !$seen{$_}++ } map { $_->{numbers} } @{ $bank->{presets} };
}

# Returns the numbers of the members of a list that zones of these owners target.
sub targets_of {
    my (@owners) = @_;
    my %targets = map { $_->[0] => 1 } grep { defined $_->[0] } map { @{ $_->{zones} } } @owners;
    return sort { $a <=> $b } keys %targets;
}

# Returns the lines of a bank of which only these presets, instruments and samples remain, by their numbers. A link to a
# sample that doesn't remain is none. With `roughly` they lack links and zones, which `tidy` may change.
sub lines_of_some {
    my ($bank, $roughly, $presets, $instruments, $samples) = @_;
    my %instrument = map { $instruments->[$_] => $_ } 0 .. $#$instruments;
    my %sample = map { $samples->[$_] => $_ } 0 .. $#$samples;
    my @lines = map { owner_line('preset', $bank->{presets}[$_], $roughly, \%instrument) } @$presets;
    push @lines, map { owner_line('inst', $bank->{instruments}[$_], $roughly, \%sample) } @$instruments;
    return join "\n", @lines, map { sample_line($bank->{samples}[$_], $roughly, \%sample) } @$samples;
}

sub owner_line {
    my ($form, $owner, $roughly, $numbers) = @_;
    my @zones = map { defined $_->[0] ? "{ $numbers->{$_->[0]} $_->[1]" : $_->[1] } @{ $owner->{zones} };
    return join ' ', $form, $owner->{head}, $roughly ? () : @zones;
}

sub sample_line {
    my ($sample, $roughly, $numbers) = @_;
    my $is_linked = defined $sample->{link} && defined $numbers->{ $sample->{link} };
    return join ' ', 'sample', $sample->{head}, $roughly ? () : $is_linked ? ($sample->{side}, $numbers->{ $sample->{link} }) : 'mono';
}

# Returns the lines of a bank.
sub lines_of {
    my ($bank, $roughly) = @_;
    return lines_of_some($bank, $roughly, map { [0 .. $#{ $bank->{$_} }] } qw(presets instruments samples));
}

# Returns the lines of what must remain of a bank if the presets with these numbers are kept.
sub lines_of_kept {
    my ($bank, $roughly, @numbers) = @_;
    my %is_kept = map { $_ => 1 } @numbers;
    my @presets = grep { $is_kept{ $bank->{presets}[$_]{numbers} } } 0 .. $#{ $bank->{presets} };
    my @instruments = targets_of(@{ $bank->{presets} }[@presets]);
    my @samples = targets_of(@{ $bank->{instruments} }[@instruments]);
    return lines_of_some($bank, $roughly, \@presets, \@instruments, \@samples);
}

# Returns the names of instruments and samples that no zone uses.
sub unused_in {
    my ($bank) = @_;
    return map { $_->{head} } grep { !$_->{uses} } @{ $bank->{instruments} }, @{ $bank->{samples} };
}

# Returns the names of left and right samples whose partner has no link to them.
sub lonely_links_in {
    my ($bank) = @_;
    my $samples = $bank->{samples};
    my @sided = grep { ($samples->[$_]{side} // '') =~ /^(?:left|right)$/ } 0 .. $#$samples;
    return map { $samples->[$_]{head} } grep { ($samples->[ $samples->[$_]{link} ]{link} // -1) != $_ } @sided;
}

1;
