# Tests differences of random pairs of banks, and the scripts of some: a bank before and after the accepted lines of a
# hostile script, two states of a bank during a script of edits of all forms, a bank and a readable hostile file, and
# unrelated banks.
package Pairs;
use strict;
use warnings;
use Banks;
use Differences;
use Runs;
use Texts;
use Cases;
use Exporter 'import';
our @EXPORT = qw(try_pairs try_counts);

# The smallest number of pairs of each kind among 3,000, and of pairs whose difference has no more lines than the edits
# that made the pair.
my %floors = (edited => 1500, states => 500, files => 200, strangers => 250, short => 2000);

# All banks, and those that scripts/make_edits can edit.
my (@banks, @edited);
my (%states, %count);
# A bank made by an earlier seed.
my $stranger;

# Writes the bank after the accepted lines of a hostile script as `b`, and returns the number of these lines.
sub put_edited {
    my ($bank, $path) = @_;
    my @lines = split /\n/, read_bytes($path);
    while (1) {
        my $run = apply_text($bank, join("\n", @lines), 'b', 'undo');
        return scalar @lines unless $run->{status};
        my ($line) = $run->{line} =~ /^sfbank: line (\d+): / or return report_case("$path on $bank", $run->{line});
        splice @lines, $line - 1, 1;
    }
}

# Returns the numbers of presets, instruments and samples of a bank.
sub members_of {
    my ($bank) = @_;
    run(['show', $bank], 'listing');
    return read_bytes('listing') =~ /^bank \d+ presets (\d+) instruments (\d+) samples (\d+) /;
}

# Returns states of a bank during a script of edits of all forms, as bytes with the number of edits so far: each is some
# edits after the one before it.
sub states_of {
    my ($maker, $bank) = @_;
    my @lines = split /\n/, join '', `$maker 1200 @{[members_of($bank)]}`;
    my @states = ([0, read_bytes($bank)]);
    while (@lines) {
        my ($done, $bytes) = @{ $states[-1] };
        my @edits = splice @lines, 0, 1 + $done * 7 % 11;
        write_bytes('state', $bytes);
        my $wrong = done(apply_text('state', join("\n", @edits), 'out', 'undo'));
        if ($wrong) { report_case("scripts/make_edits on $bank", $wrong); last; }
        push @states, [$done + @edits, read_bytes('out')];
    }
    return \@states;
}

# Writes two states of a bank as `a` and `b`, and returns the number of edits between them. The bank has presets,
# instruments and samples, as scripts/make_edits needs.
sub put_states {
    my ($maker, $bank, $seed) = @_;
    my $states = $states{$bank} //= states_of($maker, $bank);
    my $first = int rand @$states;
    my $second = $first + 1 + $seed % 3;
    $second = $#$states if $second > $#$states;
    write_bytes('a', $states->[$first][1]);
    write_bytes('b', $states->[$second][1]);
    return $states->[$second][0] - $states->[$first][0];
}

# Returns what is wrong with the difference of a pair, which must make B from A and be undone; or undef. `canonical` is
# the canonical file of B, and A is canonical.
sub wrong_of_pair {
    my ($kind, $from, $to, $canonical, $edits) = @_;
    $count{$kind}++;
    return wrong_of_versions($from, $to) if substr(read_bytes($from), 34, 2) ne substr read_bytes($canonical), 34, 2;
    my $wrong = done(diff($from, $to, 'difference')) // is_commented_diff($from, $to, 'difference');
    $wrong //= done(apply($from, 'commented', 'out', 'undo'));
    $wrong //= same('out', $canonical) ? done(apply('out', 'undo', 'back', 'again')) : 'the difference makes another bank';
    $count{short}++ if !defined $wrong && defined $edits && lines_of(read_bytes('difference')) <= $edits;
    return $wrong // (same('back', $from) ? undef : 'the difference is not undone');
}

sub wrong_of_versions {
    my ($from, $to) = @_;
    unlink 'difference';
    my $run = run(['diff', $from, $to, 'difference']);
    return $run->{status} == 4 && $run->{line} eq "sfbank: refused 51 OtherVersion\n" && !-e 'difference' ? undef : $run->{line};
}

# Returns the kind of the pair of a seed, its two files, the canonical file of the second, and the number of edits
# between them, if they are related by edits.
sub pair_of_seed {
    my ($maker, $seed) = @_;
    my $bank = $banks[$seed % @banks];
    return ('states', 'a', 'b', 'b', put_states($maker, $edited[$seed % @edited], $seed)) if $seed % 5 == 1;
    return ('files', $bank, "seeds/$seed.sf2", 'canonical') if $seed % 5 == 2 && !canon("seeds/$seed.sf2", 'canonical')->{status};
    my $edits = put_edited($bank, "seeds/$seed.wild");
    if ($seed % 10 == 3 && defined $stranger) {
        write_bytes('a', $stranger);
        $stranger = read_bytes('b');
        return ('strangers', 'a', 'b', 'b');
    }
    $stranger = read_bytes('b') if $seed % 10 == 9;
    return $seed % 2 ? ('edited', $bank, 'b', 'b', $edits) : ('edited', 'b', $bank, $bank, $edits);
}

sub try_seed {
    my ($maker, $seed) = @_;
    my ($kind, $from, $to, $canonical, $edits) = pair_of_seed($maker, $seed);
    report_case("pair $seed, $kind", wrong_of_pair($kind, $from, $to, $canonical, $edits));
    report_case("the text of pair $seed", remade($to, $canonical)) if $seed % 4 == 0;
}

# Tests `count` seeds from one on, with the folder of the generators and the banks of the pairs.
sub try_pairs {
    my ($scripts, $first, $count, @from) = @_;
    for my $number (0 .. $#from) {
        report_case("canon $from[$number]", done(canon($from[$number], "bank$number")));
        push @banks, "bank$number";
        push @edited, "bank$number" unless grep { $_ == 0 } members_of("bank$number");
    }
    local $ENV{HOSTILE_GROUPS} = 1;
    srand 1;
    while ($count > 0) {
        my $some = $count < 200 ? $count : 200;
        mkdir 'seeds';
        system("$scripts/make_hostile", 'seeds', $first, $some, @banks) and return report_case('scripts/make_hostile', 'failed');
        try_seed("$scripts/make_edits", $_) for $first .. $first + $some - 1;
        unlink glob 'seeds/*';
        ($first, $count) = ($first + $some, $count - $some);
    }
}

# Tests that there were enough pairs of each kind.
sub try_counts {
    for my $kind (sort keys %floors) {
        my $there = $count{$kind} // 0;
        report_case("3000 pairs, $kind", $there >= $floors{$kind} ? undef : "$there, not $floors{$kind}");
    }
}

1;
