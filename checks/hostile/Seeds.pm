# Tests random files, scripts and note lists that scripts/make_hostile makes from some banks: the canonical file of an
# accepted file is canonical and has the same listing; each accepted script is undone byte for byte.
package Seeds;
use strict;
use warnings;
use Banks;
use Runs;
use Exporter 'import';
our @EXPORT = qw(try_seeds try_accepted);

# The smallest number of each kind to be accepted with the seeds of the gate.
our %floors = (files => 800, edge => 50, wild => 500, both => 250, notes => 1300);

my @banks;
our %done;

# Returns a listing without its line of counts.
sub without_counts { return $_[0] =~ s/^counts.*\n//mr; }

# Returns what is wrong with the run on a hostile file, or undef.
sub wrong_of_file {
    my ($file) = @_;
    my $run = canon($file, 'fixed');
    return $run->{wrong} if $run->{wrong};
    my $shown = run(['show', $file]);
    my $wrong = is_right($shown, -s $file);
    return $wrong // ($shown->{line} eq $run->{line} ? undef : "show: $shown->{line}") if $wrong || $run->{status};
    $done{files}++;
    my $listed = without_counts(read_bytes('printed'));
    $wrong = is_right(run(['show', 'fixed']), -s 'fixed');
    return $wrong // 'the canonical file is listed otherwise' if $wrong || without_counts(read_bytes('printed')) ne $listed;
    return 'the canonical file has counts' if read_bytes('printed') !~ /^counts(?: \w+ 0){7}$/m;
    my $again = canon('fixed', 'again');
    return $again->{wrong} // (!$again->{status} && same('fixed', 'again') ? undef : 'the canonical file is not its own');
}

# Returns what is wrong with a script on a file whose canonical file is given, or undef.
sub wrong_of_script {
    my ($kind, $file, $canonical, $script) = @_;
    my $run = apply($file, $script, 'out', 'undo');
    return $run->{wrong} if $run->{wrong} || $run->{status};
    $done{$kind}++;
    return undone($canonical);
}

# Returns what is wrong with notes on a file, or undef: the sizes in the WAVE file must be those of the file.
sub wrong_of_notes {
    my ($file, $notes) = @_;
    my $run = run_command(['play', $file, $notes, 'wave'], 'wave');
    return $run->{wrong} if $run->{wrong} || $run->{status};
    $done{notes}++;
    my $wave = read_bytes('wave');
    my ($whole, $frames) = (unpack 'x4Vx32V', $wave);
    return $whole == length($wave) - 8 && $frames == length($wave) - 44 ? undef : 'the sizes of the WAVE file are others';
}

sub wrong_of_seed {
    my ($seed) = @_;
    my $bank = $banks[$seed % @banks];
    return wrong_of_file("seeds/$seed.sf2")
        // wrong_of_script('edge', $bank, $bank, "seeds/$seed.edge")
        // wrong_of_script('wild', $bank, $bank, "seeds/$seed.wild")
        // (-e 'fixed' ? wrong_of_script('both', "seeds/$seed.sf2", 'fixed', "seeds/$seed.wild") : undef)
        // wrong_of_notes(-e 'fixed' ? "seeds/$seed.sf2" : $bank, "seeds/$seed.notes");
}

# Tests `count` seeds from one on, with the generator of their files and its banks.
sub try_seeds {
    my ($maker, $first, $count, @from) = @_;
    for my $number (0 .. $#from) {
        report("canon $from[$number]", canon($from[$number], "bank$number")->{wrong});
        push @banks, "bank$number";
    }
    local $ENV{HOSTILE_GROUPS} = knows_groups() ? 1 : 0;
    while ($count > 0) {
        my $some = $count < 200 ? $count : 200;
        mkdir 'seeds';
        system($maker, 'seeds', $first, $some, @banks) and return report('scripts/make_hostile', 'failed');
        report("seed $_", wrong_of_seed($_)) for $first .. $first + $some - 1;
        unlink glob 'seeds/*';
        ($first, $count) = ($first + $some, $count - $some);
    }
}

# Tests that enough of the files of those seeds were accepted.
sub try_accepted {
    for my $kind (sort keys %floors) {
        my $count = $done{$kind} // 0;
        report("3000 seeds, $kind accepted", $count >= $floors{$kind} ? undef : "$count, not $floors{$kind}");
    }
}

1;
