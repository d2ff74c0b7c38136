# Tests random neutral scripts that scripts/make_neutral makes for some banks: `apply --neutral` does and undoes each
# byte for byte, and notes of all presets render identically before and after it.
package Neutral;
use strict;
use warnings;
use Banks;
use Runs;
use Exporter 'import';
our @EXPORT = qw(try_neutral_seeds);

my $seeds = 40;

# Writes the listing of a bank, and the script that adds its presets and instruments, for scripts/make_neutral.
sub take_apart {
    my ($bank) = @_;
    my $shown = run(['show', $bank], 'listing');
    my $wrong = is_right($shown, -s $bank);
    my @forms = read_bytes('listing') =~ /^(preset|inst) /mg;
    my @lines = map { my $form = $_; map { "remove-$form $_" } reverse 0 .. (grep { $_ eq $form } @forms) - 1 } qw(preset inst);
    my $taken = apply_text($bank, join("\n", @lines), 'out', 'content');
    return $wrong // $taken->{wrong} // ($taken->{status} ? $taken->{line} : undef);
}

sub play {
    my ($bank, $wave) = @_;
    my $run = run_command(['play', $bank, 'notes', $wave], $wave);
    return $run->{wrong} // ($run->{status} ? $run->{line} : undef);
}

# Returns what is wrong with the script of a seed on a bank, or undef.
sub wrong_of_script {
    my ($maker, $bank, $seed) = @_;
    system("$maker 40 listing content $seed > neutral") and return 'scripts/make_neutral failed';
    local @Runs::flags = ('--neutral');
    my $run = apply($bank, 'neutral', 'out', 'undo');
    return $run->{wrong} // $run->{line} if $run->{wrong} || $run->{status};
    return play('out', 'again.wave') // (same('wave', 'again.wave') ? undef : 'sounds otherwise') // undone($bank);
}

# Tests all seeds on canonical banks; the first argument is the folder of the generators.
sub try_neutral_seeds {
    my ($scripts, @banks) = @_;
    for my $bank (@banks) {
        my $wrong = take_apart($bank);
        system("$scripts/make_notes 24 listing > notes") and $wrong = 'scripts/make_notes failed';
        report("$bank taken apart and played", $wrong // play($bank, 'wave'));
        report("neutral seed $_ on $bank", wrong_of_script("$scripts/make_neutral", $bank, $_)) for 1 .. $seeds;
    }
}

1;
