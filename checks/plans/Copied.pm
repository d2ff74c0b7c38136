# Tests `copy` on a bank.
package Copied;
use strict;
use warnings;
use Banks;
use Listed;
use Plans;
use Runs;
use Taken;
use Exporter 'import';
our @EXPORT = qw(try_copy);

my %lists = (preset => 'presets', inst => 'instruments', sample => 'samples');
my %missing = (preset => '20 NoSuchPreset', inst => '21 NoSuchInstrument', sample => '22 NoSuchSample');

# Returns the numbers that the copy of a preset gets without `--as`, or undef if none are free.
sub next_numbers {
    my ($in, $numbers) = @_;
    my %used = map { $_ => 1 } numbers_of($in);
    my ($bank, $number) = split /:/, $numbers;
    my ($free) = grep { !$used{$_} } map { $bank == 128 ? "128:$_" : "$_:$number" } 0 .. 127;
    return $free;
}

# Returns numbers and a name for the copy of a preset, each undef if no option gives it.
sub some_options {
    my ($in, $form) = @_;
    my $numbers = $form eq 'preset' && chance(50) ? free_numbers($in, []) : undef;
    return ($numbers, chance(50) ? join('', map { chr(97 + below(26)) } 0 .. below(20)) : undef);
}

# Returns what the copy of a member is, with these numbers if it is a preset, and this name unless it is undef.
sub copy_of {
    my ($form, $member, $numbers, $name) = @_;
    my %copy = (%$member, side => undef, link => undef);
    $copy{head} =~ s/^("[^"]*"|x[0-9a-f]*)/"$name"/ if defined $name;
    if ($form eq 'preset') {
        my ($bank, $number) = split /:/, $numbers;
        $copy{head} =~ s/ \d+ \d+$/ $number $bank/;
        $copy{numbers} = $numbers;
    }
    return \%copy;
}

# Returns what is wrong with the parts of `out`, or undef: those of the bank, and the copy after them.
sub wrong_of_parts {
    my ($in, $form, $copy) = @_;
    my $out = listed('out');
    return $out->{wrong} if defined $out->{wrong};
    my %more = (%$in, $lists{$form} => [@{ $in->{ $lists{$form} } }, $copy]);
    return lines_of($out) eq lines_of(\%more) ? undef : 'has other parts than those of the bank and the copy';
}

sub wrong_of_copy {
    my ($bank, $in, $form, $at) = @_;
    my $member = $in->{ $lists{$form} }[$at];
    my ($given, $name) = some_options($in, $form);
    my $numbers = $given // ($form eq 'preset' ? next_numbers($in, $member->{numbers}) : undef);
    my @options = (defined $given ? "--as=$given" : (), defined $name ? ('--name', $name) : ());
    return wrong_of_refused_copy($bank, "70 NoFreeNumbers $member->{numbers}", $form, $at, @options) if $form eq 'preset' && !defined $numbers;
    my $wrong = wrong_of_plan(['copy', @options], $bank, $form, $at);
    return $wrong if defined $wrong;
    count_edits('copy');
    return 'makes more than one edit' if (() = read_bytes('edits') =~ /\n/g) != 1;
    write_bytes('notes', note_lines(24, numbers_of($in)));
    $wrong = wrong_of_parts($in, $form, copy_of($form, $member, $numbers, $name)) // wrong_of_sound('copy others', $bank);
    my ($played) = grep { $in->{presets}[$_]{numbers} eq ($member->{numbers} // '') } 0 .. $#{ $in->{presets} };
    return $wrong if defined $wrong || !defined $played || $played != $at || $form ne 'preset';
    return wrong_of_copies('copy', $bank, [$member->{numbers}, $numbers]);
}

# Returns what is wrong with a run that must be refused by this line, or undef.
sub wrong_of_refused_copy {
    my ($bank, $line, @words) = @_;
    my $run = run_command(['copy', $bank, @words, 'again', 'again.undo'], 'again', 'again.undo');
    return $run->{wrong} // ($run->{line} eq "sfbank: refused $line\n" ? undef : "'$run->{line}', not '$line'");
}

# Tests `copy` of one member of each list, of one after the list, and of a preset under numbers in use.
sub try_copy {
    my ($name, $bank) = @_;
    my $in = listed($bank);
    my $wrong = $in->{wrong} // wrong_of_canon($bank);
    return report("$name: copy", $wrong) if defined $wrong;
    for my $form (sort keys %lists) {
        my $count = @{ $in->{ $lists{$form} } };
        report("$name: copy $form", wrong_of_copy($bank, $in, $form, below($count))) if $count;
        report("$name: copy $form $count", wrong_of_refused_copy($bank, $missing{$form}, $form, $count));
    }
    my ($used) = numbers_of($in);
    report("$name: copy --as", wrong_of_refused_copy($bank, "68 NumbersInUse $used", 'preset', 0, "--as=$used")) if defined $used;
}

1;
