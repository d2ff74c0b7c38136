# Tests `merge` of two banks.
package Merged;
use strict;
use warnings;
use Banks;
use Listed;
use Plans;
use Runs;
use Taken;
use Exporter 'import';
our @EXPORT = qw(try_merge);

# Returns the numbers of a preset in a bank that is shifted.
sub shifted { my ($shift, $numbers) = @_; return $numbers =~ s/^(\d+)/$1 + $shift/er; }

# Returns the first shift with which all presets of the other bank can be added.
sub free_shift {
    my ($in, $from) = @_;
    my %used = map { $_ => 1 } numbers_of($in);
    my $shift = 0;
    $shift++ while grep { $used{ shifted($shift, $_) } } numbers_of($from);
    return $shift;
}

# Returns the names of the members of a bank, and those that another adds.
sub heads_of {
    my ($bank, $shift) = @_;
    my @presets = map { my ($name, $number, $bank_number) = $_->{head} =~ /^(.*) (\d+) (\d+)$/; "$name $number " . ($bank_number + $shift) } @{ $bank->{presets} };
    return (\@presets, map { my $list = $_; [map { $_->{head} } @{ $bank->{$list} }] } qw(instruments samples));
}

# Returns what is wrong with the members of `out`, or undef.
sub wrong_of_members {
    my ($in, $from, $shift) = @_;
    my $out = listed('out');
    return $out->{wrong} if defined $out->{wrong};
    my @lists = heads_of($out, 0);
    my @first = heads_of($in, 0);
    my @then = heads_of($from, $shift);
    for my $at (0 .. 2) {
        return "list $at isn't both" if join("\n", @{ $lists[$at] }) ne join("\n", @{ $first[$at] }, @{ $then[$at] });
    }
    return;
}

sub wrong_of_merge {
    my ($bank, $in, $from, $there, $shift) = @_;
    my $wrong = wrong_of_plan(['merge', $shift ? ('--shift', $shift) : ()], $bank, $from);
    return $wrong if defined $wrong;
    count_edits('merge');
    $wrong = wrong_of_members($in, $there, $shift) // wrong_of_first_parts($in);
    write_bytes('notes', note_lines(24, numbers_of($in)));
    $wrong //= wrong_of_sound('merge others', $bank);
    return $wrong // wrong_of_copies('merge', $from, map { [$_, shifted($shift, $_)] } numbers_of($there));
}

# Tests `merge` of another bank, which is a file of its own, or the bank itself.
sub try_merge {
    my ($name, $bank, $from) = @_;
    my ($in, $there) = (listed($bank), listed($from));
    my $wrong = $in->{wrong} // $there->{wrong} // wrong_of_canon($bank);
    return report("$name: merge", $wrong) if defined $wrong;
    my $shift = free_shift($in, $there);
    report("$name: merge", wrong_of_merge($bank, $in, $from, $there, $shift));
    my %used = map { $_ => 1 } numbers_of($in);
    my ($both) = grep { $used{$_} } map { $_->{numbers} } @{ $there->{presets} };
    report("$name: merge refuses", wrong_of_refused($bank, $from, "68 NumbersInUse $both", 'merge')) if defined $both;
}

1;
