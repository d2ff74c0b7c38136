# A model of the comments at the ends of lines, of which docs/SCRIPT.md tells. It shares no code with the program. A
# script is in its canonical form. The members of a bank are lists of names, as the script writes them.
package Comments;
use strict;
use warnings;
use Exporter 'import';
our @EXPORT = qw(commented members_made wrong_of_comments);

# The names of the generators of SoundFont 2.04, section 8.1.2.
my %GENERATORS = (
    0 => 'startAddrsOffset', 1 => 'endAddrsOffset', 2 => 'startloopAddrsOffset', 3 => 'endloopAddrsOffset',
    4 => 'startAddrsCoarseOffset', 5 => 'modLfoToPitch', 6 => 'vibLfoToPitch', 7 => 'modEnvToPitch',
    8 => 'initialFilterFc', 9 => 'initialFilterQ', 10 => 'modLfoToFilterFc', 11 => 'modEnvToFilterFc',
    12 => 'endAddrsCoarseOffset', 13 => 'modLfoToVolume', 15 => 'chorusEffectsSend', 16 => 'reverbEffectsSend',
    17 => 'pan', 21 => 'delayModLFO', 22 => 'freqModLFO', 23 => 'delayVibLFO', 24 => 'freqVibLFO', 25 => 'delayModEnv',
    26 => 'attackModEnv', 27 => 'holdModEnv', 28 => 'decayModEnv', 29 => 'sustainModEnv', 30 => 'releaseModEnv',
    31 => 'keynumToModEnvHold', 32 => 'keynumToModEnvDecay', 33 => 'delayVolEnv', 34 => 'attackVolEnv',
    35 => 'holdVolEnv', 36 => 'decayVolEnv', 37 => 'sustainVolEnv', 38 => 'releaseVolEnv', 39 => 'keynumToVolEnvHold',
    40 => 'keynumToVolEnvDecay', 41 => 'instrument', 43 => 'keyRange', 44 => 'velRange',
    45 => 'startloopAddrsCoarseOffset', 46 => 'keynum', 47 => 'velocity', 48 => 'initialAttenuation',
    50 => 'endloopAddrsCoarseOffset', 51 => 'coarseTune', 52 => 'fineTune', 53 => 'sampleID', 54 => 'sampleModes',
    56 => 'scaleTuning', 57 => 'exclusiveClass', 58 => 'overridingRootKey',
);
# The kinds of members that the zones of an owner target.
my %TARGETS = (preset => 'inst', inst => 'sample');
# For each form that lists zones, how many operands are before them.
my %BEFORE_ZONES = ('add-preset' => 7, 'add-inst' => 2, 'add-zone' => 3);

# Returns the steps of a line, each as its tokens.
sub steps_of {
    my (@tokens) = $_[0] =~ /"[^"]*"|[^ ]+/g;
    return if !@tokens || $tokens[0] =~ /^#/;
    return [@tokens] if $tokens[0] ne 'group';
    my ($depth, @steps) = (0);
    for (@tokens[1 .. $#tokens]) {
        $depth-- if $_ eq '}';
        push @{ $steps[-1] }, $_ if $depth;
        push @steps, [] if $_ eq '{' && !$depth;
        $depth++ if $_ eq '{';
    }
    return @steps;
}

# Returns the name of a member as a list, which is empty if there is no such member.
sub name_of { my ($members, $kind, $number) = @_; return grep { defined } $members->{$kind}[$number]; }

sub numbered { my ($members, $kind, $number) = @_; return map { "$number $_" } name_of($members, $kind, $number); }

# Returns the targets of zones, and the operators of their generators and modulators.
sub parts_of_zones {
    my (@tokens) = @_;
    my (@targets, %operators);
    while (defined(my $token = shift @tokens)) {
        if ($token eq '{') { push @targets, grep { $_ ne 'global' } shift @tokens; }
        if ($token eq 'g') { $operators{ (splice @tokens, 0, 2)[0] } = 1; }
        if ($token eq 'm') { $operators{ (splice @tokens, 0, 5)[1] } = 1; }
    }
    return (\@targets, [sort { $a <=> $b } keys %operators]);
}

# Returns the names that a step has by the numbers of its line, without those of zones that it lists.
sub named_members {
    my ($members, $form, @rest) = @_;
    return name_of($members, $1, $rest[0]) if $form =~ /^(?:remove|move|rename)-(preset|inst|sample)$/;
    return name_of($members, 'preset', $rest[0]) if $form eq 'set-head';
    return linked_before($members, $rest[0], @rest[5, 6]) if $form eq 'add-sample';
    return name_of($members, 'sample', $rest[0]) if $form =~ /^(?:trim|extend|set-loop|set-tune)$/;
    return map { name_of($members, 'sample', $_) } @rest[0, $rest[1] eq 'mono' ? () : 2] if $form eq 'set-kind';
    return () if $form !~ /-(?:zone|target|gen|mod)$/;
    my @target = $form eq 'set-target' ? name_of($members, $TARGETS{ $rest[0] }, $rest[3]) : ();
    return (name_of($members, @rest[0, 1]), @target);
}

# Returns the name of the sample to which a new one is linked; the link is a number after the insertion.
sub linked_before {
    my ($members, $at, $kind, $number) = @_;
    return () if $kind eq 'mono' || $number == $at;
    return name_of($members, 'sample', $number < $at ? $number : $number - 1);
}

# Returns the targets of the zones that a step lists, by number and name.
sub named_targets {
    my ($members, $form, @rest) = @_;
    return () if !defined $BEFORE_ZONES{$form};
    my $kind = $TARGETS{ $form eq 'add-zone' ? $rest[0] : $form =~ s/add-//r };
    my ($targets) = parts_of_zones(@rest[$BEFORE_ZONES{$form} .. $#rest]);
    return map { numbered($members, $kind, $_) } @$targets;
}

# Returns the generators that a step has, by name, and where it lists zones by number and name.
sub named_operators {
    my ($form, @rest) = @_;
    return grep { defined } $GENERATORS{ $rest[3] } if $form =~ /^(?:set|clear)-gen$/;
    return grep { defined } $GENERATORS{ $rest[5] } if $form =~ /^(?:add|set)-mod$/;
    return () if !defined $BEFORE_ZONES{$form};
    my (undef, $operators) = parts_of_zones(@rest[$BEFORE_ZONES{$form} .. $#rest]);
    return map { "$_ $GENERATORS{$_}" } grep { $GENERATORS{$_} } @$operators;
}

# Returns the comment of a line, with the blanks before it; of a group it has the members of the first step.
sub comment_of {
    my ($members, $line) = @_;
    my @steps = steps_of($line) or return '';
    my @items = (named_members($members, @{ $steps[0] }), named_targets($members, @{ $steps[0] }));
    push @items, map { named_operators(@$_) } @steps;
    my $comma = $line =~ /^(?:group|add-(?:preset|inst|zone)) / ? ',' : '';
    return @items ? '   # ' . join("$comma ", @items) : '';
}

# Changes the members as a step does.
sub change {
    my ($members, $form, $number, @rest) = @_;
    $members->{preset}[$number] = $rest[0] if $form eq 'set-head';
    my ($edit, $kind) = $form =~ /^(add|remove|move|rename)-(preset|inst|sample)$/ or return;
    my $list = $members->{$kind};
    my @moved = $edit =~ /move/ ? splice @$list, $number, 1 : $rest[0];
    splice @$list, $edit eq 'move' ? $rest[0] : $number, 0, @moved if $edit =~ /^(?:add|move)$/;
    $list->[$number] = $rest[0] if $edit eq 'rename';
}

# Returns a script with its comments, for a bank with these members. They become those after the script.
sub commented {
    my ($members, $text) = @_;
    my @lines;
    for my $line (split /\n/, $text) {
        push @lines, $line . comment_of($members, $line) . "\n";
        change($members, @$_) for steps_of($line);
    }
    return join '', @lines;
}

# Returns the members of the bank that a script makes of the empty bank.
sub members_made {
    my ($text) = @_;
    my $members = { preset => [], inst => [], sample => [] };
    commented($members, $text);
    return $members;
}

# Returns what is wrong with a script with comments, which must be the other one with those for the members; or undef.
sub wrong_of_comments {
    my ($text, $members, $plain) = @_;
    my @wanted = split /\n/, commented($members, $plain), -1;
    my @seen = split /\n/, $text, -1;
    for (0 .. $#wanted) { return "has '$seen[$_]', not '$wanted[$_]'" if ($seen[$_] // '') ne $wanted[$_]; }
    return @seen == @wanted ? undef : 'has lines after its last';
}

1;
