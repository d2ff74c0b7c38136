# Makes random banks by seed. They have instruments and samples that nothing uses, several presets of one number, links
# that only one side has, and zones that differ in nothing but neighbouring ranges. Each third bank is a hostile file
# that scripts/make_hostile makes of one, if it can be read. A seed gives the same bank on each machine.
package RandomBanks;
use strict;
use warnings;
use Banks;
use Runs;
use Exporter 'import';
our @EXPORT = qw(random_bank);

our %count;

sub below { my ($limit) = @_; return int rand $limit; }
sub one_of { return $_[below(scalar @_)]; }
sub chance { my ($percent) = @_; return below(100) < $percent; }

# ---- samples

sub sample_line {
    my ($number) = @_;
    my $points = 4 + below(60);
    my $start = below($points - 1);
    my $loop = chance(70) ? "loop $start " . ($start + 1 + below($points - $start)) : 'noloop';
    my $bytes = join '', map { sprintf '%04x', below(65_536) } 1 .. $points;
    return "add-sample $number \"s$number\" " . one_of(22_050, 44_100, 48_000) . ' ' . one_of(60, 255, 36 + below(48)) . ' ' . (below(100) - 50) . " mono $loop x$bytes";
}

# Returns edits that link samples, some of them to samples that don't link back.
sub link_lines {
    my ($samples) = @_;
    my @lines;
    for my $number (0 .. $samples - 1) {
        my $other = below($samples);
        push @lines, "set-kind $number " . one_of('left', 'right', 'linked') . " $other" if chance(45);
        push @lines, "set-kind $number left $other", "set-kind $other right $number" if chance(20);
    }
    return @lines;
}

# ---- zones

# Returns neighbouring ranges, mostly over all keys or velocities.
sub ranges {
    my ($pieces) = @_;
    my %cuts = map { 1 + below(127) => 1 } 2 .. $pieces;
    my @lows = (chance(75) ? 0 : below(20), grep { $_ > 20 } sort { $a <=> $b } keys %cuts);
    my @ranges = map { $lows[$_] . '..' . ($_ < $#lows ? $lows[$_ + 1] - 1 : 127) } 0 .. $#lows;
    return @ranges;
}

# Returns the settings of a zone of a level.
sub items {
    my ($level) = @_;
    my @items = map { "g $_->[0] $_->[1]" } grep { chance(20) } [17, below(900) - 450], [48, below(200)], [51, below(25) - 12], [52, below(99)];
    push @items, 'g 54 ' . one_of(0, 1, 1, 3) if $level eq 'inst' && chance(60);
    push @items, 'g 57 ' . below(3) if $level eq 'inst' && chance(10);
    push @items, 'm ' . one_of(2, 3, 258) . ' 48 ' . below(200) . ' 0 0' if chance(15);
    return @items;
}

# Returns zones with one target that differ in nothing but their ranges, which are mostly neighbouring.
sub alike_zones {
    my ($level, $target) = @_;
    my @items = items($level);
    my @keys = map { "g 43 $_" } chance(50) ? ranges(1 + below(4)) : ();
    my @velocities = map { "g 44 $_" } chance(35) ? ranges(1 + below(3)) : ();
    my @zones;
    for my $key (@keys ? @keys : '') {
        push @zones, map { join ' ', grep { $_ ne '' } '{', $target, $key, $_, @items, '}' } @velocities ? @velocities : '';
    }
    splice @zones, below(scalar @zones), 1 if @zones > 2 && chance(20);
    @zones = reverse @zones if chance(10);
    return @zones;
}

# Returns the zones of an owner, with these targets.
sub zones {
    my ($level, @targets) = @_;
    my @global = chance(40) ? ('{ global', (chance(40) ? one_of('g 43 0..127', 'g 43 10..100', 'g 44 0..127') : ()), items($level), '}') : ();
    return join ' ', @global > 2 ? @global : (), @targets ? map { alike_zones($level, one_of(@targets)) } 1 .. below(4) : ();
}

# Returns some of so many members.
sub some { my ($count) = @_; return grep { chance(60) } 0 .. $count - 1; }

# ---- banks

# Returns the script that makes a bank of the empty one.
sub script_of {
    my ($seed) = @_;
    srand $seed;
    my ($samples, $instruments, $presets) = (1 + below(9), 1 + below(7), below(8));
    my @lines = map { sample_line($_) } 0 .. $samples - 1;
    push @lines, link_lines($samples);
    my @played = some($samples);
    push @lines, map { "add-inst $_ \"i$_\" " . zones('inst', @played) } 0 .. $instruments - 1;
    my @used = some($instruments);
    push @lines, map { "add-preset $_ \"p$_\" " . below(4) . ' ' . one_of(0, 0, 0, 1, 128) . ' 0 0 0 ' . zones('preset', @used) } 0 .. $presets - 1;
    return join "\n", @lines;
}

# Makes the bank of a seed, and returns the name of its file, or undef after a failure.
sub random_bank {
    my ($maker, $seed) = @_;
    my $run = apply_text('empty', script_of($seed), 'made', 'undo');
    my $wrong = $run->{wrong} // ($run->{status} ? $run->{line} : undef);
    if (defined $wrong) { report("the bank of seed $seed", $wrong); return; }
    return 'made' if $seed % 3 != 2;
    mkdir 'seeds';
    system($maker, 'seeds', $seed, 1, 'made') and report('scripts/make_hostile', 'failed');
    my $file = "seeds/$seed.sf2";
    return 'made' if canon($file, 'out')->{status};
    $count{'hostile files'}++;
    return $file;
}

1;
