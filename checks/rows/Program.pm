# Tests the tables `outputs`, `words` and `printed`: how runs end and which files they leave.
package Program;
use strict;
use warnings;
use Banks;
use File::Path 'remove_tree';
use Runs;
use Tables;
use BankFiles;
use Exporter 'import';
our @EXPORT = qw(try_program);

# The facts that hold after each run in the current folder.
my @always;

# Makes a fact about a file true.
sub put {
    my ($fact) = @_;
    my ($path, $what) = $fact =~ /^(\S+) (.*)$/;
    if ($what =~ /^is text ?(.*)/) { write_bytes($path, unescaped($1)); }
    elsif ($what =~ /^is (.*)/) { write_bytes($path, bank_bytes($1)); }
    elsif ($what =~ /^has mode (\d+)$/) { chmod oct $1, $path or die "$path: $!\n"; }
    elsif ($what =~ /^links to (\S+)$/) { symlink $1, $path or die "$path: $!\n"; }
    else { die "nothing can be made of '$fact'\n"; }
}

# Returns whether a fact about a file holds.
sub is_so {
    my ($fact) = @_;
    return !-e $1 && !-l $1 if $fact =~ /^no (\S+)$/;
    my ($path, $what) = $fact =~ /^(\S+) (.*)$/;
    return sprintf('%o', (stat $path)[2] & 0777) eq $1 if $what =~ /^has mode (\d+)$/;
    return (readlink $path // '') eq $1 if $what =~ /^links to (\S+)$/;
    my $want = $what =~ /^is text ?(.*)/ ? unescaped($1) : $what =~ /^is (.*)/ ? bank_bytes($1) : die "'$fact' says nothing\n";
    return (read_bytes($path) // return 0) eq $want;
}

sub begin {
    my ($folder, @facts) = @_;
    remove_tree($folder);
    mkdir $folder or die "$folder: $!\n";
    put($_) for @facts;
    @always = ();
}

# Returns what is wrong with a run that must end with this status and line and print nothing, or undef.
sub ends {
    my ($run, $status, $line) = @_;
    return "ended by signal $run->{signal}" if $run->{signal};
    return "status $run->{status} with '$run->{line}'" if $run->{status} != $status || $run->{line} ne $line;
    return $run->{printed} ? 'printed' : undef;
}

sub try_output {
    my ($words, $ends, @facts) = @_;
    return begin($1, $ends, @facts) if $words =~ /^begin (\S+)$/;
    return @always = ($ends, @facts) if $words eq 'always';
    my ($status, $line) = $ends =~ /^(\d) ?(.*)$/ or die "'$ends' is no end\n";
    my $wrong = ends(run([split ' ', $words]), $status, $line eq '' ? '' : "$line\n");
    my ($other) = grep { !is_so($_) } @facts, @always;
    report($words, $wrong // (defined $other ? "it isn't so that $other" : undef));
}

# Tests arguments that are no command; the program's name is the first word.
sub try_words {
    my ($words, $line) = @_;
    my (undef, @words) = split ' ', $words;
    my $run = run(\@words);
    my ($first) = $run->{line} =~ /^(.+)\n/;
    my $wrong = ends($run, 1, $run->{line});
    report($words, $wrong // (!defined $first || defined $line && $first ne $line ? "'$run->{line}'" : undef));
}

# Runs the program with a file size limit of seven bytes, and returns its status. Pipes have no limit.
sub run_in_little_room {
    my ($streams, @words) = @_;
    my $line = 'trap "" XFSZ; { prlimit --fsize=7 "$0" "$@" > printed; } ' . $streams;
    return system('bash', '-c', $line, program_of_runs(), @words) >> 8;
}

sub wrong_of_printed {
    my ($text, @words) = @_;
    my $run = run(\@words);
    return "status $run->{status} with '$run->{line}'" if $run->{status} || $run->{signal} || $run->{line} ne '';
    return 'prints another text' if substr(read_bytes('printed'), 0, length $text) ne $text;
    my $front = substr $text, 0, 7;
    my $status = run_in_little_room('2>&1 | cat > errors; exit ${PIPESTATUS[0]}', @words);
    my $line = read_bytes('errors');
    return "status $status with '$line' in little room"
        if $status != 5 || $line !~ m{\Asfbank: write fault (-|/dev/stdout) after 7 bytes\n\z};
    return 'prints other bytes in little room' if read_bytes('printed') ne $front;
    $status = run_in_little_room('2> errors', @words);
    return "status $status where the line has little room" if $status != 5 || read_bytes('errors') ne 'sfbank:';
    return read_bytes('printed') eq $front ? undef : 'prints other bytes where the line has little room';
}

sub try_printed {
    my ($words, @texts) = @_;
    report("$words in much room and little", wrong_of_printed(join('', map { unescaped($_) } @texts), split ' ', $words));
}

# Tests frames for which there is not enough memory.
sub try_memory {
    write_bytes('late', "99999999 1 0 0 60 127\n");
    unlink 'out', 'errors';
    my $status = system('bash', '-c', 'ulimit -v 100000; exec "$0" play empty late out 2> errors', program_of_runs()) >> 8;
    my $line = read_bytes('errors');
    report('out of memory', $status == 6 && $line eq "sfbank: out of memory\n" && !-e 'out' ? undef : "status $status with '$line'");
}

# Tests that on a terminal the reason why an input can't be read follows the line of the fault.
sub try_terminal {
    local $ENV{PROGRAM} = program_of_runs();
    my $line = qx{script -qec '"\$PROGRAM" show missing' /dev/null < /dev/null};
    my $status = $? >> 8;
    my $wanted = "sfbank: file fault missing\r\n  No such file or directory\r\n";
    report('a terminal', $status == 5 && $line eq $wanted ? undef : "status $status with '$line'");
}

# Tests that - is the standard input where a file is read, and the standard output where one is written.
sub try_standard_input {
    my $status = system('bash', '-c', '"$0" canon - - < saw > out', program_of_runs()) >> 8;
    report('a bank from the standard input to the standard output', $status == 0 && (read_bytes('out') // '') eq read_bytes('saw') ? undef : "status $status");
}

sub try_program {
    my ($here) = @_;
    try_output(@$_) for rows_of("$here/outputs");
    try_words(@$_) for rows_of("$here/words");
    try_printed(@$_) for rows_of("$here/printed");
    try_memory();
    try_terminal();
    try_standard_input();
}

1;
