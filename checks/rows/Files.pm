# Tests the tables `files` and `generators`: the bank read from each file, or the fault.
package Files;
use strict;
use warnings;
use Banks;
use Rows;
use Runs;
use Tables;
use BankFiles;
use Exporter 'import';
our @EXPORT = qw(try_files);

# Returns the bytes of a file of the table.
sub file_bytes {
    my ($file) = @_;
    return $file =~ /^words\b(.*)/ ? bytes_of($1) : bank_bytes($file);
}

# Returns the line of these counts; all others are zero.
sub counts_line {
    my ($counts) = @_;
    my %counted = split ' ', $counts;
    my $line = join ' ', 'counts', map { "$_ " . (delete $counted{$_} // 0) } qw(texts sm24 zones gens ranges loops links);
    die "there are no counts @{[ %counted ]}\n" if %counted;
    return $line;
}

# Returns the first line of a file's listing, its line of counts and the other lines; or what is wrong with the run.
sub listed {
    my ($file) = @_;
    my $run = run(['show', $file]);
    my $wrong = is_right($run, -s $file) // ($run->{status} ? $run->{line} : undef);
    return ($wrong) if defined $wrong;
    return (undef, split /\n/, read_bytes('printed'));
}

# Returns what is wrong with the file `in`, which must be rejected with this fault; or undef.
sub is_refused {
    my ($fault) = @_;
    my $run = canon('in', 'out');
    return $run->{wrong} // ($run->{line} eq "sfbank: read fault $fault\n" ? undef : "'$run->{line}' instead of $fault");
}

# Returns what is wrong with the file `in`, whose canonical file must be this one, itself canonical and with the same
# listing; or undef.
sub reads_as {
    my ($canonical, $counts) = @_;
    write_bytes('want', $canonical);
    my $wrong = Rows::is_done(canon('in', 'out')) // (read_bytes('out') eq $canonical ? undef : 'another canonical file');
    $wrong //= Rows::is_done(canon('want', 'again')) // (read_bytes('again') eq $canonical ? undef : 'no canonical file is wanted');
    return $wrong if defined $wrong;
    my ($fault, $bank, @lines) = listed('in');
    my ($other_fault, $want_bank, $want_counts, @want) = listed('want');
    return $fault // $other_fault if defined($fault // $other_fault);
    return "'$want_counts' of the canonical file" if $want_counts ne counts_line('');
    return join("\n", $bank, @lines) eq join("\n", $want_bank, counts_line($counts), @want) ? undef : "is listed as @lines";
}

# Returns what is wrong with the file `in`, whose listing must have these lines; or undef.
sub is_listed {
    my ($counts, @want) = @_;
    my ($fault, $bank, @lines) = listed('in');
    return $fault if defined $fault;
    my $want_bank = @want && $want[0] =~ /^bank/ ? shift @want : $bank;
    return join("\n", $bank, @lines) eq join("\n", $want_bank, counts_line($counts), @want) ? undef : "is listed as $bank @lines";
}

sub try_file {
    my ($file, $answer, @rest) = @_;
    write_bytes('in', file_bytes($file));
    my $wrong = $answer =~ /^as (.*)/ ? reads_as(file_bytes($1), $rest[0] // '')
        : $answer =~ /^lists *(.*)/ ? is_listed($1, @rest)
        : is_refused($answer);
    report($file, $wrong);
}

# Returns the bank `tone` with these generators, target included, in the zone of its instrument or of its preset.
sub tone_with {
    my ($level, $generators) = @_;
    my ($size, $at, $out, $last) = $level eq 'inst' ? (416, 420, 8, 390) : (314, 318, 4, 288);
    my $length = length bytes_of($generators);
    my $more = $length - $out;
    return bank_bytes(sprintf 'tone: %d %d %s; %d 4 =%d; %d 1 %02x; 184 4 =%d; 4 4 =%d',
        $at, $out, $generators, $size, 4 + $length, $last, $length / 4, 344 + $more, 524 + $more);
}

sub try_generators {
    my ($level, $generators, $kept, $counts) = @_;
    write_bytes('in', tone_with($level, $generators));
    report("$level with $generators", reads_as(tone_with($level, $kept), $counts // ''));
}

# Tests each proper prefix of a file: NotRiff for less than four bytes, else Truncated.
sub try_fronts {
    for my $bank (qw(empty saw)) {
        my $whole = bank_bytes($bank);
        for my $length (0 .. length($whole) - 1) {
            write_bytes('in', substr $whole, 0, $length);
            report("$length bytes of $bank", is_refused($length < 4 ? '1 NotRiff' : '3 Truncated'));
        }
    }
}

sub try_files {
    my ($here) = @_;
    report('the empty bank', length bank_bytes('empty') == 308 ? undef : 'has not 308 bytes');
    try_file(@$_) for rows_of("$here/files");
    try_generators(@$_) for rows_of("$here/generators");
    try_fronts();
}

1;
