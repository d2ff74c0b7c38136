# Tests the table `rejected`: runs of plans that are rejected or have a fault, as they are and, but for those with
# `--script`, with `--dry-run`. Each prints its line, and no file is made or changed.
package Rejections;
use strict;
use warnings;
use Banks;
use Rows;
use Runs;
use Exporter 'import';
our @EXPORT = qw(try_rejections);

# Returns all files of the folder and their bytes as one text.
sub folder { return join "\0", map { ($_, -d $_ ? '' : read_bytes($_)) } grep { !/^(?:printed|errors)$/ } sort glob '*'; }

# Returns what is wrong with a run that must end so, or undef. Without a line, any may be printed.
sub wrong_of_rejection {
    my ($words, $status, $line) = @_;
    my $before = folder();
    my $run = run([split ' ', $words]);
    return "ended by signal $run->{signal}" if $run->{signal};
    return "status $run->{status} with '$run->{line}'" if $run->{status} != $status;
    return "reported '$run->{line}'" if $line eq '' ? $run->{line} eq '' : $run->{line} ne "$line\n";
    return 'printed' if $run->{printed};
    return folder() eq $before ? undef : 'made or changed a file';
}

# Writes the files of the table.
sub put_files {
    write_bytes('in', read_bytes('wide'));
    write_bytes('bank', read_bytes('tone'));
    write_bytes('cut', substr read_bytes('tone'), 0, 300);
    write_bytes('notes', "0 100 0 0 60 127\n");
    write_bytes('bad', "0 100 0 0 60 127\n0 100 0 0 60 128\n");
    symlink 'in', 'link';
    unlink qw(out undo);
}

sub try_rejections {
    put_files();
    for (Rows::rows_of("$INC{'Rejections.pm'}" =~ s{Rejections\.pm$}{rejected}r)) {
        my ($words, $answer) = @$_;
        my ($status, $line) = $answer =~ /^(\d) ?(.*)$/;
        report($words, wrong_of_rejection($words, $status, $line));
        report("$words --dry-run", wrong_of_rejection("$words --dry-run", $status, $line)) if $words !~ /--script/;
    }
}

1;
