# Tests the table `full_files`: files at and above the limits.
package FullFiles;
use strict;
use warnings;
use Banks;
use Files;
use Runs;
use Tables;
use BankFiles;
use Exporter 'import';
our @EXPORT = qw(try_full_files);

# Returns what is wrong with a file that must be read with all counts zero, or undef.
sub wrong_of_whole {
    my ($file) = @_;
    write_bytes('in', bank_bytes($file));
    my ($fault, $bank, $counts) = Files::listed('in');
    return $fault // (($counts // '') eq Files::counts_line('') ? undef : 'something is counted');
}

sub try_full_files {
    my ($here) = @_;
    for my $row (rows_of("$here/full_files")) {
        my ($file, @answer) = @$row;
        if ("@answer" eq 'read') { report($file, wrong_of_whole($file)); }
        else { Files::try_file($file, @answer); }
    }
}

1;
