# Writes the banks of the table `banks` as files into the folder of the runs.
package BankFiles;
use strict;
use warnings;
use Banks;
use Rows;
use Runs;
use Tables;
use Exporter 'import';
our @EXPORT = qw(put_banks bank_bytes bank_file);

# Returns the bytes of `NAME`, or of `NAME: CHANGES`.
sub bank_bytes {
    my ($bank) = @_;
    my ($name, $changes) = split /\s*:\s*/, $bank, 2;
    return changed(read_bytes($name) // die("there is no bank $name\n"), $changes // '');
}

# Returns the file of `NAME`, or of `NAME: CHANGES`.
sub bank_file {
    my ($bank) = @_;
    return $bank if $bank !~ /:/;
    write_bytes('changed', bank_bytes($bank));
    return 'changed';
}

# Makes a bank in the file `out`. Returns what is wrong with the run, or undef.
sub made {
    my ($way) = @_;
    if ($way !~ /^canon (.*)/) { write_bytes('out', bank_bytes($way)); return; }
    return Rows::is_done(canon(bank_file($1), 'out'));
}

sub put_banks {
    my ($here) = @_;
    write_bytes('empty', bytes_of($EMPTY));
    for (rows_of("$here/banks")) {
        my ($name, $length, $way) = @$_;
        my $wrong = made($way) // (-s 'out' == $length ? undef : 'has ' . (-s 'out') . " bytes, not $length");
        report("the bank $name", $wrong);
        rename 'out', $name;
    }
}

1;
