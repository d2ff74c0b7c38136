# Makes each allocation of a session fail in turn: the line being handled is answered `out of memory` and changes
# nothing, and the session goes on as without it; or the session ends because it is out of memory.
package FailedAllocations;
use strict;
use warnings;
use Banks;
use Live;
use Runs;
use Sessions;
use Exporter 'import';
our @EXPORT = qw(try_failed_allocations);

my @lines = (
    'rename-sample 0 "u"', 'note 4000 0 0 60 20', 'frames 100', 'group { set-gen inst 0 0 17 -300 } { set-loop 0 loop 0 2 }', 'note 4000 0 0 72 20',
    'frames 300', 'undo', 'neutral rename-inst 0 "v"', 'save saved.1 undo.1', 'redo', 'undo', 'extend 0 x01000200 x0300', 'note 300 0 0 48 20', 'frames 500',
    'press 0 0 60 20', 'pedal on 0 0', 'frames 100', 'release 0 0 60', 'frames 100', 'pedal off 0 0', 'press 0 0 72 20', 'record notes.1', 'silence',
    'split-zone inst 0 0 key 64', 'save saved.2 "undo.2"', 'voices', 'show', 'remove-sample 0', 'trim 0 x0', 'frames 50', 'quit',
);

sub try_failed_allocations {
    my ($shims) = @_;
    return report('the shim', 'it is not compiled') if system('cc', '-O2', '-shared', '-fPIC', '-o', 'fail_allocation.so', "$shims/fail_allocation.c");
    my ($number, $answered) = (0, 0);
    while (1) {
        $number++;
        unlink glob('saved.*'), glob('undo.*'), glob('notes.*');
        my $run = live_under({ LD_PRELOAD => './fail_allocation.so', FAILED_ALLOCATION => $number, FAILED_MARK => 'mark' }, 'tone', join("\n", @lines) . "\n");
        last if !-e 'mark';
        $answered++ if $run->{answers} =~ /^out of memory$/m;
        report("allocation $number failed", wrong_of_run('tone', $run, 1, @lines));
    }
    report("allocations, $number", $number > 20 && $answered > 10 ? undef : "only $answered were answered");
    print "live: ", $number - 1, " allocations failed in turn, $answered of them in a line that is answered so\n";
}

1;
