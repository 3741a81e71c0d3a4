#!/usr/bin/perl
# pipes.pl IN OUT COMMAND...: starts COMMAND between two pipes that do not block it. Gives it the file IN in two halves with a pause
# between them, or, if IN is the word never, nothing and no end; takes what it prints into OUT, late and slowly. Ends with its status.
use strict;
use warnings;
use Fcntl qw(F_GETFL F_SETFL O_NONBLOCK);

my ($in, $out, @command) = @ARGV;
my $pipe_size = 1031;    # Linux's F_SETPIPE_SZ
pipe(my $from, my $to) && pipe(my $take, my $give) or die "pipe: $!";
fcntl($_, F_SETFL, O_NONBLOCK | fcntl($_, F_GETFL, 0)) or die "fcntl: $!" for $from, $give;
fcntl($give, $pipe_size, 4096) or die "fcntl: $!";

my $program = fork // die "fork: $!";
if (!$program) {
    open(STDIN, '<&', $from) && open(STDOUT, '>&', $give) or die "dup: $!";
    close($_) for $from, $to, $take, $give;
    exec(@command) or exit 127;
}
close($_) for $from, $give;

# the job, by a process of its own
my $feeder = fork // die "fork: $!";
if (!$feeder) {
    close($take);
    if ($in eq 'never') { sleep 1000; exit 0 }
    open(my $file, '<:raw', $in) or die "$in: $!";
    my $job = do { local $/; <$file> };
    my $half = int(length($job) / 2);
    syswrite($to, substr($job, 0, $half));
    select(undef, undef, undef, 1);
    syswrite($to, substr($job, $half));
    exit 0;
}
close($to);

# what it prints
open(my $file, '>:raw', $out) or die "$out: $!";
select(undef, undef, undef, 2);
while (sysread($take, my $bytes, 1000)) {
    print $file $bytes;
    select(undef, undef, undef, 0.01);
}
close($file);
waitpid($program, 0);
my $status = $?;
kill 'TERM', $feeder;
exit($status & 127 ? 128 + ($status & 127) : $status >> 8);
