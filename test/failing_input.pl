# Runs a command whose standard input gives some bytes, and then fails: perl failing_input.pl BYTES COMMAND...
# It is the near end of a terminal whose far end has written the bytes and is closed: Linux gives the bytes, and then an error (EIO).
use strict;
use warnings;
my $bytes = shift @ARGV;
my ($unlock, $number) = (0x40045431, 0x80045430);    # TIOCSPTLCK, TIOCGPTN
open(my $near, "+<", "/dev/ptmx") or exit 77;
my $zero = pack("i", 0);
ioctl($near, $unlock, $zero) or exit 77;
my $told = pack("i", 0);
ioctl($near, $number, $told) or exit 77;
open(my $far, "+<", "/dev/pts/" . unpack("i", $told)) or exit 77;
my $name = "/dev/pts/" . unpack("i", $told);
system("stty raw -echo <$name") == 0 or exit 77;
syswrite($far, $bytes) == length($bytes) or exit 77;
close($far);
open(STDIN, "<&", $near) or exit 77;
close($near);
exec { $ARGV[0] } @ARGV or exit 77;
