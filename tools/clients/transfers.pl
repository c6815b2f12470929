# Ten transfers between four accounts, and one of more than there is, by DBI and DBD::Sybase; its argument is the client's number.
use strict;
use DBI;

my $me = shift;
my $db = DBI->connect('dbi:Sybase:server=tsqld', 'sa', 'A', { PrintError => 0, RaiseError => 1 });
$db->do('SET XACT_ABORT ON');
my ($done, $fell) = (0, 0);
while ($done < 11) {
    my ($amount, $to, $from) = ($done < 10 ? 1 : 1000, 1 + ($me + $done) % 4, 1 + ($me + $done + 1) % 4);
    eval {
        $db->do("BEGIN TRANSACTION
UPDATE account SET balance = balance + $amount WHERE id = $to
UPDATE account SET balance = balance - $amount WHERE id = $from
COMMIT");
        $done++;
    };
    next unless $@;
    if ($@ !~ /deadlock victim/) {
        print "$done transfers, fell $fell\n$@";
        last;
    }
    $fell++; # again
}
