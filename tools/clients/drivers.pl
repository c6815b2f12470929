# Parameters, prepared statements and transactions by DBI and DBD::Sybase.
use strict;
use warnings;
use DBI;

my ($create, $procedure) = split /\ngo\n/, do { local (@ARGV, $/) = 'drivers.sql'; <> };

# (An empty text is sent as a blank.)
sub show {
    print join(' ', map { !defined $_ ? 'NULL' : /^ ?$/ ? "''" : $_ } @_), "\n";
}

my $db = DBI->connect('dbi:Sybase:server=tsqld;charset=utf8', 'sa', 'A', { PrintError => 0, RaiseError => 1 });
$db->do($create);
$db->do($procedure);
my $insert = $db->prepare('INSERT INTO parts VALUES (?, ?, ?, ?)');
print $insert->execute(1, 2**40, 1, 'bolt'), " added\n";
$db->do('BEGIN TRANSACTION');
$insert->execute(@$_) for [2, undef, 0, ''], [3, 7, undef, undef], [4, 8, 1, 'Žé€'];
$db->do('COMMIT');
my $all = $db->prepare('SELECT id, weight, sold, name FROM parts WHERE id >= ? AND id < ? ORDER BY id');
$all->execute(1, 5);
while (my $row = $all->fetch) {
    show(@$row);
}
for ([2, 1, 1, 'again'], [5, -1, 1, 'light']) {
    eval { $insert->execute(@$_) };
    print $@;
}
$db->do('BEGIN TRANSACTION');
$insert->execute(5, 9, 1, 'gone');
$db->do('ROLLBACK');
my $find = $db->prepare('SELECT name FROM parts WHERE id = ?');
for (1, 4) {
    $find->execute($_);
    while (my $row = $find->fetch) { # to its end: behind `finish` nothing more is sent
        show(@$row);
    }
}
my $call = $db->prepare('EXEC add_part ?, ?, ? OUTPUT');
$call->bind_param(1, 5, DBI::SQL_INTEGER);
$call->bind_param(2, 'nut');
$call->bind_param(3, 0, DBI::SQL_INTEGER);
$call->execute;
my @told;
do {
    while (my $row = $call->fetch) {
        push @told, @$row;
    }
} while $call->{syb_more_results};
show(@told);
print 'long ', $db->selectrow_array('SELECT LEN(?)', undef, 'x' x 4000), "\n";
eval { $db->selectrow_array('SELECT LEN(?)', undef, 'x' x 4001) };
print $@;
