# Runs the batches of orders.sql by DBI and DBD::Sybase.
use strict;
use DBI;
use DBD::Sybase; # for CS_STATUS_RESULT

open my $file, '<', 'orders.sql' or die $!;
my ($create, $fill, $totals, $procedure, $call, $status, $wrong, $cursor) = split /\ngo\n/, join '', <$file>;
close $file;

my $db = DBI->connect('dbi:Sybase:server=tsqld', 'sa', 'A', { PrintError => 0, RaiseError => 1 });
$db->do($create);
$db->do($fill);
for my $row (@{ $db->selectall_arrayref($totals) }) {
    print "$row->[0] ", $row->[1] // 'NULL', "\n";
}
$db->do($procedure);
for my $text ($call, $status) {
    my $result = $db->prepare($text);
    $result->execute;
    do {
        while (my $row = $result->fetch) {
            next if $result->{syb_result_type} == CS_STATUS_RESULT; # 7, as a result of its own
            print "@$row\n";
        }
    } while $result->{syb_more_results};
}
eval { $db->do($wrong) };
print $@;
print $db->selectrow_array($cursor), "\n";
