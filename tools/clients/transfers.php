<?php
// Ten transfers between four accounts, and one of more than there is, by PDO; its argument is the client's number.
$me = (int) $argv[1];
$db = new PDO('dblib:host=tsqld', 'sa', 'A', [PDO::ATTR_ERRMODE => PDO::ERRMODE_EXCEPTION]);
$db->exec('SET XACT_ABORT ON');
$done = $fell = 0;
while ($done < 11) {
    [$amount, $to, $from] = [$done < 10 ? 1 : 1000, 1 + ($me + $done) % 4, 1 + ($me + $done + 1) % 4];
    try {
        $db->exec('BEGIN TRANSACTION');
        $db->exec("UPDATE account SET balance = balance + $amount WHERE id = $to");
        $db->exec("UPDATE account SET balance = balance - $amount WHERE id = $from");
        $db->exec('COMMIT');
        $done++;
    } catch (PDOException $error) {
        if (!str_contains($error->getMessage(), 'deadlock victim')) {
            echo "$done transfers, fell $fell\n", $error->getMessage(), "\n";
            break;
        }
        $fell++; // again
    }
}
