<?php
// Beside its other, with LOCK_TIMEOUT 0 and then in a deadlock, by PDO; its argument is 1 or 2.
$me = (int) $argv[1];
$other = 3 - $me;
$db = new PDO('dblib:host=tsqld', 'sa', 'A', [PDO::ATTR_ERRMODE => PDO::ERRMODE_EXCEPTION]);
$db->exec('BEGIN TRANSACTION');
$db->exec("INSERT INTO seat VALUES ($me)");
$db->exec('SET LOCK_TIMEOUT 0');
try {
    while (true) { // until the other has its row
        $db->query("SELECT id FROM seat WHERE id = $other")->fetchAll();
    }
} catch (PDOException $error) {
    echo $error->getMessage(), "\n";
}
$db->exec('SET LOCK_TIMEOUT -1');
try {
    $db->exec("INSERT INTO seat VALUES ($other)");
    $db->exec('COMMIT');
    echo "committed\n";
} catch (PDOException $error) {
    echo $error->getMessage(), "\n";
}
