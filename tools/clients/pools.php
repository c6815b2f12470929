<?php
// A persistent connection of PDO that was given back and is taken again; its argument is dblib or odbc.
function connect($is_persistent) {
    global $argv;
    $server = $argv[1] == 'odbc' ? 'odbc:DRIVER=FreeTDS;SERVERNAME=tsqld' : 'dblib:host=tsqld';
    return new PDO($server, 'sa', 'A', [PDO::ATTR_ERRMODE => PDO::ERRMODE_EXCEPTION, PDO::ATTR_PERSISTENT => $is_persistent]);
}

function add($db, $id) {
    $db->prepare('INSERT INTO shelf VALUES (?)')->execute([$id]);
}

// Takes the connection again that was given back, and tells how many rows there are.
function again($what) {
    $db = connect(true);
    $count = $db->prepare('SELECT COUNT(*) FROM shelf WHERE id > ?');
    $count->execute([0]);
    echo $what, ' ', $count->fetchColumn(), "\n";
}

$db = connect(true);
$db->exec('DECLARE mark CURSOR STATIC FOR SELECT id FROM shelf');
$db->beginTransaction();
add($db, 2);
$db = null;
again('open');
$beside = connect(false);
$beside->exec('SET LOCK_TIMEOUT 0');
add($beside, 2);
echo "free\n";
$db = connect(true);
try {
    add($db, 1);
} catch (PDOException $error) {
    echo $error->getMessage(), "\n";
}
$db = $error = null;
again('failed');
$db = connect(true);
$rows = $db->prepare('SELECT id FROM shelf WHERE id > ?');
$rows->execute([0]);
$rows->fetch();
$rows = $db = null;
again('unread');
connect(true)->exec('DEALLOCATE mark');
echo "the same session\n";
