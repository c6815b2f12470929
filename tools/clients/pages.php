<?php
// Values that are bound, and a transaction by calls of PDO, over the two tables of the page and a table t.
$db = new PDO('dblib:host=tsqld', 'sa', 'A', [PDO::ATTR_ERRMODE => PDO::ERRMODE_SILENT]);
$db->exec('CREATE TABLE orders (id INT NOT NULL PRIMARY KEY, customer NVARCHAR(20) NOT NULL)');
$db->exec('CREATE TABLE items (order_id INT NOT NULL REFERENCES orders (id), line INT NOT NULL,
  qty INT NOT NULL CHECK (qty > 0), price INT NOT NULL, PRIMARY KEY (order_id, line))');
$db->exec("INSERT INTO orders VALUES (1, N'Ann'), (2, N'Bob')");
$add = $db->prepare('INSERT INTO items VALUES (?, ?, ?, ?)');
foreach ([[2, 2, 5, 10], [3, 1, 1, 10], [1, 3, 0, 10]] as $row) {
    echo $add->execute($row) ? 'done' : $add->errorInfo()[2], "\n";
}
// done
// The statement conflicted with the constraint 'FK_items_1'. [20018] (severity 16) [INSERT INTO items VALUES ('3', '1', '1', '10')]
// The statement conflicted with the constraint 'CK_items_1'. [20018] (severity 16) [INSERT INTO items VALUES ('1', '3', '0', '10')]
$db->setAttribute(PDO::ATTR_ERRMODE, PDO::ERRMODE_EXCEPTION);
$db->exec('CREATE TABLE t (k INT NOT NULL PRIMARY KEY)');
try {
    $db->beginTransaction();
    $db->exec('INSERT t VALUES (1)');
    $db->exec('INSERT t VALUES (1)');
    $db->commit();
} catch (PDOException $e) {
    echo $e->getMessage(), "\n";    // SQLSTATE[HY000]: General error: 20018 Violation of constraint 'PK_t'. Duplicate key. [20018] (severity 14) []
    $db->rollBack();
}
echo $db->query('SELECT COUNT(*) FROM t')->fetchColumn(), "\n";    // 0
