CREATE TABLE orders (id INT NOT NULL PRIMARY KEY, customer NVARCHAR(20) NOT NULL);
CREATE TABLE items (order_id INT NOT NULL REFERENCES orders (id), line INT NOT NULL,
  qty INT NOT NULL CHECK (qty > 0), price INT NOT NULL, PRIMARY KEY (order_id, line))
go
INSERT INTO orders VALUES (1, N'Ann'), (2, N'Bob'), (3, N'Cy');
INSERT INTO items VALUES (1, 1, 2, 50), (1, 2, 1, 30), (2, 1, 4, 10)
go
SELECT o.customer, SUM(i.qty * i.price) AS total
FROM orders o LEFT JOIN items i ON i.order_id = o.id
GROUP BY o.customer ORDER BY o.customer
go
CREATE PROCEDURE add_item @o INT, @q INT, @n INT OUTPUT AS
BEGIN
  SELECT @n = COUNT(*) + 1 FROM items WHERE order_id = @o;
  INSERT INTO items VALUES (@o, @n, @q, 10);
  RETURN 7;
END
go
DECLARE @n INT;
EXEC add_item 3, 5, @n OUTPUT;
SELECT @n
go
DECLARE @n INT, @status INT;
EXEC @status = add_item 3, 5, @n OUTPUT;
SELECT @n, @status
go
INSERT INTO items VALUES (9, 1, 1, 1);
INSERT INTO items VALUES (1, 3, 0, 5)
go
DECLARE @i INT, @s INT = 0;
DECLARE c CURSOR STATIC FOR SELECT id FROM orders ORDER BY id DESC;
OPEN c;
FETCH NEXT FROM c INTO @i;
WHILE @@FETCH_STATUS = 0
BEGIN
  SET @s = @s * 10 + @i;
  FETCH NEXT FROM c INTO @i;
END;
CLOSE c;
DEALLOCATE c;
SELECT @s
go
