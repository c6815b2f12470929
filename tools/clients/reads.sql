SELECT id, weight, name FROM parts ORDER BY id
go
INSERT INTO parts VALUES (5, 9, 1, N'nut')
go
UPDATE parts SET weight = weight + 1 WHERE id >= 4
go
SELECT COUNT(*), SUM(weight) FROM parts
go
INSERT INTO parts VALUES (1, 1, 1, N'again')
go
