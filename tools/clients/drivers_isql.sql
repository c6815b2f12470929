CREATE TABLE parts (id INT NOT NULL PRIMARY KEY, name NVARCHAR(20))
INSERT INTO parts VALUES (1, N'bolt'), (2, NULL), (3, N'Žé€')
SELECT id, name FROM parts
INSERT INTO parts VALUES (1, N'again')
CREATE PROCEDURE add_part AS SELECT COUNT(*) AS n FROM parts
EXEC add_part
