CREATE TABLE parts (id INT NOT NULL PRIMARY KEY, weight BIGINT CHECK (weight > 0), sold BIT, name NVARCHAR(20))
go
CREATE PROCEDURE add_part @id INT, @name NVARCHAR(20), @count INT OUTPUT AS BEGIN
  INSERT INTO parts VALUES (@id, 1, 1, @name); SELECT @count = COUNT(*) FROM parts; RETURN 7 END
