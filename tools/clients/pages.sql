CREATE TABLE account (id INT NOT NULL PRIMARY KEY, balance INT NOT NULL CHECK (balance >= 0))
INSERT INTO account VALUES (1, 100), (2, 100), (3, 100), (4, 100)
go
BEGIN TRY
  BEGIN TRAN
  UPDATE account SET balance = balance + 1000 WHERE id = 1
  UPDATE account SET balance = balance - 1000 WHERE id = 2
  COMMIT
END TRY
BEGIN CATCH
  IF @@TRANCOUNT > 0 ROLLBACK;
  THROW
END CATCH
go
SELECT id, balance FROM account ORDER BY id
go
