-- Behind a DECLARE of @me, the client's number: ten transfers between four accounts, and one of more than there is.
SET NOCOUNT ON
DECLARE @done INT = 0, @fell INT = 0, @amount INT = 1
WHILE @done < 11
BEGIN TRY
  IF @done = 10 SET @amount = 1000
  BEGIN TRANSACTION
  UPDATE account SET balance = balance + @amount WHERE id = 1 + (@me + @done) % 4
  UPDATE account SET balance = balance - @amount WHERE id = 1 + (@me + @done + 1) % 4
  COMMIT
  SET @done = @done + 1
END TRY
BEGIN CATCH
  ROLLBACK
  IF ERROR_NUMBER() <> 1205
  BEGIN
    SELECT @done, 'transfers, fell', @fell;
    THROW
  END
  SET @fell = @fell + 1 -- again
END CATCH
go
