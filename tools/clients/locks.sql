-- Behind a DECLARE of @me, 1 or 2: beside its other, with LOCK_TIMEOUT 0 and then in a deadlock.
SET NOCOUNT ON
BEGIN TRANSACTION
INSERT INTO seat VALUES (@me)
SET LOCK_TIMEOUT 0
DECLARE @refused BIT = 0, @n INT
WHILE @refused = 0
BEGIN TRY
  SELECT @n = COUNT(*) FROM seat WHERE id = 3 - @me
END TRY
BEGIN CATCH
  SELECT ERROR_MESSAGE()
  SET @refused = 1
END CATCH
SET LOCK_TIMEOUT -1
INSERT INTO seat VALUES (3 - @me)
COMMIT
SELECT 'committed'
go
