-- Savepoints take back rows, tables and settings, but no prepared statement.
CREATE TABLE account (name text PRIMARY KEY, amount bigint NOT NULL);
INSERT INTO account VALUES ('ann', 100), ('bo', 50);
BEGIN;
UPDATE account SET amount = amount - 30 WHERE name = 'ann' RETURNING name, amount;
SAVEPOINT s;
PREPARE total AS SELECT count(*), max(amount) FROM account;
SET LOCAL plan_cache_mode TO force_custom_plan;
INSERT INTO account VALUES ('ann', 1);
SELECT 1;
ROLLBACK TO s;
SHOW plan_cache_mode;
UPDATE account SET amount = amount + 30 WHERE name = 'bo';
COMMIT;
SELECT name, amount FROM account ORDER BY name;
EXECUTE total;
