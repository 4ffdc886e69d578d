-- A cursor shows the rows of its opening, whatever follows.
CREATE TABLE n (id integer PRIMARY KEY);
INSERT INTO n VALUES (1), (2), (3), (4);
BEGIN;
DECLARE c CURSOR FOR SELECT id FROM n ORDER BY id;
FETCH 2 c;
DELETE FROM n;
FETCH ALL c;
FETCH BACKWARD 2 c;
SELECT count(*) FROM n;
ROLLBACK;

-- WITH HOLD it outlives its transaction, and its table.
BEGIN;
DECLARE kept CURSOR WITH HOLD FOR SELECT id FROM n ORDER BY id DESC;
FETCH kept;
COMMIT;
DROP TABLE n;
FETCH ALL kept;
\cursors
CLOSE kept;
