CREATE TABLE t (id integer PRIMARY KEY); INSERT INTO t VALUES (1), (2), (3); BEGIN; DECLARE c CURSOR FOR SELECT id FROM t;
\cursors
FETCH 2 c;
\cursors
DELETE FROM t; FETCH PRIOR c;
\cursors
FETCH ALL c;
\cursors
