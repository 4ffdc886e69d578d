CREATE TABLE t (v integer);
CREATE INDEX i ON t (v);
INSERT INTO t VALUES (1), (2);
SET enable_seqscan TO off;
UPDATE t SET v = 3 WHERE v = 1;
SELECT v FROM t WHERE v >= 1 ORDER BY v;
