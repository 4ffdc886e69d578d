-- A statement takes custom plans first, and its generic plan where that is cheaper.
CREATE TABLE t (v integer, w integer);
INSERT INTO t VALUES (1, 1), (1, 2), (1, 3), (1, 4), (1, 5), (2, 6), (3, 7), (4, 8);
CREATE INDEX t_v ON t (v);
ANALYZE t;
EXPLAIN SELECT w FROM t WHERE v = 2;
PREPARE p(integer) AS SELECT w FROM t WHERE v = $1 ORDER BY w;
EXPLAIN EXECUTE p(1);
EXECUTE p(2); EXECUTE p(3); EXECUTE p(4); EXECUTE p(2); EXECUTE p(3);
\prepared
SET plan_cache_mode TO force_generic_plan;
EXPLAIN EXECUTE p(4);
SET enable_seqscan TO off;
DISCARD PLANS;
EXPLAIN EXECUTE p(4);
