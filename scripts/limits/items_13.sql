CREATE TABLE t (a integer);
INSERT INTO t VALUES (1);
SELECT count(*) FROM t t0, t t1, t t2, t t3, t t4, t t5, t t6, t t7, t t8, t t9, t t10, t t11, t t12;
