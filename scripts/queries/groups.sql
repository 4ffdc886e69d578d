CREATE TABLE r (g integer, x integer);
INSERT INTO r VALUES (1, 5), (1, NULL), (NULL, 2);
SELECT g, count(*), sum(x) FROM r GROUP BY g ORDER BY g DESC;
