CREATE TABLE q (id integer, x integer);
EXPLAIN SELECT id FROM q WHERE 10 / x > 1;
