CREATE TABLE q (id integer, x integer);
INSERT INTO q VALUES (1, 2), (2, 0);
SELECT id FROM q WHERE 10 / x > 1;
SELECT id FROM q WHERE 10 / x > 1 AND x <> 0;
CREATE VIEW w AS SELECT id, x FROM q WHERE x <> 0;
SELECT id FROM w WHERE 10 / x > 1;
CREATE VIEW z AS SELECT id FROM q WHERE 10 / x > 1;
