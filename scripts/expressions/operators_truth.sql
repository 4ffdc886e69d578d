-- The truth values of AND, OR, NOT and IS NULL.
PREPARE both(boolean, boolean) AS SELECT $1 AND $2, $1 OR $2;
EXECUTE both(false, false); EXECUTE both(false, true); EXECUTE both(false, NULL);
EXECUTE both(true, false); EXECUTE both(true, true); EXECUTE both(true, NULL);
EXECUTE both(NULL, false); EXECUTE both(NULL, true); EXECUTE both(NULL, NULL);
PREPARE one(boolean) AS SELECT NOT $1, $1 IS NULL, $1 IS NOT NULL;
EXECUTE one(false); EXECUTE one(true); EXECUTE one(NULL);
-- An operand that decides hides no fault, and of two faults the first stands.
PREPARE divides(bigint, boolean) AS SELECT $2 AND 1 / $1 = 1; EXECUTE divides(0, false);
PREPARE divided(bigint, boolean) AS SELECT $2 OR 1 / $1 = 1; EXECUTE divided(0, true);
PREPARE first(bigint, bigint) AS SELECT $1 + 1 = 1 AND 1 / $2 = 1; EXECUTE first(9223372036854775807, 0); EXECUTE first(9223372036854775807, 1); EXECUTE first(0, 0); EXECUTE first(0, 1);
PREPARE met(bigint) AS SELECT 1 WHERE 1 / $1 = 1; EXECUTE met(0); EXECUTE met(1); EXECUTE met(2); EXECUTE met(NULL);
-- The opposite of each edge.
PREPARE minus_smallint(smallint) AS SELECT -$1;
EXECUTE minus_smallint(-32768); EXECUTE minus_smallint(32767); EXECUTE minus_smallint(0); EXECUTE minus_smallint(-1); EXECUTE minus_smallint(NULL);
PREPARE minus_integer(integer) AS SELECT -$1;
EXECUTE minus_integer(-2147483648); EXECUTE minus_integer(2147483647); EXECUTE minus_integer(0); EXECUTE minus_integer(-1); EXECUTE minus_integer(NULL);
PREPARE minus_bigint(bigint) AS SELECT -$1;
EXECUTE minus_bigint(-9223372036854775808); EXECUTE minus_bigint(9223372036854775807); EXECUTE minus_bigint(0); EXECUTE minus_bigint(-1); EXECUTE minus_bigint(NULL);
-- Pairs of types without the operator.
PREPARE wrong(text, text) AS SELECT $1 + $2;
PREPARE wrong(text, integer) AS SELECT $1 < $2;
PREPARE wrong(boolean, smallint) AS SELECT $1 = $2;
PREPARE wrong(boolean, boolean) AS SELECT $1 + $2;
PREPARE wrong(text, boolean) AS SELECT $1 <> $2;
PREPARE wrong(bigint, text) AS SELECT $1 >= $2;
PREPARE wrong(smallint, boolean) AS SELECT $1 * $2;
PREPARE wrong(integer, text) AS SELECT $1 / $2;
PREPARE wrong(boolean, text) AS SELECT $1 - $2;
