-- A prepared statement is kept under its name until the session ends.
PREPARE p AS SELECT 7;
EXECUTE p;
EXECUTE p;

PREPARE answer AS SELECT 42;
EXECUTE answer;
