PREPARE p AS SELECT 7;
/* /* one comment has ended */ ;
EXECUTE p;
