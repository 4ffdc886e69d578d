PREPARE/**/p/* one /* two /* three */ */ ; ' " */AS--SELECT 1;
SELECT--
7;
-- A comment begins no comment of the other kind: /*
EXECUTE p /* -- */;
/* nor does a quote in one begin a string: ' */ EXECUTE p;
/*/ this slash ends nothing */ EXECUTE p;
EXECUTE p - - ;
EXECUTE p; -- the last comment may end with the script
