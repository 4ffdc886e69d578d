PREPARE p AS SELECT 7;
EXECUTE 'p;
EXECUTE p; -- all of this is one command
EXECUTE "p";
