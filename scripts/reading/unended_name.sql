PREPARE p AS SELECT 7;
EXECUTE "p;
EXECUTE p; 'this is a part of the name;
