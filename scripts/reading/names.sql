-- Words are folded to small letters, quoted identifiers are taken as written.
prepare Seven as select 7; EXECUTE SEVEN; execute "seven"; execute "Seven";
PREPARE "Seven" AS SELECT 70; EXECUTE "Seven"; EXECUTE seven;
-- Letters past ASCII are letters, and aren't folded.
PREPARE Änne AS SELECT 1; EXECUTE Änne; EXECUTE änne; EXECUTE "Änne";
PREPARE 日本$_2 AS SELECT 2; EXECUTE 日本$_2;
-- Only reserved words are no names.
PREPARE prepare AS SELECT 3; EXECUTE prepare; PREPARE execute AS SELECT 4; EXECUTE execute;
PREPARE select AS SELECT 5; PREPARE as AS SELECT 5; EXECUTE table;
PREPARE "select" AS SELECT 6; EXECUTE "select"; EXECUTE select;
PREPARE " " AS SELECT 8; EXECUTE " "; EXECUTE "";
