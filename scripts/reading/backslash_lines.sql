PREPARE p AS SELECT 7;
 /* a line that begins with a backslash ends at the line feed */ \nothing 'here; /* "
EXECUTE p; \; EXECUTE p
EXECUTE p \;
EXECUTE p; \
