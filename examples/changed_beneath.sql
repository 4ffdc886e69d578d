-- A prepared statement keeps what its names meant, and is analysed again when that changes.
CREATE TABLE item (id integer PRIMARY KEY, price integer NOT NULL);
INSERT INTO item VALUES (1, 30), (2, 12);
CREATE VIEW cheap AS SELECT id, price FROM item WHERE price < 20;
PREPARE list AS SELECT id, price FROM cheap ORDER BY id;
EXECUTE list;

-- The view is replaced: the statement answers by the new one.
CREATE OR REPLACE VIEW cheap AS SELECT id, price FROM item WHERE price < 40;
EXECUTE list;

-- A rollback of a change is a change too.
BEGIN;
ALTER TABLE item RENAME COLUMN price TO cost;
ROLLBACK;
\prepared
EXECUTE list;

-- Another type of the answer is refused, until it is back.
PREPARE everything AS SELECT * FROM item ORDER BY id;
ALTER TABLE item ADD COLUMN name text DEFAULT 'nameless';
EXECUTE everything;
ALTER TABLE item DROP COLUMN name;
EXECUTE everything;
