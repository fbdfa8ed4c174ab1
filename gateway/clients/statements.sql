-- All statements of the reference, by psql. statements.out beside it has what psql prints.
\set VERBOSITY verbose
\set SHOW_CONTEXT never
\pset null NULL

-- Tables
CREATE TABLE stock (id INTEGER PRIMARY KEY, name VARCHAR2(20), price NUMBER(8,2), pieces INTEGER RESERVABLE CONSTRAINT in_stock CHECK (pieces >= 0), held NUMBER(6,1) RESERVABLE, CHECK (pieces - held >= 0 AND held <= 500));
CREATE TABLE stock (id INTEGER PRIMARY KEY, n INTEGER RESERVABLE);
CREATE TABLE second (code VARCHAR2(8), PRIMARY KEY (code), n INTEGER NOT NULL RESERVABLE);
CREATE TABLE bad (id INTEGER PRIMARY KEY, n INTEGER RESERVABLE, CHECK (n - n <= 5));
SHOW TABLE stock;
SHOW TABLE nothing;

-- Rows
INSERT INTO stock VALUES (1, 'Bob''s tea', 9.50, 40, 1.5);
INSERT INTO stock (held, pieces, price, name, id) VALUES (0, 12, -0.05, 'back\slash | bar', 2);
INSERT INTO stock VALUES (3, 'U+2028 is ' || 'none', 1, 1, 0);
INSERT INTO stock VALUES (999999999999999, 'ä€𝄞', 123456.78, 999999999999999, 0.5);
INSERT INTO second VALUES ('K', -7);
INSERT INTO stock VALUES (1, 'again', 1, 1, 0);
INSERT INTO stock VALUES (4, 'broken', 1, -1, 0);
INSERT INTO stock VALUES (4, 'a text that is longer than twenty', 1, 1, 0);
INSERT INTO stock VALUES (4, 'x', 1.005, 1, 0);
INSERT INTO stock VALUES (4, 'x', 1);
SELECT * FROM stock;
SELECT * FROM stock WHERE id = 2;
SELECT * FROM stock WHERE id = 5;
SELECT * FROM stock WHERE name = 'x';
SELECT * FROM second WHERE code = 'K';
SELECT * FROM nothing;

-- Changes that commit by themselves
UPDATE stock SET pieces = pieces - 3, held = held + 0.5 WHERE id = 1;
UPDATE stock SET pieces = pieces - 100 WHERE id = 1;
UPDATE stock SET name = 'Green tea', price = 10 WHERE id = 1;
UPDATE stock SET name = 'nobody' WHERE id = 5;
UPDATE stock SET pieces = pieces - 1 WHERE id = 5;
UPDATE stock SET pieces = 5 WHERE id = 1;
UPDATE stock SET id = 5 WHERE id = 1;
UPDATE stock SET pieces = pieces - 1 WHERE name = 'x';
SELECT * FROM stock WHERE id = 1;

-- A block
BEGIN;
UPDATE stock SET pieces = pieces - 1 WHERE id = 2;
SAVEPOINT first;
UPDATE stock SET pieces = pieces - 2 WHERE id = 2;
SAVEPOINT "Second one";
UPDATE stock SET pieces = pieces - 4 WHERE id = 2;
SHOW BOUNDS stock WHERE id = 2;
SHOW JOURNAL;
SHOW JOURNAL second;
ROLLBACK TO SAVEPOINT "Second one";
RELEASE SAVEPOINT "Second one";
ROLLBACK TO first;
RELEASE first;
SHOW BOUNDS stock WHERE id = 2;
COMMIT;
SELECT * FROM stock WHERE id = 2;

-- A block that fails, and one that is rolled back
BEGIN WORK;
UPDATE stock SET pieces = pieces - 1 WHERE id = 2;
UPDATE stock SET pieces = pieces - 100 WHERE id = 2;
UPDATE stock SET pieces = pieces - 1 WHERE id = 2;
COMMIT WORK;
START TRANSACTION;
UPDATE stock SET pieces = pieces - 1 WHERE id = 2;
INSERT INTO second VALUES ('L', 1);
ROLLBACK;
BEGIN;
SAVEPOINT s;
SELECT * FROM nothing;
ROLLBACK TO s;
UPDATE stock SET held = held + 1 WHERE id = 2;
END;
ABORT;
SELECT * FROM stock WHERE id = 2;

-- Checks
ALTER TABLE second ADD CONSTRAINT cap CHECK (n <= 10 AND n BETWEEN -20 AND 20);
ALTER TABLE second ADD CONSTRAINT cap CHECK (n <= 11);
ALTER TABLE second ADD CONSTRAINT low CHECK (n >= 0);
SHOW TABLE second;
SHOW BOUNDS second WHERE code = 'K';
ALTER TABLE second DROP CONSTRAINT cap_2;
ALTER TABLE second DROP CONSTRAINT cap_2;

-- What is there for drivers, and what is not there
SELECT * FROM stock WHERE id = 1 LIMIT 1;
SELECT count(*) FROM stock;
COPY stock TO STDOUT;
LISTEN news;
DECLARE c CURSOR FOR SELECT * FROM stock;
\d
SET idle_in_transaction_session_timeout = '5s';
SHOW idle_in_transaction_session_timeout;
SHOW transaction isolation level;
SHOW server_encoding;
DISCARD ALL;

-- Faults of the syntax
SELEC * FROM stock;
UPDATE stock SET pieces = pieces / 2 WHERE id = 1;
  UPDATE stock /* a comment ä */ SET pieces = pieces - 1 -- another
    WHERE id = = 1;
UPDATE stock SET pieces = pieces - 1234567890123456 WHERE id = 1;
SELECT * FROM stock WHERE name = 'no end;
';
;

-- Ends
SHOW STATISTICS \gset was_
\echo :was_granted :was_broken :was_writes
DELETE FROM second WHERE code = 'K';
DELETE FROM second WHERE code = 'K';
DROP TABLE second;
DROP TABLE second;
DROP TABLE stock;
