\pset null NULL
SELECT * FROM stock;
\x
SELECT * FROM stock WHERE id = 2;
\x
UPDATE stock
   SET pieces = pieces - 2 -- two of them
 WHERE id = 1;
UPDATE stock SET pieces = pieces - 20 WHERE id = 1;
\echo :LAST_ERROR_SQLSTATE :ERROR :SQLSTATE :ROW_COUNT
BEGIN;
UPDATE stock SET pieces = pieces - 1 WHERE id = 1;
UPDATE stock SET pieces = pieces + 3 WHERE id = 2;
SAVEPOINT one;
UPDATE stock SET pieces = pieces - 99 WHERE id = 2;
SELECT * FROM stock WHERE id = 1;
ROLLBACK TO one;
\echo :LAST_ERROR_SQLSTATE :ERROR :SQLSTATE :ROW_COUNT
COMMIT;
SELECT * FROM stock WHERE id = 1;
SELECT * FROM stock WHERE id = 2;
BEGIN;
UPDATE stock SET pieces = pieces - 99 WHERE id = 2;
COMMIT;
\set ON_ERROR_ROLLBACK on
BEGIN;
UPDATE stock SET pieces = pieces - 99 WHERE id = 2;
UPDATE stock SET pieces = pieces - 1 WHERE id = 2;
COMMIT;
\set ON_ERROR_ROLLBACK off
SELECT * FROM stock WHERE id = 2;
\set AUTOCOMMIT off
UPDATE stock SET pieces = pieces - 1 WHERE id = 2;
ROLLBACK;
UPDATE stock SET pieces = pieces - 1 WHERE id = 2;
COMMIT;
\set AUTOCOMMIT on
SELECT * FROM stock WHERE id = 2 \gx
SELECT * FROM stock WHERE id = 2 \gset was_
\echo :was_id :was_pieces :was_price :was_name
UPDATE stock SET name = :'was_name', price = :was_price WHERE id = 1;
UPDATE stock SET name = E'\\ and \'' WHERE id = 3;
SELECT * FROM stock WHERE id = 3;
SELECT * FROM stock WHERE id = 1\; SELECT * FROM stock WHERE id = 2;
UPDATE stock SET pieces = pieces - 1 WHERE id = 1\; UPDATE stock SET pieces = pieces - 99 WHERE id = 1;
SELECT * FROM stock WHERE id = 1;
INSERT INTO stock VALUES (1, 5, 9.50, 'tea');
INSERT INTO stock (name, price, pieces, id) VALUES ('cup', 2, 3, 4);
DELETE FROM stock WHERE id = 4;
DELETE FROM stock WHERE id = 4;
SELECT * FROM nothing;
SELEC;
COMMIT;
ROLLBACK;
SAVEPOINT one;
\pset format unaligned
SELECT * FROM stock WHERE id = 1;
\pset format csv
SELECT * FROM stock WHERE id = 1;
\pset format html
SELECT * FROM stock WHERE id = 3;
DROP TABLE stock;
SELECT * FROM stock;
