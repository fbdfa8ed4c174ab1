-- ==
SELECT nothing
-- ==
SELECT relname, nothing FROM pg_class
-- ==
SELECT c.nothing FROM pg_class c
-- ==
SELECT d.relname FROM pg_class c
-- ==
SELECT pg_class.relname FROM pg_class c
-- ==
SELECT * FROM pg_nothing
-- ==
SELECT * FROM pg_catalog.pg_nothing
-- ==
SELECT * FROM nowhere.pg_class
-- ==
SELECT oid FROM pg_class, pg_type
-- ==
SELECT nofunction(1)
-- ==
SELECT pg_catalog.nofunction(1)
-- ==
SELECT 1 + 'x'
-- ==
SELECT 1 + true
-- ==
SELECT 'a' + 'b'
-- ==
SELECT relname + 1 FROM pg_class
-- ==
SELECT 1 FROM pg_class WHERE relname
-- ==
SELECT 1 FROM pg_class WHERE 1
-- ==
SELECT 1 WHERE 'x'
-- ==
SELECT 'x'::int
-- ==
SELECT 'x'::nothing
-- ==
SELECT CAST('x' AS nothing)
-- ==
SELECT 70000::int2
-- ==
SELECT 99999999999::int
-- ==
SELECT 1::name::bool
-- ==
SELECT 1/0
-- ==
SELECT count(*) FROM pg_class WHERE count(*) > 1
-- ==
SELECT relname FROM pg_class GROUP BY 2
-- ==
SELECT relname FROM pg_class ORDER BY 2
-- ==
SELECT relname FROM pg_class ORDER BY nothing
-- ==
SELECT relname FROM pg_class GROUP BY nothing
-- ==
SELECT DISTINCT relname FROM pg_class ORDER BY oid
-- ==
SELECT 1 UNION SELECT 'x'
-- ==
SELECT 1 UNION SELECT 1, 2
-- ==
SELECT 1 UNION SELECT true
-- ==
SELECT CASE WHEN 1 THEN 2 END
-- ==
SELECT CASE WHEN true THEN 2 ELSE 'x' END
-- ==
SELECT CASE WHEN true THEN 2 ELSE true END
-- ==
SELECT COALESCE(1, 'x')
-- ==
SELECT COALESCE(1, true)
-- ==
SELECT ARRAY[1, 'x']
-- ==
SELECT ARRAY[1, true]
-- ==
SELECT 1 IN ('x')
-- ==
SELECT (SELECT 1, 2)
-- ==
SELECT 1 = ANY (1)
-- ==
SELECT 1 BETWEEN 'x' AND 3
-- ==
SELECT NOT 1
-- ==
SELECT true AND 1
-- ==
SELECT - 'x'
-- ==
SELECT - true
-- ==
SELECT 1 LIMIT 'x'
-- ==
SELECT 1 LIMIT -1
-- ==
SELECT 1 OFFSET -1
-- ==
SELECT a.oid FROM pg_class a JOIN pg_class a ON true
-- ==
SELECT 1 FROM pg_class a JOIN pg_type b ON a.nothing = b.oid
-- ==
SELECT 1 FROM pg_class a JOIN pg_type b ON 1
-- ==
SELECT x.* FROM pg_class c
-- ==
SELECT *
-- ==
SELECT 1 FROM generate_series('x', 2)
-- ==
SELECT row_number() OVER (ORDER BY nothing)
-- ==
SELECT 1 WHERE row_number() OVER () = 1
-- ==
SELECT sum('x')
-- ==
SELECT sum(relname) FROM pg_class
-- ==
SELECT max(count(*)) FROM pg_class
-- ==
SELECT pg_get_expr(1)
-- ==
VALUES (1), ('x')
-- ==
VALUES (1), (1, 2)
-- ==
VALUES (1), (true)
-- ==
SELECT 'x'::regclass
-- ==
SELECT 'nothing'::regtype
-- ==
SELECT '(1)'::oid
-- ==
SELECT upper(1)
-- ==
SELECT length(1)
-- ==
SELECT substring('x' from true)
-- ==
SELECT 1 ~ 'x'
-- ==
SELECT relname FROM pg_class WHERE oid = 'x'
-- ==
SELECT relname FROM pg_class WHERE oid = true
-- ==
SELECT 1 ORDER BY 1 + 'x'
-- ==
SELECT set_config('nothing', '', false)
-- ==
SELECT current_setting('nothing')
-- ==
WITH a AS (SELECT nothing) SELECT * FROM a
-- ==
WITH a AS (SELECT 1) SELECT b FROM a
-- ==
WITH a AS (SELECT 1), a AS (SELECT 2) SELECT 1
-- ==
SELECT EXISTS (SELECT nothing)
-- ==
SELECT * FROM (SELECT nothing) x
-- ==
SELECT x.y FROM (SELECT 1 AS z) x
-- ==
SELECT a[1] FROM (SELECT 1 AS a) x
-- ==
SELECT ARRAY[1][true]
-- ==
SELECT ARRAY[1]['x']
-- ==
SELECT nullif(1, true)
-- ==
SELECT greatest(1, true)
-- ==
SELECT 1 || 2
-- ==
SELECT array_to_string(1, 2)
-- ==
SELECT unnest(1)
-- ==
SELECT relname FROM pg_class FOR UPDATE OF nothing
