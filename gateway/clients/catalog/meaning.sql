-- What the evaluator knows: operators, functions, joins, groups, sorts, types and faults, each as a query of its own.
-- ==
SELECT 1 WHERE NULL
-- ==
SELECT NULL::int + 1
-- ==
SELECT 'a' = 'a ', 'a'::name = 'a'::text
-- ==
SELECT 1::int2 + 1::int2
-- ==
SELECT 32767::int2 + 1::int2
-- ==
SELECT 2147483647 + 1
-- ==
SELECT -2147483648
-- ==
SELECT 9223372036854775808
-- ==
SELECT 0.1 + 0.2, 1.10 * 1.1, 1 + 1.5
-- ==
SELECT 5 % 3, -5 % 3, 5 / -2
-- ==
SELECT 1 = 1.0, 1::int8 = 1::int2, '1' = 1
-- ==
SELECT true AND NULL, false OR NULL, NOT NULL
-- ==
SELECT true::int, 0::bool, 'yes'::bool::text
-- ==
SELECT '1'::oid = 1, 1::oid::int8
-- ==
SELECT -1::oid
-- ==
SELECT ARRAY[1,2] || 3, ARRAY[1,2] || ARRAY[3], 0 || ARRAY[1]
-- ==
SELECT ARRAY[1,2] = '{1,2}', ARRAY['a'] || 'b'
-- ==
SELECT ARRAY[]::int[], ARRAY[NULL]
-- ==
SELECT ARRAY[]
-- ==
SELECT array_to_string(ARRAY[1,NULL,3], ',', '*')
-- ==
SELECT string_to_array('a,b', ','), string_to_array('', ','), string_to_array('abc', NULL)
-- ==
SELECT array_upper('{}'::int[], 1), array_length('{1,2}'::int[], 2), cardinality('{}'::int[])
-- ==
SELECT array_position(ARRAY['a','b'], 'b'), array_remove(ARRAY[1,2,1], 1)
-- ==
SELECT CASE WHEN 1=1 THEN 'a' ELSE NULL END, CASE 1 WHEN 1 THEN 1.5 ELSE 2 END
-- ==
SELECT CASE WHEN true THEN 1 ELSE 'x' END
-- ==
SELECT COALESCE(NULL, NULL), COALESCE(NULL, 'a'), COALESCE(1, 2.5)
-- ==
SELECT NULLIF('a', 'b'), NULLIF(1, 1.0)
-- ==
SELECT GREATEST('a', 'b'), LEAST(1, 2.5)
-- ==
SELECT 'abc' LIKE 'a_c', 'a%c' LIKE 'a\%c', 'abc' LIKE NULL
-- ==
SELECT 'ABC' ~* 'b', 'abc' !~ 'b', 'a.c' ~ 'a\.c'
-- ==
SELECT substring('hello', 2, 3), substring('hello', -1, 3), substr('hello', 3), left('hello', -2), right('hello', 2)
-- ==
SELECT trim('  a '), ltrim('xxa', 'x'), rtrim('axx', 'x'), trim(leading 'x' from 'xa')
-- ==
SELECT upper('abc'), length('äö'), octet_length('äö'), position('c' in 'abc'), strpos('abc', 'z')
-- ==
SELECT replace('abc', 'b', 'xx'), split_part('a,b,c', ',', 2), split_part('a,b,c', ',', -1), starts_with('abc', 'ab')
-- ==
SELECT quote_ident('Abc'), quote_ident('select'), quote_ident('abc'), quote_literal('a''b'), quote_literal(E'a\\b')
-- ==
SELECT concat('a', NULL, 1, true), concat_ws('-', 'a', NULL, 2)
-- ==
SELECT abs(-5), mod(7, 3)
-- ==
SELECT x, y FROM (VALUES (1, 'a'), (2, NULL)) v(x, y) ORDER BY x DESC
-- ==
SELECT * FROM (VALUES (1), (2.5)) v
-- ==
VALUES (1, 'a'), (2, 'b') ORDER BY 1 DESC
-- ==
SELECT 1 AS a UNION SELECT 2 ORDER BY a DESC
-- ==
SELECT 1 UNION ALL SELECT 1 INTERSECT SELECT 1
-- ==
SELECT 1 EXCEPT ALL SELECT 1
-- ==
(SELECT 1 LIMIT 1) UNION ALL (SELECT 2 ORDER BY 1)
-- ==
SELECT count(*) FROM generate_series(1, 10) x WHERE x > 5
-- ==
SELECT x/3, count(*), sum(x), min(x), max(x) FROM generate_series(1, 9) x GROUP BY 1 ORDER BY 1
-- ==
SELECT count(DISTINCT x/3), array_agg(DISTINCT x/3), bool_and(x > 0), bool_or(x > 8), string_agg(x::text, ',') FROM generate_series(1, 9) x
-- ==
SELECT x % 2 = 0 AS even, count(*) FROM generate_series(1, 5) x GROUP BY even ORDER BY even
-- ==
SELECT sum(x::int8), sum(1.5) FROM generate_series(1, 3) x
-- ==
SELECT DISTINCT ON (x % 2) x FROM generate_series(1, 5) x ORDER BY x % 2, x DESC
-- ==
SELECT (SELECT 1), (SELECT 1 WHERE false), EXISTS(SELECT 1 WHERE false)
-- ==
SELECT x, (SELECT count(*) FROM generate_series(1, x) y) FROM generate_series(1, 3) x
-- ==
SELECT 2 = ANY(SELECT 1 UNION SELECT 2), 3 > ALL(SELECT 1), 1 NOT IN (SELECT 2), NULL IN (SELECT 1), 1 IN (SELECT 1 WHERE false)
-- ==
SELECT (1, 'a') = (1, 'a'), (1, 2) <> (1, NULL), (1, 2) IN (SELECT 1, 2)
-- ==
SELECT a.x, b.x FROM generate_series(1,3) a(x), generate_series(2,4) b(x) WHERE a.x = b.x ORDER BY 1
-- ==
SELECT a.x, b.x FROM generate_series(1,3) a(x) LEFT JOIN generate_series(2,4) b(x) ON a.x = b.x AND b.x > 2 ORDER BY 1
-- ==
SELECT a.x, b.x FROM generate_series(1,3) a(x) LEFT JOIN generate_series(2,4) b(x) ON a.x = b.x WHERE b.x > 2 OR b.x IS NULL ORDER BY 1
-- ==
SELECT a.x, b.x, c.x FROM generate_series(1,3) a(x) LEFT JOIN generate_series(2,4) b(x) ON a.x = b.x LEFT JOIN generate_series(3,5) c(x) ON b.x = c.x ORDER BY 1
-- ==
SELECT a.x, b.x, c.x FROM generate_series(1,3) a(x) RIGHT JOIN generate_series(2,4) b(x) ON a.x = b.x JOIN generate_series(3,5) c(x) ON b.x = c.x ORDER BY 2
-- ==
SELECT * FROM (SELECT 1 AS a, 2 AS b) x JOIN (SELECT 1 AS a, 3 AS c) y USING (a) JOIN (SELECT 1 AS a, 4 AS d) z USING (a)
-- ==
SELECT * FROM generate_series(1,2) a(x), LATERAL (SELECT x * 2 AS y) l ORDER BY 1
-- ==
SELECT * FROM unnest(ARRAY[1,2], ARRAY['a','b','c']) WITH ORDINALITY AS t(a, b, n)
-- ==
SELECT generate_series(1, 3), generate_series(1, 2)
-- ==
SELECT x, row_number() OVER (ORDER BY x DESC) FROM generate_series(1, 3) x ORDER BY 1
-- ==
SELECT row_number() OVER () FROM generate_series(1, 3)
-- ==
WITH t AS (SELECT 1 AS a), u AS (SELECT a + 1 AS b FROM t) SELECT * FROM t, u
-- ==
WITH t(x) AS (VALUES (1), (2)) SELECT sum(x) FROM t
-- ==
SELECT 1 ORDER BY 1 LIMIT 0
-- ==
SELECT x FROM generate_series(1, 5) x OFFSET 3
-- ==
SELECT x FROM generate_series(1, 5) x ORDER BY x DESC NULLS FIRST LIMIT 2 OFFSET 1
-- ==
SELECT x FROM (VALUES (1), (NULL), (3)) v(x) ORDER BY x DESC
-- ==
SELECT x FROM (VALUES (1), (NULL), (3)) v(x) ORDER BY x NULLS FIRST
-- ==
SELECT relname FROM pg_class WHERE oid = 'pg_class'::regclass
-- ==
SELECT 'pg_catalog.pg_class'::regclass, 'pg_type'::regclass::text, 1259::regclass, 23::regtype, 'int4[]'::regtype, '"char"'::regtype
-- ==
SELECT 'pg_catalog'::regnamespace, 'boolin'::regproc, 'lower(text)'::regprocedure, 11::regnamespace
-- ==
SELECT 999999::regclass, 0::regclass, 999999::regtype
-- ==
SELECT pg_typeof(1), pg_typeof('a'), pg_typeof(NULL::text), pg_typeof(ARRAY[1])
-- ==
SELECT format_type(23, NULL), format_type(1043, 14), format_type(0, NULL), format_type(NULL, NULL)
-- ==
SELECT to_regclass('pg_class'), to_regtype('integer'), to_regclass('x.y')
-- ==
SELECT has_table_privilege('pg_class', 'SELECT'), has_table_privilege('nope', 'SELECT')
-- ==
SELECT has_table_privilege('pg_class', 'FLY')
-- ==
SELECT has_schema_privilege('nope', 'USAGE')
-- ==
SELECT pg_encoding_to_char(6), pg_char_to_encoding('utf-8'), getdatabaseencoding()
-- ==
SELECT current_schemas(false), current_schema, current_catalog = current_database(), user = current_user
-- ==
SELECT pg_size_pretty(123456789::bigint), pg_size_pretty(10240::bigint)
-- ==
SELECT typname, typlen FROM pg_type WHERE typname IN ('int4', 'text') ORDER BY typname
-- ==
SELECT t.typname, e.typname FROM pg_type t JOIN pg_type e ON t.typelem = e.oid WHERE t.typname = '_int4'
-- ==
SELECT n.nspname, count(*) > 0 FROM pg_namespace n JOIN pg_class c ON c.relnamespace = n.oid GROUP BY n.nspname HAVING n.nspname = 'public'
-- ==
SELECT c.oid::regclass::text, c.relname FROM pg_class c WHERE c.relnamespace = 'public'::regnamespace AND c.relkind = 'r' ORDER BY 1
-- ==
SELECT c.relname, (SELECT string_agg(a.attname, ', ' ORDER BY a.attnum) FROM pg_attribute a WHERE a.attrelid = c.oid AND a.attnum > 0) FROM pg_class c WHERE c.relname IN ('stock', 'orders') ORDER BY 1
-- ==
SELECT c.relname FROM pg_class c WHERE EXISTS (SELECT FROM pg_index i WHERE i.indrelid = c.oid AND i.indisprimary) AND c.relnamespace = 2200 ORDER BY 1
-- ==
SELECT table_name, column_name, data_type, udt_name, is_nullable, numeric_precision, numeric_scale, character_maximum_length FROM information_schema.columns WHERE table_schema = 'public' ORDER BY table_name, ordinal_position
-- ==
SELECT constraint_name, constraint_type FROM information_schema.table_constraints WHERE table_name = 'stock' AND constraint_name NOT LIKE '%not_null' ORDER BY 1
-- ==
SELECT constraint_name, check_clause FROM information_schema.check_constraints WHERE constraint_schema = 'public' AND constraint_name NOT LIKE '%not_null' ORDER BY 1
-- ==
SELECT table_schema, table_name, table_type, is_insertable_into FROM information_schema.tables WHERE table_schema = 'public' ORDER BY 2
-- ==
SELECT schemaname, tablename, hasindexes FROM pg_tables WHERE schemaname = 'public' ORDER BY 2
-- ==
SELECT conname, contype, conkey, condeferrable, convalidated, pg_get_constraintdef(oid) FROM pg_constraint WHERE connamespace = 2200 ORDER BY 1
-- ==
SELECT indnatts, indisunique, indkey, indoption, indkey[0], array_length(indkey, 1), array_lower(indkey, 1) FROM pg_index WHERE indrelid = 'stock'::regclass
-- ==
SELECT attname, attlen, attbyval, attalign, attstorage, attcollation, attstattarget, atttypmod FROM pg_attribute WHERE attrelid = 'stock'::regclass AND attnum > 0 ORDER BY attnum
-- ==
SELECT relkind, relpersistence, relnatts, relchecks, relhasindex, relreplident, relam, reltuples FROM pg_class WHERE relname = 'stock'
-- ==
SELECT 1 FROM pg_class LIMIT 0
-- ==
SELECT nope FROM pg_class
-- ==
SELECT pg_class.nope FROM pg_class
-- ==
SELECT c.relname FROM pg_class
-- ==
SELECT relname FROM pg_class, pg_index WHERE oid = 1
-- ==
SELECT * FROM nope
-- ==
SELECT nope()
-- ==
SELECT lower(1)
-- ==
SELECT 'a' + 1
-- ==
SELECT 'a'::text + 1
-- ==
SELECT 'a' < 1
-- ==
SELECT 1 = 'a'::text
-- ==
SELECT count(relname) FROM pg_class GROUP BY relkind HAVING relname = 'a'
-- ==
SELECT relname, count(*) FROM pg_class GROUP BY 2
-- ==
SELECT 1 LIMIT 'a'
-- ==
SELECT DISTINCT relname FROM pg_class ORDER BY oid LIMIT 1
-- ==
SELECT max(count(*)) FROM pg_class
-- ==
SELECT sum(relname) FROM pg_class
-- ==
SELECT (SELECT 1, 2)
-- ==
SELECT 1 IN (SELECT 1, 2)
-- ==
SELECT 'a'::int
-- ==
SELECT ''::int
-- ==
SELECT '99999999999'::int
-- ==
SELECT '{1,a}'::int[]
-- ==
SELECT 'x'::regtype
-- ==
SELECT ARRAY[1, 'a']
-- ==
SELECT unnest(1)
-- ==
SELECT generate_series(1, 5, 0)
-- ==
SELECT 1 WHERE 1
-- ==
SELECT CASE WHEN 1 THEN 2 END
-- ==
SELECT substring('a', 1, -1)
-- ==
SELECT split_part('a', ',', 0)
-- ==
SELECT 'a' LIKE 'b\'
-- ==
SELECT x.* FROM pg_class c
-- ==
SELECT *
-- ==
SELECT (ARRAY[1,2,3])[0], (ARRAY[1,2,3])[1], (NULL::int[])[1]
-- ==
SELECT '2.5'::int
-- ==
SELECT 2.5::int, 3.5::int, -2.5::int, 1e3, 1.5e-2
-- ==
SELECT 'abc'::varchar(2), 'abc'::name, 'abc'::"char"
-- ==
SELECT 'abc'::varchar(0)
-- ==
SELECT 1::numeric(5,2), 123456::numeric(5,2)
-- ==
SELECT 12.345::numeric(5,2), 1.005::numeric(3,2)
-- ==
SELECT int '5', text 'a', bool 't'
-- ==
SELECT CAST(NULL AS text) IS NULL, 'a' IS NOT NULL
-- ==
SELECT oid, tableoid::regclass FROM pg_am ORDER BY oid LIMIT 2
-- ==
SELECT a.attname FROM pg_attribute a NATURAL JOIN (SELECT 'stock'::regclass::oid AS attrelid) r WHERE attnum > 0 ORDER BY attnum
