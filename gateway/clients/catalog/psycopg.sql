-- Queries that psycopg 2.9 and 3.1 sends, as recorded on the wire. @stock@ and @stock_pkey@ are the Oids of these relations.
-- ==
SELECT t.oid, typarray
FROM pg_type t JOIN pg_namespace ns
    ON typnamespace = ns.oid
WHERE typname = 'hstore'
-- ==
SELECT 1
-- == values: hstore
SELECT
    typname AS name, oid, typarray AS array_oid,
    oid::regtype::text AS regtype, typdelim AS delimiter
FROM pg_type t
WHERE t.oid = $1::regtype
ORDER BY t.oid
-- ==
SELECT set_config('search_path', '', false)
