-- Queries that asyncpg 0.27, by itself and under SQLAlchemy sends, as recorded on the wire. @stock@ and @stock_pkey@ are the Oids of these relations.
-- ==
SELECT 1
-- == values: 114
SELECT
    t.oid,
    t.typelem     AS elemtype,
    t.typtype     AS kind
FROM
    pg_catalog.pg_type AS t
WHERE
    t.oid = $1
-- == rows differ: the version is the server's own
select pg_catalog.version()
-- ==
select current_schema()
