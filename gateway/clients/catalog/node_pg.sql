-- Queries that node-pg 8.8, Sequelize and TypeORM sends, as recorded on the wire. @stock@ and @stock_pkey@ are the Oids of these relations.
-- ==
SELECT 1+1 AS result
-- ==
SELECT * FROM current_schema()
-- == rows differ: the version is the server's own
SELECT version()
