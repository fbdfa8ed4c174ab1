-- Queries that p1_pgsql of Erlang sends, as recorded on the wire. @stock@ and @stock_pkey@ are the Oids of these relations.
-- == rows differ: there are no types of the rows of relations
SELECT oid, typname FROM pg_type
