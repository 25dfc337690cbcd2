-- A table, two rows, two queries, and a line that is refused.
CREATE TABLE t (x INT NULL, y INT NULL)
INSERT INTO t VALUES (1, 10), (2, NULL)
SELECT x, y FROM t
SELECT COUNT(*) FROM t
SELECT z FROM t
