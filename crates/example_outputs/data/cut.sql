# The last line has no end.
@a CREATE TABLE t (id BIGINT PRIMARY KEY);
@a SELECT * FROM t