# A first history: a table is staged and committed, a second branch goes its own way, and SELECT shows both.
@ada CREATE TABLE stock (id BIGINT PRIMARY KEY, name VARCHAR(20), amount INT);
@ada INSERT INTO stock VALUES (1, 'apple', 5), (2, 'pear', 7);
@ada SELECT * FROM dolt_status;
@ada CALL DOLT_COMMIT('-A', '-m', 'the first stock');
@ada CALL DOLT_BRANCH('count');
@bob CALL DOLT_CHECKOUT('count');
@bob UPDATE stock SET amount = 4 WHERE id = 1;
@bob SELECT * FROM dolt_status;
@bob CALL DOLT_COMMIT('-a', '-m', 'counted again');
@bob SELECT committer, message FROM dolt_log;
@ada SELECT name, latest_committer, latest_commit_message FROM dolt_branches;
@ada SELECT * FROM stock;
@bob SELECT * FROM stock;
