# A and B are two commits on the first one, and C merges them. What a merge goes out from shows in what it answers, and the heights in the order of the log.
@ada CALL DOLT_BRANCH('b');
@ada CREATE TABLE t (id BIGINT PRIMARY KEY, x BIGINT);
@ada INSERT INTO t VALUES (1, 10);
@ada CALL DOLT_COMMIT('-A', '-m', 'A');
@ada SELECT message FROM dolt_log;
@bob CALL DOLT_CHECKOUT('b');
@bob CREATE TABLE t (id BIGINT PRIMARY KEY, x BIGINT);
@bob INSERT INTO t VALUES (1, 20);
@bob CALL DOLT_COMMIT('-A', '-m', 'B');
# A and B: the first commit, which has no such table
@ada SET @@dolt_allow_commit_conflicts = 1;
@ada CALL DOLT_MERGE('b');
@ada SELECT base_id, base_x, our_x, their_x, our_diff_type, their_diff_type FROM dolt_conflicts_t;
@ada CALL DOLT_CONFLICTS_RESOLVE('--ours', 't');
@ada CALL DOLT_COMMIT('-a', '-m', 'C');
@ada SELECT message FROM dolt_log;
@ada SELECT COUNT(*) AS n FROM dolt_commit_ancestors WHERE parent_index = 1;
# C and B: B, so nothing is new
@ada CALL DOLT_MERGE('b');
# B and C: B, so its branch goes on to C
@bob CALL DOLT_MERGE('main');
# C and C: C
@bob CALL DOLT_MERGE('main');
@bob SELECT message FROM dolt_log;
