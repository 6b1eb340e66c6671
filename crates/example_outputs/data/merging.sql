# Two branches of one table. The first merge is clean and makes a commit on both; the second meets a conflict, which is looked at, resolved and committed; the
# third leaves a violation, which is looked at and put right.
@ada CREATE TABLE stock (id BIGINT PRIMARY KEY, name VARCHAR(20), amount INT, UNIQUE by_name (name));
@ada INSERT INTO stock VALUES (1, 'apple', 5), (2, 'pear', 7);
@ada CALL DOLT_COMMIT('-A', '-m', 'the first stock');
@ada CALL DOLT_BRANCH('count');
@bob CALL DOLT_CHECKOUT('count');
@bob UPDATE stock SET amount = 4 WHERE id = 1;
@bob INSERT INTO stock VALUES (3, 'fig', 1);
@bob CALL DOLT_COMMIT('-a', '-m', 'counted again');
@ada UPDATE stock SET name = 'red apple' WHERE id = 1;
@ada CALL DOLT_COMMIT('-a', '-m', 'a better name');
@ada CALL DOLT_MERGE('count');
@ada SELECT * FROM stock;
@ada SELECT commit_hash, message FROM dolt_log LIMIT 2;
@bob CALL DOLT_MERGE('main');
# both change the same cell
@ada UPDATE stock SET amount = 8 WHERE id = 2;
@ada CALL DOLT_COMMIT('-a', '-m', 'eight pears');
@bob UPDATE stock SET amount = 9 WHERE id = 2;
@bob CALL DOLT_COMMIT('-a', '-m', 'nine pears');
@ada SET @@dolt_allow_commit_conflicts = 1;
@ada CALL DOLT_MERGE('count');
@ada SELECT * FROM dolt_conflicts;
@ada SELECT our_amount, their_amount, our_diff_type, their_diff_type FROM dolt_conflicts_stock;
@ada CALL DOLT_COMMIT('-a', '-m', 'too early');
@ada CALL DOLT_CONFLICTS_RESOLVE('--theirs', 'stock');
@ada CALL DOLT_COMMIT('-a', '-m', 'nine it is');
@ada SELECT * FROM stock;
# each branch has its own fig, and no two rows may have one name
@bob CALL DOLT_MERGE('main');
@ada INSERT INTO stock VALUES (4, 'kiwi', 2);
@ada CALL DOLT_COMMIT('-a', '-m', 'a kiwi');
@bob INSERT INTO stock VALUES (5, 'kiwi', 6);
@bob CALL DOLT_COMMIT('-a', '-m', 'another kiwi');
@ada SET @@dolt_force_transaction_commit = 1;
@ada CALL DOLT_MERGE('count');
@ada SELECT violation_type, id, name, violation_constraint FROM dolt_constraint_violations_stock;
@ada DELETE FROM stock WHERE id = 5;
@ada CALL DOLT_VERIFY_CONSTRAINTS();
@ada CALL DOLT_COMMIT('-a', '-m', 'one kiwi');
@ada SELECT commit_hash, parent_hash, parent_index FROM dolt_commit_ancestors LIMIT 2;
@ada SELECT * FROM stock;
