-- How the planner uses the operators.
CREATE TABLE words AS SELECT md5(n::text) AS word FROM generate_series(1, 20000) n;
INSERT INTO words SELECT 'abcé' || n FROM generate_series(1, 300) n;
INSERT INTO words VALUES ('ab'), ('abc'), ('abd'), ('abcz'), ('ac'), ('é'), ('éa'), ('ê'), ('');
ANALYZE words;

-- A filter that costs less goes first
EXPLAIN (COSTS off) SELECT * FROM words WHERE word =~ 'a+' AND length(word) > 3;

-- An index ordered by bytes is scanned from the pattern's prefix on
CREATE INDEX words_by_bytes ON words (word text_pattern_ops);
SET enable_seqscan = off;
SET enable_bitmapscan = off;
EXPLAIN (COSTS off) SELECT * FROM words WHERE word =~ '^abc';
EXPLAIN (COSTS off) SELECT * FROM words WHERE word =~ '^abcé[0-9]';
EXPLAIN (COSTS off) SELECT * FROM words WHERE word =~ '^abcd*e';
EXPLAIN (COSTS off) SELECT * FROM words WHERE word =~ '^é+';
EXPLAIN (COSTS off) SELECT * FROM words WHERE lazydfa_match(word, '^ab{2}');
EXPLAIN (COSTS off) SELECT * FROM words WHERE word =~ '^abc|d';
EXPLAIN (COSTS off) SELECT * FROM words WHERE word =~ 'abc';
EXPLAIN (COSTS off) SELECT * FROM words WHERE word =~ '(?i)^abc';
EXPLAIN (COSTS off) SELECT * FROM words WHERE word =~* '^abc';
EXPLAIN (COSTS off) SELECT * FROM words WHERE word =~ '^a*';
EXPLAIN (COSTS off) SELECT * FROM words WHERE word =~ '^ab+*';
EXPLAIN (COSTS off) SELECT * FROM words WHERE word =~ '\Aab(?:cd|ce)';
EXPLAIN (COSTS off) SELECT * FROM words WHERE word =~ '^abc$';
EXPLAIN (COSTS off) SELECT * FROM words WHERE word =~* '^12\.3';
CREATE TABLE by_collation AS SELECT word COLLATE "C" AS word FROM words;
CREATE INDEX ON by_collation (word);
EXPLAIN (COSTS off) SELECT * FROM by_collation WHERE word =~ '^abc';
DROP TABLE by_collation;

-- and returns what a sequential scan returns
CREATE TABLE patterns(pattern text, posix text);
INSERT INTO patterns SELECT pattern, pattern FROM unnest(array['^abc', '^abcé', '^abcé[0-9]', '^abcd*', '^abcé?', '^é', '^é+', '^é*a',
    '^abc{0}', '^ab+c', '^', '^a', '^abc$', '^ab(?:c|d)', '^0', '^ab\w', '^(?:abc)', '^abc.', '^abc z?', '^(abc|ab)$', '^abd?$']) pattern;
INSERT INTO patterns VALUES ('^abc(?i)Z', '^abc[zZ]'), ('^abc+*', '^ab'), ('^abc+??', '^ab'), ('^abc+{0}', '^ab'), ('^abcz?+*', '^abc'),
    ('^abc++', '^abc'), ('^(abcz)?{0}', ''), ('\Aab(?:cz|cz)\z', '^abcz$'), ('(?m)^abc', '^abc'), ('^^abc', '^abc'), ('^a\x62\u{63}', '^abc');
CREATE FUNCTION count_of(pattern text) RETURNS bigint LANGUAGE plpgsql AS $$
DECLARE
    found bigint;
BEGIN
    EXECUTE format('SELECT count(*) FROM words WHERE word =~ %L', pattern) INTO found;
    RETURN found;
END $$;
CREATE TABLE by_index AS SELECT pattern, count_of(pattern) AS found FROM patterns;
SET enable_indexscan = off;
SET enable_indexonlyscan = off;
SET enable_seqscan = on;
SELECT count(*) AS differ FROM by_index WHERE found <> count_of(pattern);
SELECT pattern, found, (SELECT count(*) FROM words WHERE word ~ posix) AS posix
    FROM by_index JOIN patterns USING (pattern) ORDER BY pattern COLLATE "C";
RESET enable_indexscan;
RESET enable_indexonlyscan;
RESET enable_bitmapscan;
RESET enable_seqscan;
DROP INDEX words_by_bytes;

-- In an index, in a generated column, in a constraint
CREATE INDEX ON words ((word =~ '^a.*f$'));
SELECT count(*) = (SELECT count(*) FROM words WHERE word ~ '^a.*f$') AS equal FROM words WHERE word =~ '^a.*f$';
CREATE TABLE numbers(number text CHECK (number =~ '^\d+$'), even bool GENERATED ALWAYS AS (number =~ '[02468]$') STORED);
INSERT INTO numbers VALUES ('12'), ('7');
SELECT * FROM numbers;
INSERT INTO numbers VALUES ('x');

-- In parallel
SET max_parallel_workers_per_gather = 2;
SET min_parallel_table_scan_size = 0;
SET parallel_setup_cost = 0;
SET parallel_tuple_cost = 0;
EXPLAIN (COSTS off) SELECT count(*) FROM words WHERE word =~ 'ab+c';
SELECT count(*) = (SELECT count(*) FROM words WHERE word ~ 'ab+c') AS equal FROM words WHERE word =~ 'ab+c';
DROP TABLE words, patterns, by_index, numbers;
DROP FUNCTION count_of;
DROP EXTENSION lazydfa;
