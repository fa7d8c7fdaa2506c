-- An index of trigrams is searched for texts that every match of a pattern contains.
CREATE EXTENSION pg_trgm;
CREATE TABLE lines(line text) WITH (autovacuum_enabled = off);
INSERT INTO lines SELECT 'user=' || md5(n::text) || ' host=' || n FROM generate_series(1, 3000) n;
INSERT INTO lines SELECT 'a timeout of disk ' || n FROM generate_series(1, 20) n;
INSERT INTO lines VALUES ('50% of disk_1'), ('50x of diskz1'), ('C:\disk'), ('naïve timeout'), ('TIMEOUT of disk 5'), ('time'), ('');
SET enable_seqscan = off;
SET enable_indexscan = off;
CREATE FUNCTION by_index(pattern text) RETURNS TABLE (plan text) LANGUAGE plpgsql AS $$
BEGIN
    RETURN QUERY EXECUTE format('EXPLAIN (COSTS off) SELECT * FROM lines WHERE line =~ %L', pattern);
END $$;
CREATE FUNCTION found(pattern text) RETURNS bigint LANGUAGE plpgsql AS $$
DECLARE
    found bigint;
BEGIN
    EXECUTE format('SELECT count(*) FROM lines WHERE line =~ %L', pattern) INTO found;
    RETURN found;
END $$;
CREATE TABLE patterns(pattern text);
INSERT INTO patterns VALUES ('timeout'), ('timeout of.*disk [0-9]'), ('^a timeout'), ('^a timeout of disk 7$'), ('50% of disk_1'),
    ('C:\\disk'), ('na(ï)ve.*timeout'), ('(?i)timeout'), ('t(imeou)?t of'), ('timeout|disk'), ('time(out)* of'), ('time'), ('ti'), ('(?:timeout){2}|');

-- With GIN
CREATE INDEX lines_by_trigrams ON lines USING gin (line gin_trgm_ops);
SELECT by_index('timeout.*disk');
SELECT by_index('^a timeout');
SELECT by_index('^a timeout of disk 7$');
SELECT by_index('50% of disk_1\b');
SELECT by_index('(?i)timeout');
SELECT by_index('ti');
SELECT by_index('timeout|disk');
SELECT by_index('host=42$');
EXPLAIN (COSTS off) SELECT * FROM lines WHERE line =~* 'host=42$';
EXPLAIN (COSTS off) SELECT * FROM lines WHERE line =~* '(?-i)timeout';
EXPLAIN (COSTS off) SELECT * FROM lines WHERE lazydfa_match(line, 'timeout');
CREATE TABLE by_gin AS SELECT pattern, found(pattern) FROM patterns;
DROP INDEX lines_by_trigrams;

-- With GiST
CREATE INDEX lines_by_trigrams ON lines USING gist (line gist_trgm_ops);
SELECT by_index('timeout.*disk');
CREATE TABLE by_gist AS SELECT pattern, found(pattern) FROM patterns;
DROP INDEX lines_by_trigrams;

-- They return what a sequential scan returns
RESET enable_seqscan;
RESET enable_indexscan;
SELECT pattern, by_gin.found AS by_gin, by_gist.found AS by_gist, found(pattern) AS by_scan
    FROM by_gin JOIN by_gist USING (pattern) ORDER BY pattern COLLATE "C";
DROP TABLE lines, patterns, by_gin, by_gist;
DROP FUNCTION by_index, found;
DROP EXTENSION pg_trgm;
