-- What a backend keeps, and within which limits. The statistics are those of this backend alone.
SET max_parallel_workers_per_gather = 0;
SELECT count(*) AS all_300 FROM generate_series(1, 300) n WHERE ('x' || n || 'y') =~ ('x' || n || 'y');
SELECT patterns FROM lazydfa_stats();
SET lazydfa.cached_patterns = 4;
SELECT patterns FROM lazydfa_stats();
SELECT count(*) AS nine FROM generate_series(1, 300) n WHERE ('x' || n || 'y') =~ ('x' || n % 10 || 'y');
SELECT patterns FROM lazydfa_stats();

-- The least recently used pattern is freed
SELECT 'a' =~ '1', 'a' =~ '2', 'a' =~ '3', 'a' =~ '4';
SELECT compiled AS before FROM lazydfa_stats() \gset
SELECT 'a' =~ '1', 'a' =~ '5';
SELECT 'a' =~ '1';
SELECT compiled - :before AS one FROM lazydfa_stats();
SELECT 'a' =~ '2';
SELECT compiled - :before AS two FROM lazydfa_stats();
RESET lazydfa.cached_patterns;

-- Case-insensitive patterns, bytes, lists, and searches for starts of matches are kept separately
SELECT compiled AS before FROM lazydfa_stats() \gset
SELECT 'A' =~ 'a', 'A' =~* 'a', '\x41'::bytea =~ 'a', '\x41'::bytea =~* 'a', 'A' =~| '{a}', lazydfa_which('A', '{a}');
SELECT compiled - :before AS five FROM lazydfa_stats();
SELECT lazydfa_find('A', 'a') IS NULL AS none, lazydfa_count('A', 'a') AS none, 'A' !=~ 'a' AS yes;
SELECT compiled - :before AS six FROM lazydfa_stats();

-- The memory of all patterns, and of each, stays within its setting
SET lazydfa.cache_size = '1MB';
SET lazydfa.pattern_cache_size = '256kB';
CREATE TABLE hashes AS SELECT md5(n::text) AS hash FROM generate_series(1, 3000) n;
SELECT count(*) AS differ FROM hashes, generate_series(5, 24) k
    WHERE (hash =~ ('a.{' || k || '}b')) <> (hash ~ ('a.{' || k || '}b'));
SELECT patterns > 1 AS several, memory + leaps <= held AS less, held + tables <= 1024 * 1024 AS within FROM lazydfa_stats();
SELECT count(*) AS differ FROM hashes WHERE (hash =~ '[a-f].{12}[0-4]') <> (hash ~ '[a-f].{12}[0-4]');
SELECT held + tables <= 1024 * 1024 AS within, clears > 0 AS cleared FROM lazydfa_stats();

-- and if they hold too much, the least recently used pattern is freed: here the second of five, since four have room
RESET lazydfa.pattern_cache_size;
CREATE FUNCTION search(pattern text) RETURNS bigint LANGUAGE sql
    AS $$ SELECT count(*) FROM (SELECT hash FROM hashes LIMIT 100) few WHERE hash =~ pattern $$;
SELECT search('a.{20}b') > 0 AS some;
SELECT patterns, set_config('lazydfa.cache_size', ((held + tables) * 9 / 2 / 1024)::text, false) <> '' AS set FROM lazydfa_stats();
SELECT count(search(pattern)) FROM unnest(array['a.{20}b', 'a.{20}(?:b)', 'a.{20}[b]', 'a.{20}b', 'a.{20}b{1}', '(?:a).{20}b']) pattern;
SELECT compiled AS before FROM lazydfa_stats() \gset
SELECT count(search('a.{20}b'));
SELECT compiled - :before AS none FROM lazydfa_stats();
SELECT count(search('a.{20}(?:b)'));
SELECT compiled - :before AS one FROM lazydfa_stats();
RESET lazydfa.cache_size;

-- Setting the same values, or the length of pieces, does not compile anything again
CREATE FUNCTION in_pieces(pattern text) RETURNS bool LANGUAGE plpgsql SET lazydfa.piece_size = 1 SET lazydfa.pattern_cache_size = '8MB'
    SET lazydfa.cached_patterns = 256 AS $$ BEGIN RETURN 'abab' =~ pattern; END $$;
SELECT 'a' =~ 'kept';
SELECT compiled AS before FROM lazydfa_stats() \gset
SELECT count(*) AS yes FROM generate_series(1, 100) WHERE in_pieces('b.b');
SELECT 'a' =~ 'kept';
SELECT compiled - :before AS one FROM lazydfa_stats();
SET lazydfa.pattern_cache_size = '1MB';
SELECT patterns, memory, leaps, held, tables FROM lazydfa_stats();
RESET lazydfa.pattern_cache_size;
DROP TABLE hashes;
DROP FUNCTION search, in_pieces;

-- The limits on a pattern's tables, length and classes, and the length of pieces, are for the superuser to set
SET lazydfa.pattern_size = 64;
SELECT 'a' =~ 'a{9000}';
RESET lazydfa.pattern_size;
SELECT 'a' =~ 'a{9000}' AS no;
SET lazydfa.pattern_length = 5;
SELECT 'a' =~ 'a{9000}';
SELECT 'a' =~| '{aa,bb,cc}';
SELECT 'a' =~| '{a,b,c,d,e,f}';
SELECT 'e' =~| '{a,b,c,d,e}' AS yes;
RESET lazydfa.pattern_length;
SET lazydfa.pattern_classes = 1;
SELECT 'a' =~ '\w\w';
SELECT 'ab' =~ '\w[a-z]' AS yes;
RESET lazydfa.pattern_classes;
SET lazydfa.pattern_size = '2GB';
CREATE ROLE regress_lazydfa;
SET ROLE regress_lazydfa;
SET lazydfa.pattern_size = 64;
SET lazydfa.pattern_length = 100;
SET lazydfa.pattern_classes = 100;
SET lazydfa.piece_size = 100;
SET lazydfa.cache_size = '1MB';
RESET ROLE;
DROP ROLE regress_lazydfa;
RESET lazydfa.cache_size;

-- Rows of two functions alternately, each with more patterns than are kept
SET lazydfa.cached_patterns = 1;
SELECT lazydfa_matches('a1b2', '[a-z]') AS letter, lazydfa_matches('a1b2', '[0-9]') AS digit;
SELECT (lazydfa_tokens('ab', '{a,b}')).pattern, lazydfa_matches('cd', '.');
RESET lazydfa.cached_patterns;
SET lazydfa.unknown = 1;
