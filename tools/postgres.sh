#!/bin/sh
# Builds the extension for PostgreSQL, over the C library that is built in bindings/c, and tests it on its own server,
# in its own folder, over a socket there:
#     tools/postgres.sh ['N passed, M failed']
# The expected results of `make installcheck`; the statements of the extension's README; random patterns compared with
# `~` (tools/postgres/agree.py), in pieces (tools/postgres/pieces.py), and with indexes (tools/postgres/indexed.py);
# parallel workers; two backends at once; a query that is cancelled, one that takes too long, a backend that is
# terminated, and one that is killed in a search;
# each kind of search of a long text, cancelled and out of time; patterns that are costly to compile, by an ordinary
# user: their time and their memory, and a backend and a server that are stopped meanwhile; the memory that many
# patterns hold (tools/postgres/memory.py); a backend that runs out of memory; databases of other encodings; and foreign
# partitions in three clusters (tools/postgres/clusters.py).
#
# The last line counts these tests, added to those that the given line counts. It needs a PostgreSQL server with its
# headers (on Debian, postgresql-15 and postgresql-server-dev-15), make, cc, pkg-config, prlimit and Python 3. Without a
# server it says so, and tests nothing. PG_CONFIG names another server's pg_config. As root, the server runs as the user
# postgres.
# shellcheck disable=SC2317 # since functions are called by their names
set -u
umask 022
top=$(cd "$(dirname "$0")/.." && pwd)
config=${PG_CONFIG:-pg_config}
passed=0
failed=0
if [ "$#" -gt 0 ]; then
    counted=$(echo "$1" | sed -n 's/^\([0-9]*\) passed, \([0-9]*\) failed$/\1 \2/p')
    passed=${counted% *}
    failed=${counted#* }
    [ -n "$counted" ] || { passed=0; failed=1; }
fi

finish() {
    echo "$passed passed, $failed failed"
    [ "$failed" -eq 0 ]
    exit
}

# Counts a test, which passed if its fault is empty.
count() { # NAME FAULT
    printf '%s\n' "$1: ${2:-passed}"
    if [ -z "$2" ]; then passed=$((passed + 1)); else failed=$((failed + 1)); fi
}

# Counts a test, which passed if it wrote the expected output.
same() { # NAME WANTED GOT
    if [ "$2" = "$3" ]; then count "$1" ""; else count "$1" "$3
and not: $2"; fi
}

# Counts a test, which passed if its output contains a line like this.
has() { # NAME PATTERN GOT
    if printf '%s\n' "$3" | grep -q "$2"; then count "$1" ""; else count "$1" "$3
has no $2"; fi
}

if ! bin=$("$config" --bindir 2>/dev/null) || [ ! -f "$("$config" --pgxs)" ] || [ ! -x "$bin/postgres" ] ||
    [ ! -f "$("$config" --includedir-server)/postgres.h" ]; then
    echo "the extension for PostgreSQL: skipped, since no server with its headers is installed"
    finish
fi
room=$(mktemp -d) || exit 2
server=$room/server
trap 'stop; rm -rf "$room"' EXIT
trap 'exit 2' HUP INT TERM
export PGHOST="$room" PGUSER=lazydfa PGDATABASE=postgres PKG_CONFIG_PATH="$room/library/lib/pkgconfig"

as_server() {
    if [ "$(id -u)" -eq 0 ]; then runuser -u postgres -- "$@"; else "$@"; fi
}

stop() {
    [ ! -f "$room/data/postmaster.pid" ] || as_server "$server$bin/pg_ctl" -D "$room/data" -m immediate stop >/dev/null
}

# Runs statements, and writes the rows, or the errors.
sql() {
    psql -XAtq -v ON_ERROR_STOP=1 "$@" 2>&1
}

milliseconds() {
    echo $(($(date +%s%N) / 1000000))
}

# Installs the library and the extension below their own folders.
build() {
    make -s -C "$top/bindings/c" install PREFIX="$room/library" LIBDIR="$room/library/lib" DESTDIR= &&
        cp -r "$top/bindings/postgres" "$room/extension" &&
        make -s -C "$room/extension" PG_CONFIG="$config" COPT=-Werror &&
        make -s -C "$room/extension" PG_CONFIG="$config" install DESTDIR="$server" &&
        cc -Wall -Werror -O1 -fPIC -shared -I"$("$config" --includedir-server)" "$top/tools/postgres/held.c" \
            -o "$room/held.so"
}

# Copies the server, which finds its files relative to itself, so that the system is not written to, and starts it.
start() {
    libraries=$("$config" --pkglibdir)
    shared=$("$config" --sharedir)
    mkdir -p "$server$bin" "$server$libraries" "$server$shared" "$room/data" &&
        cp "$bin/postgres" "$bin/initdb" "$bin/pg_ctl" "$server$bin" &&
        cp -rsn "$libraries/." "$server$libraries" && cp -rsn "$shared/." "$server$shared" &&
        chmod 711 "$room" && chmod 700 "$room/data" || return
    [ "$(id -u)" -ne 0 ] || chown postgres "$room" "$room/data" || return
    as_server "$server$bin/initdb" -D "$room/data" -U lazydfa -E UTF8 --locale=C.UTF-8 -A trust -N >"$room/said" &&
        run_server
}

run_server() {
    as_server "$server$bin/pg_ctl" -D "$room/data" -w -l "$room/data/log" -o \
        "-c listen_addresses= -c unix_socket_directories=$room -c fsync=off" start >"$room/said"
}

# Starts statements in another backend, and waits until it runs them, or has ended. $backend is its process, and $client
# that of psql.
begin() { # STATEMENTS
    PGAPPNAME=searching sql -c "$1" >"$room/output" 2>&1 </dev/null &
    client=$!
    backend=
    until [ -n "$backend" ] || ! kill -0 "$client" 2>/dev/null; do
        sleep 0.05
        backend=$(sql -c "SELECT pid FROM pg_stat_activity WHERE application_name = 'searching' AND state = 'active'
            AND backend_type = 'client backend'" </dev/null)
    done
}

# Counts a test that has to end in time: it sets $took, in milliseconds, and $fault if it ended in another way. Since
# other programs can hold it up, a test that took too long is tried again, three times in all.
within() { # NAME MILLISECONDS TEST WORD..
    name=$1
    most=$2
    shift 2
    for try in 1 2 3; do
        fault=
        "$@"
        if [ -n "$fault" ] || [ "$took" -le "$most" ]; then break; fi
        fault="it took $took ms, at try $try"
    done
    count "$name" "$fault"
}

# Runs statements in another backend, and there, after a moment, this function, which makes them end with this message.
stopped() { # STATEMENTS FUNCTION MESSAGE
    begin "$1"
    sleep 0.3
    started=$(milliseconds)
    sql -c "SELECT $2($backend)" >/dev/null
    wait "$client"
    took=$(($(milliseconds) - started))
    grep -q "$3" "$room/output" || fault="it ended otherwise: $(cat "$room/output")"
}

# Runs statements that take more than half a second, and may not. What they take beyond it counts.
out_of_time() { # STATEMENTS
    started=$(milliseconds)
    said=$(sql -c "SET statement_timeout = 500; $1")
    took=$(($(milliseconds) - started - 500))
    case $said in
    *"canceling statement due to statement timeout"*) ;;
    *) fault="it ended otherwise: $said" ;;
    esac
}

endless="SELECT count(*) FROM logs, generate_series(1, 100000) n WHERE line =~ ('x[a-z]+' || n)"

# Runs the statements that the extension's README shows, in a database of their own.
test_readme() {
    sql -c 'CREATE DATABASE readme' && sql -d readme -c "CREATE TABLE logs AS SELECT * FROM unnest(
        array['timeout on disk 2', 'refused 503', 'done']) line" &&
        statements=$(sed -n '/^```sql$/,/^```$/p' "$top/bindings/postgres/README.md" | grep -v '^```')
    same "the statements of the README" "1
timeout on disk 2|{1}
refused 503|{2,3}
done|{}
{timeout,2}" "$(sql -d readme -c "$statements")"
}

test_answers() {
    if made=$(make -s -C "$room/extension" PG_CONFIG="$config" installcheck 2>&1); then
        count "make installcheck" ""
    else
        count "make installcheck" "$made
$(cat "$room/extension/regression.diffs")"
    fi
    python3 "$top/tools/postgres/lines.py" 100000 1 |
        sql -c "CREATE EXTENSION lazydfa" -c "CREATE TABLE logs(line text)" -c "COPY logs FROM STDIN" -c "ANALYZE logs"
    agrees "beside ~" agree.py 10000 1
    agrees "in pieces" pieces.py 1000 1
    agrees "groups" groups.py 2000 1
    if [ -f "$("$config" --sharedir)/extension/pg_trgm.control" ]; then
        agrees "by indexes" indexed.py 20000 1 3
    else
        echo "by indexes: skipped, since pg_trgm is not installed"
    fi
    sql -c "CREATE FUNCTION held() RETURNS bigint LANGUAGE c AS '$room/held.so'"
    agrees "memory" memory.py
}

# Counts a test, which passed if what a script compared did not differ.
agrees() { # NAME SCRIPT WORD..
    name=$1
    script=$top/tools/postgres/$2
    shift 2
    if agreed=$(python3 "$script" "$@" 2>&1); then name="$name: $agreed" agreed=; fi
    count "$name" "$agreed"
}

test_workers() {
    parallel="SET max_parallel_workers_per_gather = 3; SET min_parallel_table_scan_size = 0;
        SET parallel_setup_cost = 0; SET parallel_tuple_cost = 0; SET parallel_leader_participation = off;"
    query="SELECT count(*) FROM logs WHERE line"
    plan=$(sql -c "$parallel" -c "EXPLAIN (ANALYZE, TIMING off, COSTS off) $query =~ '(timeout|refused).*disk'")
    has "workers are launched" "Workers Launched: [1-3]" "$plan"
    wanted=$(sql -c "$query ~ '(timeout|refused).*disk'" -c "$query ~ 'ERROR' OR line ~ 'code.*x'")
    got=$(sql -c "$parallel" -c "$query =~ '(timeout|refused).*disk'" -c "$query =~| array['ERROR', 'code.*x']")
    same "workers find what ~ finds" "$wanted" "$got"
}

test_two_backends() {
    queries() { # OPERATOR
        for pattern in 'ERROR|WARN' '" 50[0-9] ' '[a-z]+[0-9]*@example[.](com|org)' 'Z(ü|u)rich'; do
            echo "SELECT count(*) FROM logs WHERE line $1 '$pattern';"
        done
    }
    wanted=$(queries '~' | sql)
    queries '=~' | sql >"$room/first" &
    one=$!
    queries '=~' | sql >"$room/second" &
    wait "$one" "$!"
    same "two backends at once find what ~ finds" "$wanted
$wanted" "$(cat "$room/first" "$room/second")"
}

test_ends() {
    within "a query that is cancelled" 1000 \
        stopped "$endless" pg_cancel_backend "canceling statement due to user request"
    within "a backend that is ended" 1000 \
        stopped "$endless" pg_terminate_backend "terminating connection due to administrator command"
    within "a query that takes too long" 1000 out_of_time "$endless"
    begin "$endless"
    [ -z "$backend" ] || as_server kill -9 "$backend"
    wait "$client"
    tries=0
    until sql -c "SELECT 'it =~ runs' =~ 'runs'" >"$room/output" || [ "$tries" -ge 300 ]; do
        sleep 0.1
        tries=$((tries + 1))
    done
    same "after a backend that was killed others search" t "$(cat "$room/output")"
}

# Each kind of search of 100 MB, and two backward over 1 MB, which take minutes: each is cancelled, and times out.
test_long() {
    sql -c "CREATE TABLE long(value text)" -c "ALTER TABLE long ALTER value SET STORAGE EXTERNAL" \
        -c "INSERT INTO long SELECT string_agg(md5(n::text), '') FROM generate_series(1, 3125000) n"
    many='[a-f].{500}x'
    empty="$many|\$"
    back='.{500}[a-f].*'
    for search in "value =~ '$many'" "value =~ '$empty'" "value !=~* '$empty'" "value =~| array['$many', 'y']" \
        "value =~| array['$empty', 'y']" "convert_to(value, 'UTF8') =~ '$empty'" \
        "lazydfa_which(value, array['$many', 'y'])" "lazydfa_which(value, array['$empty', 'y'])" \
        "lazydfa_find(value, '$many')" "lazydfa_find(value, '$empty')" "lazydfa_find(left(value, 1000000), '$back')" \
        "lazydfa_substr(value, '$many')" "lazydfa_substr(left(value, 1000000), '$back|\$')" \
        "lazydfa_count(value, 'a')" "lazydfa_count(value, 'x*')" "lazydfa_count(value, '$many')" \
        "lazydfa_matches(value, '$empty')" "lazydfa_replace(value, '$many', '')" \
        "lazydfa_replace(value, '([a-f])', '<\\1>', 'g')" "lazydfa_captures(value, '([a-f])?($many)')" \
        "lazydfa_split(value, '[a-f]')" "lazydfa_split(value, '$empty')" \
        "lazydfa_tokens(value, array['.*$many', 'y'])" "value =~ '([a-f0-9]?){150000}x'"; do
        within "$search, cancelled" 1000 \
            stopped "SELECT $search FROM long" pg_cancel_backend "canceling statement due to user request"
        within "$search, out of time" 1000 out_of_time "SELECT $search FROM long"
    done
}

# Statements that took up to a minute, and a gigabyte, before patterns were limited; and the costliest within the
# limits.
costly() {
    cat <<'END'
'a' =~* repeat('\PL', 100000)
'a' =~ repeat('()', 10000000)
'a' =~ repeat('[a]', 10000000)
'a' =~ repeat('.', 10000000)
'a' =~ repeat('a', 10000000)
'a' =~ ('[' || repeat('\pL\PL', 100000) || ']')
'a' =~ repeat('\pL', 100000)
'a' =~ repeat('\pL|', 100000)
'a' =~| array_fill('a'::text, array[10000000])
'a' =~ '(\pL{50}){50}'
'a' =~ '(((a{100}){100}){100}){100}'
'a' =~ '(a?){50000}'
'a' =~ '\w{180}'
'a' =~ '[a-f].{50000}x'
'a' =~* repeat('\PL', 2000)
'a' =~* repeat('[^[:alpha:]]', 5461)
'a' =~* repeat('[b-\x{10FFFF}]', 4681)
'a' =~* ('[' || repeat('\pL\PL', 1000) || ']')
lazydfa_count('a', '[a-f].{50000}x')
lazydfa_count('a', repeat('()', 32768))
lazydfa_captures('a', repeat('()', 32768))
lazydfa_captures('a', repeat('(a)?', 16384))
lazydfa_captures('a', '(\w{180})')
lazydfa_captures(repeat('a', 100), '([a-f].{50000}x|a*)')
lazydfa_captures(repeat('a', 30), '(([a-f0-9]?){150000})')
lazydfa_replace(repeat('a', 16000), '(([a-f0-9]?){150})*', '\1', 'g')
(lazydfa_tokens('a', array_fill('a'::text, array[65536]))).pattern
count(*) FROM small WHERE s =~* repeat('\PL', 21800)
count(*) FROM small WHERE s =~* repeat('\PL', 2000)
END
}

# Runs a costly statement as an ordinary user, which may time out after a second. Its backend may grow by 200 MB; $size
# is by how much it has grown at most, in kB.
costs() { # EXPRESSION
    started=$(milliseconds)
    said=$(PGUSER=joe psql -XAtq 2>&1 <<END
SELECT ('a' =~ 'a')::text AS loaded, pg_backend_pid() AS backend \gset
\setenv BACKEND :backend
\! echo before \$(awk '/^VmHWM/ { print \$2 }' /proc/\$BACKEND/status)
SET statement_timeout = 1000;
SELECT $1;
\! echo after \$(awk '/^VmHWM/ { print \$2 }' /proc/\$BACKEND/status)
END
    )
    took=$(($(milliseconds) - started))
    size=$(echo "$said" | awk '$1 == "before" { n = -$2 } $1 == "after" { n += $2; ok = 1 } END { if (ok) print n }')
    [ "${size:-300000}" -le 200000 ] || fault="$size kB: $said"
}

# Terminates the backend that runs a costly statement, which may have ended before.
ended() { # EXPRESSION
    begin "SELECT $1"
    started=$(milliseconds)
    [ -z "$backend" ] || sql -c "SELECT pg_terminate_backend($backend)" >/dev/null </dev/null
    wait "$client"
    took=$(($(milliseconds) - started))
}

# Searches through foreign partitions in three more clusters.
test_clusters() {
    if [ ! -f "$("$config" --sharedir)/extension/postgres_fdw.control" ]; then
        echo "in three clusters: skipped, since postgres_fdw is not installed"
        return
    fi
    mkdir "$room/clusters"
    [ "$(id -u)" -ne 0 ] || chown postgres "$room/clusters"
    PG_PROGRAMS=$server$bin
    export PG_PROGRAMS
    agrees "in three clusters" clusters.py "$room/clusters" 30000
}

test_costly() {
    sql -c "CREATE ROLE joe LOGIN" -c "CREATE TABLE small AS SELECT md5(n::text) AS s FROM generate_series(1, 1000) n" \
        -c "CREATE INDEX ON small(s text_pattern_ops)" -c "CREATE INDEX ON small(s)" -c "GRANT SELECT ON small TO joe" \
        -c "ANALYZE small"
    costly >"$room/costly"
    while read -r search; do
        within "$search: at most 2 seconds and 200 MB" 2000 costs "$search" </dev/null
        echo "$search: $took ms, $size kB"
        within "$search, ended" 2000 ended "$search" </dev/null
    done <"$room/costly"
    has "a limit that an ordinary user sets before the library is loaded" "is too long" \
        "$(PGUSER=joe sql -c "SET lazydfa.pattern_length = '1MB'" -c "SELECT 'a' =~ repeat('a', 100000)")"
}

# Stops the server in fast mode while a backend compiles one costly pattern after another, and starts it again.
shut_down() {
    begin "SELECT count(*) FROM generate_series(1, 100000) n WHERE 'a' =~* (repeat('[^[:alpha:]]', 5400) || n)"
    started=$(milliseconds)
    as_server "$server$bin/pg_ctl" -D "$room/data" -m fast -t 10 stop >"$room/said" 2>&1
    took=$(($(milliseconds) - started))
    wait "$client"
    grep -q "terminating connection due to administrator command" "$room/output" ||
        fault="it ended otherwise: $(cat "$room/output")"
    run_server || fault="it did not start again"
}

# A backend whose memory is limited to little more than it has. Its own user may limit it.
test_memory() {
    limit=prlimit
    [ "$(id -u)" -ne 0 ] || limit="runuser -u postgres -- prlimit"
    said=$(LIMIT=$limit psql -XAtq 2>&1 <<'END'
SELECT 'begun' =~ 'g';
SELECT pg_backend_pid() \gset
\setenv BACKEND :pg_backend_pid
\! $LIMIT --as=$(($(awk '/^VmSize/ { print $2 }' "/proc/$BACKEND/status") * 1024 + 3000000)) --pid "$BACKEND"
\set VERBOSITY sqlstate
SELECT 'a' =~ '\w{100}';
SELECT lazydfa_captures('a', '(\w{100})');
SELECT 'still there' =~ 'there$';
END
)
    same "a backend without memory" "t
ERROR:  53200
ERROR:  53200
t" "$said"
}

test_encodings() {
    for encoding in SQL_ASCII LATIN1; do
        sql -c "CREATE DATABASE $encoding ENCODING $encoding TEMPLATE template0 LOCALE 'C'"
    done
    PGDATABASE=sql_ascii
    export PGCLIENTENCODING=SQL_ASCII
    same "bytes that are no text" "t|(4,5)|{2}" "$(sql -c "CREATE EXTENSION lazydfa" -c "SELECT
        E'\\xff\\xc3\\xa9b' =~ '^(?-u:\\xff)é', lazydfa_find(E'\\xff\\xc3\\xa9b', 'b'),
        lazydfa_which(E'\\xc3', array['é', '(?-u:.)'])")"
    said=$(sql -c "SELECT 'a' =~ E'ab\\xff'")
    has "a pattern that is not text" "the text of a pattern is not UTF-8" "$said"
    has "where a pattern is not text" "Byte 3 of the pattern is not part of a character in UTF-8" "$said"
    unset PGCLIENTENCODING
    PGDATABASE=latin1
    has "a database of another encoding" "needs a database whose encoding is UTF8 or SQL_ASCII" \
        "$(sql -c "CREATE EXTENSION lazydfa" -c "SELECT 'a' =~ 'a'")"
    PGDATABASE=postgres
}

if made=$(build 2>&1); then
    count "the extension for PostgreSQL" ""
else
    count "the extension for PostgreSQL" "it was not built
$made"
    finish
fi
if made=$(start 2>&1); then
    count "a server" ""
else
    count "a server" "it did not start
$made$(cat "$room/said" "$room/data/log" 2>/dev/null)"
    finish
fi
test_answers
test_readme
test_workers
test_two_backends
test_ends
test_long
test_costly
within "a server that is stopped" 2000 shut_down
test_memory
test_encodings
test_clusters
finish
