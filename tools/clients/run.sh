#!/bin/sh
# Runs real clients against a `tsqld listen` of the password A, and looks at what comes of it:
#
#     tools/clients/run.sh PORT [HOST]
#     PARTS='orders locks' tools/clients/run.sh PORT [HOST]     these parts alone
#
# orders: each client runs the batches of orders.sql, and tells what orders.out has. transfers: four of a kind, and then one of
# each, at once; no money is lost. locks: two of a kind, of which each meets the other's lock with LOCK_TIMEOUT 0, and one falls
# in a deadlock. waits: the same by parameters of eleven clients, and who fell does its work again. pools: nine pools are given
# a connection back in a transaction, behind an error and with rows unread, and it is clean when it is taken again. example: a
# program of ten lines in each of four languages. calls: four clients send parameters by calls by RPC, and tell what calls.out
# has, or that of their kind. drivers: each client by its own idioms of parameters, prepared statements and transactions, which
# tells what drivers.out has, and behind that what its own kind has. reads: two that make no tables, bsqlodbc and PostgreSQL's
# tds_fdw, over a table that there is. pages: what EXAMPLES and CLIENTS show are lines of these scripts, or programs that print
# what they say. Prints a line for each part, and ends with 1 where one is wrong, or at once with 2 where no server is reached.
# The tables orders, items, account, seat, stock, shelf, t and parts are dropped, before and behind. The server needs four workers
# at least, and --drivers, which ./tsqld gives it.
cd "$(dirname "$0")" || exit 2
port=${1:?the port is missing}
host=${2:-127.0.0.1}
perl -MIO::Socket::IP -e 'IO::Socket::IP->new(PeerHost => $ARGV[0], PeerPort => $ARGV[1], Timeout => 10) or exit 1' "$host" "$port" || {
    echo "run.sh: no server is reached at $host, port $port" >&2
    exit 2
}
work=$(mktemp -d)
trap 'rm -r "$work"' EXIT
trap 'exit 2' INT TERM
export FREETDSCONF="$work/freetds.conf"
printf '[tsqld]\n    host = %s\n    port = %s\n    tds version = 7.4\n    encryption = off\n' "$host" "$port" > "$FREETDSCONF"
export ODBCINI="$work/odbc.ini"
printf '[tsqld]\nDriver = FreeTDS\nServername = tsqld\n' > "$ODBCINI"
every="orders transfers locks waits pools example calls drivers reads pages"
parts=${PARTS:-$every}
for part in $parts; do
    case " $every " in
        *" $part "*) ;;
        *) echo "run.sh: $part is none of the parts, $every" >&2; exit 2 ;;
    esac
    [ ! -e "$part.go" ] || GO111MODULE=off GOPATH=/usr/share/gocode go build -o "$work/$part" "$part.go" || exit 2
    [ ! -e "$part.c" ] || cc -o "$work/$part.dblib" "$part.c" -lsybdb || exit 2
done
kinds="go pyodbc pdo perl tsql"
failed=0

# Batches from standard input, by tsql: the rows without titles, errors in their places.
sql() {
    timeout 120 stdbuf -oL tsql -o qh -S tsqld -U sa -P A 2>&1
}

# A script by a client of this kind; where several run it at once, with its number.
client() {
    case $2.$1 in
        pages.programs) GO111MODULE=off GOPATH=/usr/share/gocode timeout 300 /usr/bin/python3 pages.py "$host" "$port" ;;
        pools.pyodbc) ODBCSYSINI="$work/pooling" timeout 120 /usr/bin/python3 "$2.py" "$1" "$host" "$port" ;;
        waits.pyodbc | waits.pymssql | waits.pytds | pools.pytds) timeout 120 /usr/bin/python3 "$2.py" "$1" "$host" "$port" $3 ;;
        waits.pdo | pools.pdo) timeout 120 php "$2.php" dblib $3 ;;
        waits.pdo_odbc | pools.pdo_odbc) timeout 120 php "$2.php" odbc $3 ;;
        waits.perl | pools.perl) timeout 120 perl "$2.pl" Sybase $3 ;;
        waits.odbc | pools.odbc) timeout 120 perl "$2.pl" ODBC $3 ;;
        *) by_script "$@" ;;
    esac > "$work/told.$1.$3" 2>&1
}

# A client whose script is of its own kind.
by_script() {
    case $1 in
        go) timeout 120 "$work/$2" "$host" "$port" $3 ;;
        pyodbc) timeout 120 /usr/bin/python3 "$2.py" $3 ;;
        pymssql | pytds) timeout 120 /usr/bin/python3 "$2_$1.py" "$host" "$port" ;;
        pdo) timeout 120 php "$2.php" $3 ;;
        pdo_odbc) timeout 120 php "$2_odbc.php" ;;
        perl) timeout 120 perl "$2.pl" $3 ;;
        odbc) timeout 120 perl "$2_odbc.pl" ;;
        dblib) timeout 120 "$work/$2.dblib" $3 ;;
        alchemy_*) timeout 120 /usr/bin/python3 "$2_alchemy.py" "$host" "$port" "${1#alchemy_}" $3 ;;
        bsqlodbc) timeout 120 stdbuf -oL bsqlodbc -q -t '|' -S tsqld -U sa -P A < "$2.sql" ;;
        tds_fdw) by_postgres "$2_fdw.sql" ;;
        isql) timeout 120 isql tsqld sa A -b -v -d, < "$2_isql.sql" ;;
        tsql) { [ -z "$3" ] || echo "DECLARE @me INT = $3"; cat "$2.sql"; } | sql ;;
    esac
}

# A script by a cluster of PostgreSQL of its own, whose server doesn't run as root.
by_postgres() {
    server=$(dirname "$(ls /usr/lib/postgresql/*/bin/initdb | tail -n 1)")
    as=
    mkdir "$work/cluster"
    if [ "$(id -u)" = 0 ]; then
        chmod 755 "$work"
        chown postgres "$work/cluster"
        as="runuser -u postgres --"
    fi
    options="-c listen_addresses= -c unix_socket_directories=$work/cluster -c fsync=off"
    $as "$server/initdb" -D "$work/cluster/data" -A trust -U bench -E UTF8 --no-locale > "$work/made" &&
        $as "$server/pg_ctl" -D "$work/cluster/data" -w -o "$options" -l "$work/cluster/log" start > "$work/made" || return
    timeout 120 psql -X -q -A -t -F ' ' -P null=NULL -h "$work/cluster" -U bench -d postgres -v host="$host" -v port="$port" -f "$1" 2>&1 |
        grep -v NOTICE
    $as "$server/pg_ctl" -D "$work/cluster/data" -m immediate stop > "$work/made"
}

# What clients told, without what each of them puts round a message.
plain() {
    perl -ne 'if (my @told = /((?:The statement conflicted|The transaction was chosen|Lock request|Violation of constraint|Text is too long|Definition or statement)[^.]*\.)/g) {
                  print "$_\n" for @told;
              } elsif (!/^Msg /) {
                  tr/\t/ /;
                  print;
              }' "$@"
}

# Says whether a part is right, and shows what was told where it is not.
part() {
    if [ "$2" = "$3" ]; then
        echo "right  $1"
    else
        echo "WRONG  $1"
        cat "$work"/told.*
        failed=1
    fi
    rm "$work"/told.*
}

# Makes the table anew by this batch.
anew() {
    printf 'DROP TABLE %s\ngo\n' "$1" | sql > "$work/dropped"
    printf '%s\ngo\n' "$2" | sql
}

# Two clients of this kind at once, and all that both told.
two() {
    client "$1" "$2" 1 &
    client "$1" "$2" 2 &
    wait
    plain "$work"/told.* | LC_ALL=C sort
}

orders() {
    for kind in $kinds; do
        printf 'DROP PROCEDURE add_item\ngo\nDROP TABLE items\ngo\nDROP TABLE orders\ngo\n' | sql > "$work/dropped"
        client "$kind" orders
        part "orders, $kind" "$(plain "$work"/told.*)" "$(cat orders.out)"
    done
}

# Clients of these kinds transfer at once.
transfer() {
    anew account 'CREATE TABLE account (id INT NOT NULL PRIMARY KEY, balance INT NOT NULL CHECK (balance >= 0))
INSERT INTO account VALUES (1, 100), (2, 100), (3, 100), (4, 100)'
    n=0
    for kind in $2; do
        n=$((n + 1))
        client "$kind" transfers $n &
    done
    wait
    done=$(plain "$work"/told.* | grep -c '^10 transfers')
    refused=$(plain "$work"/told.* | grep -c "'CK_account_1'")
    fell=$(plain "$work"/told.* | awk '/^10 transfers/ { fell += $4 } END { print fell + 0 }')
    sum=$(printf 'SELECT SUM(balance), COUNT(*) FROM account\ngo\n' | sql | tr '\t' ' ')
    part "transfers, $1: $fell fell" "$done $refused $sum" "$n $n 400 4"
}
transfers() {
    for kind in $kinds; do
        transfer "four of $kind" "$kind $kind $kind $kind"
    done
    transfer "one of each" "$kinds"
}

locks() {
    for kind in $kinds; do
        anew seat 'CREATE TABLE seat (id INT NOT NULL PRIMARY KEY)'
        part "locks, $kind" "$(two "$kind" locks)" "Lock request time out period exceeded.
Lock request time out period exceeded.
The transaction was chosen as the deadlock victim.
committed"
    done
}

waits() {
    for kind in go pyodbc pymssql pytds pdo pdo_odbc perl odbc dblib alchemy_pyodbc alchemy_pymssql; do
        printf 'DROP PROCEDURE add_stock\ngo\nDROP PROCEDURE find_stock\ngo\n' | sql > "$work/dropped"
        anew stock 'CREATE TABLE stock (id INT NOT NULL PRIMARY KEY, amount INT NOT NULL)
INSERT INTO stock VALUES (1, 0), (2, 0)
go
CREATE PROCEDURE add_stock @more INT, @id INT AS UPDATE stock SET amount = amount + @more WHERE id = @id
go
CREATE PROCEDURE find_stock @id INT AS SELECT amount FROM stock WHERE id = @id'
        part "waits, $kind" "$(two "$kind" waits; printf 'SELECT id, amount FROM stock\ngo\n' | sql | tr '\t' ' ')" "$(cat waits.out)"
    done
}

# SQLTables, by which DBD::ODBC sees whether a connection lives, calls sp_tables, which there is not.
pools() {
    mkdir "$work/pooling"
    printf '[ODBC]\nPooling = Yes\n[FreeTDS]\nDriver = libtdsodbc.so\nCPTimeout = 60\n' > "$work/pooling/odbcinst.ini"
    printf "CREATE PROCEDURE sp_tables @table_name NVARCHAR(128) AS SELECT N'' AS TABLE_QUALIFIER, N'' AS TABLE_OWNER,
  @table_name AS TABLE_NAME, N'TABLE' AS TABLE_TYPE, N'' AS REMARKS WHERE 1 = 0\ngo\n" | sql > "$work/dropped"
    for kind in go pyodbc pytds pdo pdo_odbc perl odbc alchemy_pyodbc alchemy_pymssql; do
        anew shelf 'CREATE TABLE shelf (id INT NOT NULL PRIMARY KEY)
INSERT INTO shelf VALUES (1)'
        client "$kind" pools
        part "pools, $kind" "$(plain "$work"/told.*)" "$(cat pools.out)"
    done
}

# Clients of these kinds run a script by which the table parts and the procedure add_part are made, one after another.
alone() {
    for kind in $2; do
        printf 'DROP PROCEDURE add_part\ngo\nDROP TABLE parts\ngo\n' | sql > "$work/dropped"
        client "$kind" "$1"
        part "$1, $kind" "$(plain "$work"/told.*)" "$(expected "$1" "$kind")"
    done
}

# What a client of this kind is to tell: all that stands in its own file of calls; of drivers what all tell, and what its own
# file has behind that.
expected() {
    case $1.$2 in
        drivers.isql) ;;
        drivers.alchemy_*) cat "$1.out" "$1.alchemy.out" ;;
        drivers.* | example.*) cat "$1.out" ;;
        calls.*) [ -e "calls.$2.out" ] || cat calls.out ;;
    esac
    [ ! -e "$1.$2.out" ] || cat "$1.$2.out"
}
example() {
    alone example "go pyodbc pdo odbc"
}

calls() {
    alone calls "go pymssql perl odbc"
}

drivers() {
    alone drivers "go pyodbc pymssql pytds pdo pdo_odbc perl odbc isql alchemy_pyodbc alchemy_pymssql"
}

reads() {
    for kind in bsqlodbc tds_fdw; do
        anew parts "CREATE TABLE parts (id INT NOT NULL PRIMARY KEY, weight BIGINT, sold BIT, name NVARCHAR(20))
INSERT INTO parts VALUES (1, 1099511627776, 1, N'bolt'), (2, NULL, 0, N''), (3, 7, NULL, NULL), (4, 8, 1, N'Žé€')"
        client "$kind" reads
        part "reads, $kind" "$(plain "$work"/told.*)" "$(expected reads "$kind")"
    done
}

pages() {
    for kind in go pdo tsql programs; do
        printf 'DROP TABLE items\ngo\nDROP TABLE orders\ngo\nDROP TABLE account\ngo\nDROP TABLE t\ngo\n' | sql > "$work/dropped"
        client "$kind" pages
        part "pages, $kind" "$(plain "$work"/told.*)" "$(expected pages "$kind")"
    done
}

for part in $parts; do
    "$part"
done
printf 'DROP PROCEDURE add_item\nDROP TABLE items\nDROP TABLE orders\nDROP TABLE account\nDROP TABLE seat\nDROP PROCEDURE add_stock\nDROP PROCEDURE find_stock\nDROP TABLE stock\nDROP PROCEDURE sp_tables\nDROP TABLE shelf\nDROP PROCEDURE add_part\nDROP TABLE parts\nDROP TABLE t\ngo\n' | sql > "$work/dropped"
exit $failed
