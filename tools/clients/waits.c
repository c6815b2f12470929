/* Beside its other in a deadlock, by calls of a procedure by DB-Library, and again behind it; its argument is 1 or 2. */
#include <stdio.h>
#include <stdlib.h>
#include <sybdb.h>
#include <sybfront.h>

static int is_refused;

static int tell(DBPROCESS *db, DBINT number, int state, int severity, char *text, char *server, char *procedure, int line)
{
    (void)db, (void)number, (void)state, (void)server, (void)procedure, (void)line;
    if (severity > 10) {
        is_refused = 1;
        puts(text);
    }
    return 0;
}

static int ignore(DBPROCESS *db, int severity, int number, int system, char *text, char *other)
{
    (void)db, (void)severity, (void)number, (void)system, (void)text, (void)other;
    return INT_CANCEL;
}

static int is_done(DBPROCESS *db)
{
    while (dbresults(db) == SUCCEED)
        while (dbnextrow(db) != NO_MORE_ROWS)
            continue;
    return !is_refused;
}

static int batch(DBPROCESS *db, const char *text)
{
    is_refused = 0;
    dbcmd(db, text);
    dbsqlexec(db);
    return is_done(db);
}

static int call(DBPROCESS *db, const char *procedure, int count, DBINT *values)
{
    is_refused = 0;
    dbrpcinit(db, procedure, 0);
    for (int n = 0; n < count; n++)
        dbrpcparam(db, NULL, 0, SYBINT4, -1, -1, (BYTE *)&values[n]);
    dbrpcsend(db);
    dbsqlok(db);
    return is_done(db);
}

static int add(DBPROCESS *db, DBINT id)
{
    return call(db, "add_stock", 2, (DBINT[]){10, id});
}

int main(int count, char **words)
{
    DBINT me = count > 1 ? atoi(words[1]) : 0, other = 3 - me;
    dbinit();
    dberrhandle(ignore);
    dbmsghandle(tell);
    LOGINREC *login = dblogin();
    DBSETLUSER(login, "sa");
    DBSETLPWD(login, "A");
    DBPROCESS *db = dbopen(login, "tsqld");
    if (!db)
        return 1;
    batch(db, "BEGIN TRANSACTION");
    add(db, me);
    batch(db, "SET LOCK_TIMEOUT 0");
    while (call(db, "find_stock", 1, &other)) /* until the other has its row */
        continue;
    batch(db, "SET LOCK_TIMEOUT -1");
    if (!add(db, other)) {
        batch(db, "BEGIN TRANSACTION");
        add(db, other); /* as soon as the other has committed */
        add(db, me);
    }
    if (batch(db, "COMMIT"))
        puts("committed");
    dbexit();
    return 0;
}
