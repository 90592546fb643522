#!/bin/bash
# Runs a command with a PostgreSQL server of its own, in a temporary folder; stops it at the end.
#
#     with_postgres.sh COMMAND...
#
# The server listens at $STORE_ADDRESS (127.0.0.1), on a free port. To the command, $PGHOST, $PGPORT, $PGUSER and $PGDATABASE are set,
# so that `psql` reaches it. Whoever reaches the address may connect. As root it runs as the user `postgres`.
# Not in $TMPDIR, which may be closed to the user `postgres`.
folder=$(mktemp -d --tmpdir=/tmp) || exit 2
server=''
finish() {
    trap '' INT TERM HUP
    [ -n "$server" ] && kill -INT "$server" 2>/dev/null && wait "$server" 2>/dev/null
    rm -rf "$folder"
}
trap finish EXIT
trap 'exit 130' INT
trap 'exit 143' TERM HUP

bin=$(printf '%s\n' /usr/lib/postgresql/*/bin | sort -V | tail -n 1)
as_user=()
if [ "$(id -u)" -eq 0 ]; then
    chown postgres "$folder" || exit 2
    as_user=(setpriv --reuid postgres --regid postgres --clear-groups --reset-env)
fi
address=${STORE_ADDRESS:-127.0.0.1}
cd "$folder" || exit 2
"${as_user[@]}" "$bin/initdb" --pgdata="$folder/data" --username=store --auth=trust --encoding=UTF8 --locale=C --no-sync >"$folder/log" 2>&1 ||
    { cat "$folder/log" >&2; exit 2; }
printf 'host all all %s trust\n' samenet >>"$folder/data/pg_hba.conf"
for _ in 1 2 3 4 5; do
    port=$(python3 -c 'import socket, sys; s = socket.create_server((sys.argv[1], 0)); print(s.getsockname()[1])' "$address") || exit 2
    "${as_user[@]}" "$bin/postgres" -D "$folder/data" -h "$address" -p "$port" -k "$folder" -F </dev/null >>"$folder/log" 2>&1 &
    server=$!
    while kill -0 "$server" 2>/dev/null; do
        # Another server may have taken the port; this one has its folder.
        if [ "$(psql -h "$address" -p "$port" -U store -Atc 'SHOW data_directory' postgres 2>/dev/null)" = "$folder/data" ]; then
            cd "$OLDPWD" || exit 2
            PGHOST=$address PGPORT=$port PGUSER=store PGDATABASE=postgres "$@"
            exit
        fi
        sleep 0.1
    done
done
cat "$folder/log" >&2
echo "with_postgres.sh: the server did not start" >&2
exit 2
