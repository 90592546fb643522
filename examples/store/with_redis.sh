#!/bin/bash
# Runs a command with a Redis server of its own, which keeps nothing on disk; stops it at the end.
#
#     with_redis.sh COMMAND...
#
# The server listens on a free port of 127.0.0.1, which is $STORE_REDIS to the command.
folder=$(mktemp -d) || exit 2
server=''
finish() {
    trap '' INT TERM HUP
    [ -n "$server" ] && kill "$server" 2>/dev/null && wait "$server" 2>/dev/null
    rm -rf "$folder"
}
trap finish EXIT
trap 'exit 130' INT
trap 'exit 143' TERM HUP

for _ in 1 2 3 4 5; do
    port=$(python3 -c 'import socket; s = socket.create_server(("127.0.0.1", 0)); print(s.getsockname()[1])') || exit 2
    redis-server --bind 127.0.0.1 --port "$port" --dir "$folder" --save '' --appendonly no </dev/null >"$folder/log" 2>&1 &
    server=$!
    # Another server may have taken the port, so this one is asked for its number.
    while kill -0 "$server" 2>/dev/null; do
        if redis-cli -p "$port" info server 2>/dev/null | grep -q "^process_id:$server\b"; then
            STORE_REDIS=$port "$@"
            exit
        fi
        sleep 0.1
    done
done
cat "$folder/log" >&2
echo "with_redis.sh: the server did not start" >&2
exit 2
