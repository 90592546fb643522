#!/bin/bash
# Runs a command with an ssh server of its own on this host, which stands for another host; stops it at the end.
#
#     with_sshd.sh COMMAND...
#
# The server listens on a free port of 127.0.0.1. Keys and settings are in a temporary folder; those of the user are not read
# and not changed. To the command, $STORE_SSH is how `ssh` is called, and `here` is the name of the host:
# `$STORE_SSH here hostname`.
folder=$(mktemp -d) || exit 2
server='' made=''
finish() {
    trap '' INT TERM HUP
    [ -n "$server" ] && kill "$server" 2>/dev/null && wait "$server" 2>/dev/null
    [ -n "$made" ] && rmdir /run/sshd
    rm -rf "$folder"
}
trap finish EXIT
trap 'exit 130' INT
trap 'exit 143' TERM HUP

# The folder that sshd wants if root starts it.
if [ "$(id -u)" -eq 0 ] && [ ! -d /run/sshd ]; then mkdir -m 755 /run/sshd && made=yes; fi

ssh-keygen -q -t ed25519 -N '' -f "$folder/host" && ssh-keygen -q -t ed25519 -N '' -f "$folder/user" || exit 2
for _ in 1 2 3 4 5; do
    port=$(python3 -c 'import socket; s = socket.create_server(("127.0.0.1", 0)); print(s.getsockname()[1])') || exit 2
    cat >"$folder/sshd_config" <<END_OF_SETTINGS
ListenAddress 127.0.0.1:$port
HostKey $folder/host
AuthorizedKeysFile $folder/user.pub
AuthenticationMethods publickey
PermitRootLogin prohibit-password
StrictModes no
UsePAM no
PidFile none
MaxStartups 100
END_OF_SETTINGS
    cat >"$folder/ssh_config" <<END_OF_SETTINGS
Host here
    HostName 127.0.0.1
    Port $port
    User $(id -un)
    IdentityFile $folder/user
    IdentitiesOnly yes
    UserKnownHostsFile $folder/known_hosts
    GlobalKnownHostsFile /dev/null
    StrictHostKeyChecking yes
    BatchMode yes
    LogLevel ERROR
END_OF_SETTINGS
    echo "[127.0.0.1]:$port $(cat "$folder/host.pub")" >"$folder/known_hosts"
    "$(PATH=$PATH:/usr/sbin command -v sshd)" -D -f "$folder/sshd_config" -E "$folder/log" </dev/null &
    server=$!
    # The server is ready if it takes its key; another server on this port would have another key.
    while kill -0 "$server" 2>/dev/null; do
        if ssh -F "$folder/ssh_config" here true 2>/dev/null; then
            STORE_SSH="ssh -F $folder/ssh_config" "$@"
            exit
        fi
        sleep 0.1
    done
done
cat "$folder/log" >&2
echo "with_sshd.sh: the server did not start" >&2
exit 2
