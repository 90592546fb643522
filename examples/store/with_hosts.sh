#!/bin/bash
# Runs a command among hosts of its own, which are network namespaces on this machine: each has an ssh server, and a cable to a bridge.
#
#     with_hosts.sh HOSTS COMMAND...
#
# HOSTS is a number from 1 to 9. The hosts are host1, host2, ..; the command runs beside them, in a namespace with the bridge. They
# have the files of this machine, as from a shared file system, and no other network. To the command, $STORE_SSH is how `ssh` is
# called, and $STORE_ADDRESS the address at which the hosts reach it. At the end nothing of them is left.
#
# It has to be root. The status is 3 if no namespaces can be made here.
count=$1
[[ $count =~ ^[1-9]$ ]] && [ $# -ge 2 ] || { sed -n '4s/^# *//p' "$0" >&2; exit 2; }
shift
folder=$(mktemp -d) || exit 2
hub=store$$ servers=() made=()
finish() {
    trap '' INT TERM HUP
    [ ${#servers[@]} -gt 0 ] && kill "${servers[@]}" 2>/dev/null && wait "${servers[@]}" 2>/dev/null
    for name in "${made[@]}"; do ip netns delete "$name"; done
    rm -rf "$folder"
}
trap finish EXIT
trap 'exit 130' INT
trap 'exit 143' TERM HUP

made_host() { # name: a namespace with a loopback address
    ip netns add "$1" && made+=("$1") && ip -n "$1" link set lo up
}
network() {
    local i
    made_host "$hub" && ip -n "$hub" link add bridge type bridge && ip -n "$hub" address add 10.77.0.254/24 dev bridge &&
        ip -n "$hub" link set bridge up || return 1
    for ((i = 1; i <= count; i++)); do
        made_host "$hub-$i" && ip -n "$hub" link add "to$i" type veth peer name cable netns "$hub-$i" &&
            ip -n "$hub" link set "to$i" master bridge up && ip -n "$hub-$i" address add "10.77.0.$i/24" dev cable &&
            ip -n "$hub-$i" link set cable up || return 1
    done
}
if ! network 2>"$folder/log"; then
    echo "with_hosts.sh: no network namespaces here: $(tail -n 1 "$folder/log")" >&2
    exit 3
fi

# The folder that sshd wants if root starts it.
mkdir -p /run/sshd
ssh-keygen -q -t ed25519 -N '' -f "$folder/host" && ssh-keygen -q -t ed25519 -N '' -f "$folder/user" || exit 2
for ((i = 1; i <= count; i++)); do
    cat >"$folder/sshd_config$i" <<END_OF_SETTINGS
ListenAddress 10.77.0.$i:22
HostKey $folder/host
AuthorizedKeysFile $folder/user.pub
AuthenticationMethods publickey
PermitRootLogin prohibit-password
StrictModes no
UsePAM no
PidFile none
MaxStartups 100
END_OF_SETTINGS
    cat >>"$folder/ssh_config" <<END_OF_SETTINGS
Host host$i
    HostName 10.77.0.$i
END_OF_SETTINGS
    echo "10.77.0.$i $(cat "$folder/host.pub")" >>"$folder/known_hosts"
    ip netns exec "$hub-$i" "$(PATH=$PATH:/usr/sbin command -v sshd)" -D -f "$folder/sshd_config$i" -E "$folder/log$i" </dev/null &
    servers+=($!)
done
cat >>"$folder/ssh_config" <<END_OF_SETTINGS
Host *
    User $(id -un)
    IdentityFile $folder/user
    IdentitiesOnly yes
    UserKnownHostsFile $folder/known_hosts
    GlobalKnownHostsFile /dev/null
    StrictHostKeyChecking yes
    BatchMode yes
    LogLevel ERROR
END_OF_SETTINGS
for ((i = 1; i <= count; i++)); do
    for _ in {1..100}; do
        ip netns exec "$hub" ssh -F "$folder/ssh_config" "host$i" true 2>/dev/null && continue 2
        sleep 0.1
    done
    cat "$folder/log$i" >&2
    echo "with_hosts.sh: the server of host$i did not start" >&2
    exit 2
done
STORE_SSH="ssh -F $folder/ssh_config" STORE_ADDRESS=10.77.0.254 ip netns exec "$hub" "$@"
