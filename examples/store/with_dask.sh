#!/bin/bash
# Runs a command with a Dask scheduler on the first of the hosts of with_hosts.sh and a worker on each of the others, or on the one that
# there is; stops them at the end.
#
#     with_hosts.sh HOSTS with_dask.sh HOSTS COMMAND...
#
# To the command, $STORE_DASK is the address of the scheduler. $DASK_PYTHON is a Python that has `distributed` (/usr/bin/python3, with
# Debian's package python3-distributed).
hosts=$1
[ $# -ge 2 ] || { sed -n '5s/^# *//p' "$0" >&2; exit 2; }
shift
folder=$(mktemp -d) || exit 2
python=${DASK_PYTHON:-/usr/bin/python3} clients=() pids=()
# shellcheck disable=SC2206
ssh=(${STORE_SSH:-ssh})
finish() {
    trap '' INT TERM HUP
    # The processes of all hosts have numbers of this machine.
    [ ${#pids[@]} -gt 0 ] && kill "${pids[@]}" 2>/dev/null
    [ ${#clients[@]} -gt 0 ] && wait "${clients[@]}" 2>/dev/null
    rm -rf "$folder"
}
trap finish EXIT
trap 'exit 130' INT
trap 'exit 143' TERM HUP

on_host() { # host, its log, command: in the background, after its process number was written to the log
    : >"$folder/$2"
    "${ssh[@]}" "$1" "echo \$\$; cd '$folder'; exec ${*:3}" >"$folder/$2" 2>&1 </dev/null &
    clients+=($!)
    until read -r pid <"$folder/$2" && [ -n "$pid" ]; do kill -0 "${clients[-1]}" 2>/dev/null || break; sleep 0.1; done
    pids+=("$pid")
}
on_host host1 scheduler "'$python' -m distributed.cli.dask_scheduler --host 10.77.0.1 --port 8786 --no-dashboard"
for ((i = hosts > 1 ? 2 : 1; i <= hosts; i++)); do
    on_host "host$i" "worker$i" "env SOUPER_ITEMS='${SOUPER_ITEMS:-souper_items}' '$python' -m distributed.cli.dask_worker tcp://10.77.0.1:8786" \
        "--host 10.77.0.$i --nworkers 1 --nthreads 1 --no-dashboard --local-directory '$folder'"
done
for _ in {1..300}; do
    if [ "$(grep -l 'Registered to' "$folder"/worker* 2>/dev/null | wc -l)" -eq $((hosts > 1 ? hosts - 1 : 1)) ]; then
        STORE_DASK=tcp://10.77.0.1:8786 "$@"
        exit
    fi
    sleep 0.1
done
tail -n 20 "$folder"/* >&2
echo "with_dask.sh: the workers did not start" >&2
exit 2
