# Short words for what is typed in docs/MACHINES.md, by root in this folder: . ./shop.bash
#
# The hosts are those of `./hosts up shop m1 m2 m3 p1 p2 north south east west users`, in this order from 10.77.0.1 on.
disk=$(mktemp -d)

# on HOST COMMAND..                does something on a host
on() { ip netns exec "shop-$1" "${@:2}"; }

# member N [WORD..]                starts a member of the engine
member() { on "m$1" ./member "m$1" "10.77.0.$1" "$disk/m$1" m1=10.77.0.1 m2=10.77.0.2 m3=10.77.0.3 "${@:2}" & }

# node HOST COMMAND [WORD..]       runs ordup-node on a host
node() { on "$1" ../../out/ordup-node "$2" --settings "$disk/settings" "${@:3}"; }

# ask CLIENT NUMBER CHANGE..       asks for an update
ask() { node users update "$@"; }

# look HOST EPOCH.PLACE            reads all values at the site on the host of this number, which has seen so much at least
look() { node users value --sites "http://10.77.0.$1:7001" --seen "$2"; }

# ctl WORD..                       is etcdctl for the first member
ctl() { on users etcdctl --endpoints 10.77.0.1:2379 "$@"; }

# revision                         is that of the engine
revision() { ctl get epoch -w json | sed 's/.*"revision":\([0-9]*\).*/\1/'; }

# restore N FILE                   makes the disk of a member of a backup
restore() {
    etcdctl snapshot restore "$2" --name "m$1" --data-dir "$disk/m$1" --initial-advertise-peer-urls "http://10.77.0.$1:2380" \
        --initial-cluster m1=http://10.77.0.1:2380,m2=http://10.77.0.2:2380,m3=http://10.77.0.3:2380
}

# lose HOST..                      ends what runs there at once
lose() { local host; for host; do kill -9 $(ip netns pids "shop-$host"); done; }

# end HOST                         asks what runs there to end, and waits for that
end() {
    kill $(ip netns pids "shop-$1")
    while [ -n "$(ip netns pids "shop-$1")" ]; do sleep 0.1; done
}

# ready HOST:PORT                  waits until the process at the host of this number takes requests
ready() { until on users curl -sfo /dev/null "http://10.77.0.$1/readyz"; do sleep 0.1; done; }

# archived N                       waits until both primaries have the archive of an epoch
archived() { until [ -f "$disk/p1/epoch-$1.ordup" ] && [ -f "$disk/p2/epoch-$1.ordup" ]; do sleep 0.1; done; }

# writer_last                      names the primaries, last the one that writes
writer_last() { case $(ctl get primary --print-value-only) in p1-*) echo p2 p1 ;; *) echo p1 p2 ;; esac; }

# epoch                            is that of the engine, once that answers
epoch() {
    until ctl get epoch --print-value-only >"$disk/epoch"; do sleep 0.1; done
    sed 's/ .*//' "$disk/epoch"
}

# archives_from N                  names the archives of an epoch and those after it
archives_from() {
    local file number
    for file in "$disk"/p?/epoch-*.ordup; do
        number=${file##*-}
        [ "${number%.ordup}" -lt "$1" ] || echo "$file"
    done
}
