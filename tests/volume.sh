# shellcheck shell=sh
# Volumes of GlusterFS that keep each file three times, in three folders of this machine, and are
# mounted twice: the first one in $work/one and $work/two. Who reads this file in has read checks.sh in
# before. A glusterd of its own serves them, which ends with the test.
gluster_state=$work/gluster
# The volume that is killed and healed; a subshell may say another one.
gluster_volume=device

# needs_volume: says that the test is skipped, and ends, where there is no GlusterFS or it may not be
# mounted here
needs_volume() {
    if ! { command -v glusterd && command -v gluster && command -v mount.glusterfs; } >/dev/null; then
        echo "$name: skipped, since there is no GlusterFS here (apt-get install glusterfs-server glusterfs-client)"
        exit 0
    fi
    if [ "$(id -u)" != 0 ] || [ ! -c /dev/fuse ] || ! grep -qw fuse /proc/filesystems; then
        echo "$name: skipped, since file systems can't be mounted here (it needs root and /dev/fuse)"
        exit 0
    fi
    if ss -ltn | grep -q ':24007 '; then
        echo "$name: skipped, since another glusterd runs on this machine"
        exit 0
    fi
    gluster_host=$(hostname)
    if ! getent hosts "$gluster_host" >/dev/null; then
        echo "$name: skipped, since the name of this machine, $gluster_host, has no address"
        exit 0
    fi
}

# volume WORD..: has the volume do something, as started or healed
volume() {
    gluster --mode=script volume "$@"
}

# until_done SECONDS WORD..: tries a command until it succeeds, for so long at most
until_done() {
    until_time=$(($(date +%s) + $1))
    shift
    until "$@" >/dev/null 2>&1; do
        test "$(date +%s)" -lt "$until_time" || return 1
        sleep 0.2
    done
}

# start_volume: starts a glusterd, and the first volume
start_volume() {
    trap 'stop_volume; chmod -R u+rwx "$work"; rm -rf "$work"' EXIT
    mkdir -p "$gluster_state/state" "$gluster_state/run"
    cat >"$gluster_state/glusterd.vol" <<END
volume management
    type mgmt/glusterd
    option working-directory $gluster_state/state
    option run-directory $gluster_state/run
    option transport-type socket
    option transport.socket.listen-port 24007
    option transport.address-family inet
    option ping-timeout 0
    option event-threads 1
    option max-port 60999
end-volume
END
    glusterd -f "$gluster_state/glusterd.vol" -p "$gluster_state/glusterd.pid" -l "$gluster_state/glusterd.log"
    until_done 20 volume info
    make_volume device "$work"
}

# make_volume NAME FOLDER: makes and starts a volume, and mounts it in FOLDER/one and FOLDER/two
make_volume() {
    bricks=$gluster_state/$1
    mkdir -p "$bricks/brick0" "$bricks/brick1" "$bricks/brick2" "$2/one" "$2/two"
    {
        volume create "$1" replica 3 "$gluster_host:$bricks/brick0" "$gluster_host:$bricks/brick1" "$gluster_host:$bricks/brick2" force &&
            volume start "$1"
    } >"$2/volume" 2>&1 &&
        mount -t glusterfs -o "log-file=$gluster_state/$1-one.log" "$gluster_host:/$1" "$2/one" &&
        mount -t glusterfs -o "log-file=$gluster_state/$1-two.log" "$gluster_host:/$1" "$2/two"
    # shellcheck disable=SC2181 # of all these
    if [ $? != 0 ] || ! until_done 20 mkdir -p "$2/one/medium"; then
        echo "$name: the volume can't be started: $(cat "$2/volume")" >&2
        exit 1
    fi
}

# kill_brick NUMBER: ends the process of this brick, at once
kill_brick() {
    if ! kill -KILL "$(cat "$gluster_state/run/vols/$gluster_volume"/*-brick"$1".pid)"; then
        echo "$name: brick $1 can't be killed" >&2
        failed=$((failed + 1))
    fi
}

# start_bricks: starts those that were ended, and waits until each of the three has all
start_bricks() {
    until_done 60 is_healed
}

# is_healed: whether no brick lacks anything, and all are there. It starts those that are not, since
# one that has just been killed may count as running for a moment, and asks for the healing.
is_healed() {
    volume start "$gluster_volume" force
    volume heal "$gluster_volume"
    test "$(volume heal "$gluster_volume" info | grep -c '^Number of entries: 0$')" = 3
}

# stop_volume: unmounts the volumes, and ends what serves them
stop_volume() {
    awk -v work="$work/" 'index($2, work) == 1 { print $2 }' /proc/mounts | while IFS= read -r folder; do
        umount "$folder" || umount -l "$folder"
    done
    if [ -f "$gluster_state/glusterd.pid" ]; then
        for each in $(volume list 2>/dev/null); do
            volume stop "$each" force >/dev/null 2>&1
        done
        kill "$(cat "$gluster_state/glusterd.pid")"
    fi
    rm -f "/var/log/glusterfs/bricks/$(echo "$gluster_state" | sed 's|^/||; s|/|-|g')"-*-brick?.log
}
