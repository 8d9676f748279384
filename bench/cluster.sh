# A private PostgreSQL 15 for the scripts beside this one, which source it: a cluster in a temporary folder, reached by a unix socket there alone, fsync off.
# It installs nothing. Needed are Debian's packages postgresql-15 and postgresql-client-15; the first of them holds the real isolationtester.
lib=/usr/lib/postgresql/15
real=$lib/lib/pgxs/src/test/isolation/isolationtester
cluster=

# has_real: whether the server and the tool are on this machine
has_real() {
  [ -x "$real" ] && [ -x "$lib/bin/initdb" ]
}

# postgres refuses to run as root
as_owner() {
  if [ "$(id -u)" = 0 ]; then setpriv --reuid postgres --regid postgres --clear-groups "$@"; else "$@"; fi
}

# start_cluster ROOM: makes it in the folder ROOM and starts it; its socket is ROOM/socket, its user is named tester
start_cluster() {
  chmod 755 "$1"
  mkdir "$1/cluster" "$1/socket"
  [ "$(id -u)" != 0 ] || chown postgres "$1/cluster" "$1/socket"
  as_owner "$lib/bin/initdb" -D "$1/cluster" -A trust -U tester --locale C --encoding UTF8 > /dev/null
  cluster="$1/cluster"
  as_owner "$lib/bin/pg_ctl" -D "$cluster" -w -l "$cluster/log" \
    -o "-c listen_addresses='' -c unix_socket_directories='$1/socket' -c fsync=off" start > /dev/null
}

# stops it, where it was started
stop_cluster() {
  [ -z "$cluster" ] || as_owner "$lib/bin/pg_ctl" -D "$cluster" -m immediate stop > /dev/null 2>&1 || true
}
