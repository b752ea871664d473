# For benchmarks: start_postgres starts a PostgreSQL 15 of its own in $work/postgres, which listens on the Unix socket there alone and
# syncs each commit, and stop_postgres ends it. It is installed with apt-get where it is not there and that can be done. It runs as the
# user postgres, or nobody, where the script runs as root.

# Runs a command as a user under whom PostgreSQL runs.
as_postgres() {
  if [[ $(id -u) != 0 ]]; then "$@"; else runuser -u "$user" -- "$@"; fi
}

find_postgres() {
  local folder
  for folder in /usr/lib/postgresql/15/bin "$(dirname "$(command -v initdb || echo /none/initdb)")"; do
    if [[ -x $folder/initdb && -x $folder/pg_ctl ]] && "$folder/postgres" --version | grep -q ' 15\.'; then
      bin="$folder"
      return
    fi
  done
  return 1
}

start_postgres() {
  if ! find_postgres; then
    echo "$0: PostgreSQL 15 is not there; installing it" >&2
    apt-get install -y postgresql-15 >>"$work/log" 2>&1 || true
    find_postgres || { echo "$0: it cannot be installed here, so Guarddb is measured alone" >&2; return 1; }
  fi
  user=postgres
  getent passwd postgres >/dev/null || user=nobody
  mkdir -p "$work/postgres"
  [[ $(id -u) != 0 ]] || chown "$user" "$work/postgres"
  cd "$work/postgres"
  if ! as_postgres "$bin/initdb" -D "$work/postgres/data" -U root -A trust -E UTF8 --locale=C >>"$work/log" 2>&1 ||
     ! as_postgres "$bin/pg_ctl" -D "$work/postgres/data" -l "$work/postgres/log" -w \
         -o "-c listen_addresses='' -c max_connections=300 -c unix_socket_directories='$work/postgres'" start >>"$work/log" 2>&1; then
    echo "$0: PostgreSQL cannot be started here, so Guarddb is measured alone; $work/log says why" >&2
    return 1
  fi
  postgres=started
  cd "$work"
}

stop_postgres() {
  [[ -z ${postgres:-} ]] || as_postgres "$bin/pg_ctl" -D "$work/postgres/data" -m fast -w stop >>"$work/log" 2>&1 || true
}
