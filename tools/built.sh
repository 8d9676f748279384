# For the scripts that run a program of this repository, which source it.

# is_built PROGRAM: whether it is newer than each file of the crates that it was built from
is_built() {
  local top=${BASH_SOURCE[0]%/*}/.. out
  out="$top/crates/$1/out"
  [ -x "$out/$1" ] && [ -f "$out/built_from" ] || return 1
  local rooms
  mapfile -t rooms < "$out/built_from"
  (cd "$top" && [ -z "$(find "${rooms[@]}" -newer "crates/$1/out/$1" -type f -print -quit 2>&1)" ])
}
