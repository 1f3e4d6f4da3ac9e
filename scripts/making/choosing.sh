# Which program ./ppdb runs: functions for it and for the scripts of scripts/making, which set `root` and read this file.
# scripts/making/look takes the sum of the sources and compares release/ppdb with release/SHA256SUMS, in 140 ms. It keeps both answers in
# build/known, and in build/known.names the names of all files and folders that they depend on. They hold as long as none of these changed
# after the answers were taken. The time of a change (ctime) is set by the system alone, so an older file in place of a newer one is noticed.
built_program=$root/crates/ppdb_cli/out/ppdb_cli
released=$root/release/ppdb
known=$root/build/known
# The sum of the sources of which the built program was made.
mark=$root/build/ppdb_cli.sources

# Whether a file or a folder that the answers depend on was changed after this file was written: changed_since FILE [LEFT-OUT].
changed_since() {
  local found newer=(-maxdepth 0 -cnewer "$1" ! -path "${2:-}" -print)
  found=$(cd "$root" && exec find -files0-from build/known.names "${newer[@]}" -quit 2>&1) && [ -z "$found" ] && return 1
  case $found in *files0-from*) ;; *) return 0 ;; esac
  # A `find` before 4.9 reads no names from a file.
  found=$(cd "$root" && mapfile -d "" -t names <build/known.names && exec find "${names[@]}" "${newer[@]}" -quit 2>&1) && [ -z "$found" ] && return 1
  return 0
}

# Sets `sum` to the sum of the sources, `of` to that in release/SOURCES, and `intact` to yes or no: whether release/ppdb is the program
# that release/SHA256SUMS names.
know() {
  if [ -e "$known.names" ] && [ -e "$known" ] && ! changed_since build/known; then
    read -r sum of intact <"$known"
  else
    read -r sum of intact < <(exec "$root/scripts/making/look")
  fi
  [ -n "${intact:-}" ]
}

# Whether the program that was built here is of these sources. A program without a mark is one that `rt` left: it is of these sources if
# none of them was changed after it was written.
is_of_these_sources() {
  local made=
  [ -e "$built_program" ] || return 1
  if [ ! -e "$mark" ] || [ "$built_program" -nt "$mark" ]; then
    made=others
    changed_since crates/ppdb_cli/out/ppdb_cli 'release*' || made=$sum
    { echo "$made" >"$mark"; } 2>/dev/null
  else
    read -r made <"$mark"
  fi
  [ "$made" = "$sum" ]
}

# Sets `program` to the one that was built here, if it is of these sources, and else to the released one. Unless it is called with
# --quiet it says that the sources are newer than that.
choose() {
  know || return 70
  if is_of_these_sources; then
    program=$built_program
  elif [ "$intact" = yes ]; then
    program=$released
    [ "$sum" = "$of" ] || [ "${1:-}" = --quiet ] ||
      echo "ppdb: the sources are newer than release/ppdb, which is run here; make builds a program of them" >&2
  elif [ -e "$released" ]; then
    echo "ppdb: release/ppdb is not the program that release/SHA256SUMS names, so it is not run; git checkout release restores it" >&2
    return 70
  else
    echo "ppdb: there is no program of these sources, and none in release/; make builds one, with the Rattle toolchain" >&2
    return 70
  fi
}
