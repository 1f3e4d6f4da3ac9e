# bash completion for ppdb-tools; loaded by bash-completion as completions/ppdb-tools
_ppdb_tools() {
  local now=${COMP_WORDS[COMP_CWORD]} before=${COMP_WORDS[COMP_CWORD - 1]} names options=
  names="check diff stats sources extract stacktrace frames store page repair stack-maps map check-map"
  COMPREPLY=()
  if [ "$COMP_CWORD" = 1 ]; then
    mapfile -t COMPREPLY < <(compgen -W "$names help --help --version" -- "$now")
    return
  fi
  case $before in
  --format) mapfile -t COMPREPLY < <(compgen -W "text json sarif annotations lines" -- "$now") && return ;;
  --sort) mapfile -t COMPREPLY < <(compgen -W "bytes count name" -- "$now") && return ;;
  --source | --extract) compopt -o dirnames 2>/dev/null && return ;;
  --jobs | --explain) return ;;
  esac
  case ${COMP_WORDS[1]} in
  help) mapfile -t COMPREPLY < <(compgen -W "$names" -- "$now") && return ;;
  check) options="--source --format-only --format --allow --jobs" ;;
  diff) options="--assemblies --ignore-moved --json" ;;
  stats) options="--sort --json" ;;
  sources) options="--source --check --urls --extract --json" ;;
  extract) options="--any-id" ;;
  stacktrace) options="--why" ;;
  frames) options="--json" ;;
  store) options="--link --copy --both-spellings" ;;
  page) options="--map --source --assembly" ;;
  repair) options="--row" ;;
  stack-maps) options="--rename --names" ;;
  map) options="--into --output --explain" ;;
  check-map) options="--with" ;;
  esac
  case $now in
  -*) mapfile -t COMPREPLY < <(compgen -W "$options --help" -- "$now") ;;
  *) compopt -o default 2>/dev/null ;;
  esac
}
complete -F _ppdb_tools ppdb-tools
