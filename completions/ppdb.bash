# Completion of the command ppdb in bash.
_ppdb() {
  local current=${COMP_WORDS[COMP_CWORD]} command=${COMP_WORDS[1]}
  # A name is taken as it is, also where it has blanks or looks like a pattern.
  local - IFS=$'\n'
  set -f
  local commands=$'id\nverify\nshow\nquery\nlookup\nlinks\nbreaks\nrebuild\nremap\nmerge\ncompose\nsample'
  COMPREPLY=()
  case $COMP_CWORD:$command in
    1:*) COMPREPLY=($(compgen -W "$commands"$'\nhelp\n--help\n--version' -- "$current")) ;;
    2:help) COMPREPLY=($(compgen -W "$commands"$'\n'"$(printf '%s\n' F{1..40} M{1..13} L{1..6})" -- "$current")) ;;
    2:id | 2:verify | 2:show | 2:query | 2:lookup | 2:links | 2:breaks | 2:rebuild | 2:remap)
      compopt -o filenames 2>/dev/null
      COMPREPLY=($(compgen -f -X '!*.pdb' -- "$current") $(compgen -d -- "$current"))
      ;;
    3:id | 3:show | 3:links | 4:lookup | 5:query | 5:breaks) COMPREPLY=($(compgen -W '--json' -- "$current")) ;;
    3:lookup | 3:rebuild | [34]:remap | [234]:compose | [234]:merge)
      compopt -o filenames 2>/dev/null
      COMPREPLY=($(compgen -f -- "$current"))
      ;;
    *:rebuild | *:remap | *:merge)
      [ "${COMP_WORDS[COMP_CWORD - 1]}" = --free ] && return
      COMPREPLY=($(compgen -W $'--keep-id\n--free' -- "$current"))
      if [ "$command" = merge ] && [[ $current != -* ]]; then
        compopt -o filenames 2>/dev/null
        COMPREPLY+=($(compgen -f -- "$current"))
      fi
      ;;
  esac
}
complete -F _ppdb ppdb
