# Completion of the commands of ept-tool in bash.

_ept_files() { # WORD SUFFIX: folders, and files whose names end in the suffix
  local IFS=$'\n'
  compopt -o filenames 2>/dev/null
  COMPREPLY=($(compgen -d -- "$1"; compgen -f -X "!*.$2" -- "$1"))
}

_ept_folders() {
  local IFS=$'\n'
  compopt -o filenames 2>/dev/null
  COMPREPLY=($(compgen -d -- "$1"))
}

_ept_tool() {
  local word=${COMP_WORDS[COMP_CWORD]}
  case $COMP_CWORD:${COMP_WORDS[1]} in
    1:*) COMPREPLY=($(compgen -W "@COMMANDS@" -- "$word")) ;;
    2:build | 2:part | 2:merge) _ept_files "$word" json ;;
    3:build | 3:part | 3:merge | 2:query | 2:select | 2:check) _ept_folders "$word" ;;
    2:info) _ept_files "$word" las ;;
    4:part | [456789]:merge | 1[01]:merge) COMPREPLY=($(compgen -W "0 1 2 3 4 5 6 7" -- "$word")) ;;
    4:query | 4:select) COMPREPLY=($(compgen -W "0,32" -- "$word")) ;;
    [567]:select) COMPREPLY=($(compgen -W "-" -- "$word")) ;;
    *) COMPREPLY=() ;;
  esac
}

_ept_server() {
  local word=${COMP_WORDS[COMP_CWORD]}
  case $word in
    -*) COMPREPLY=($(compgen -W "--single --connections" -- "$word")) ;;
    *) _ept_folders "$word" ;;
  esac
}

_ept_configure() {
  local word=${COMP_WORDS[COMP_CWORD]}
  case ${COMP_WORDS[COMP_CWORD - 1]} in
    --check | --add) _ept_files "$word" json; return ;;
    --scale) COMPREPLY=($(compgen -W "0 1 2 3 4 5 6 7 8 9" -- "$word")); return ;;
  esac
  case $word in
    -*) COMPREPLY=($(compgen -W "@OPTIONS@" -- "$word")) ;;
    *) _ept_files "$word" las ;;
  esac
}

_ept_view() {
  if [ "$COMP_CWORD" = 1 ]; then _ept_folders "${COMP_WORDS[1]}"; else _ept_files "${COMP_WORDS[COMP_CWORD]}" html; fi
}

_ept_points() {
  if [ "$COMP_CWORD" = 1 ]; then
    _ept_folders "${COMP_WORDS[1]}"
  else
    COMPREPLY=($(compgen -W "las csv svg" -- "${COMP_WORDS[COMP_CWORD]}"))
  fi
}

_ept_alias() {
  local word=${COMP_WORDS[COMP_CWORD]}
  case ${COMP_WORDS[COMP_CWORD - 1]}:$word in
    --for:*) COMPREPLY=($(compgen -W "pdal-2 qgis" -- "$word")) ;;
    *:-*) COMPREPLY=($(compgen -W "--for" -- "$word")) ;;
    *) _ept_folders "$word" ;;
  esac
}

complete -F _ept_tool ept_tool
complete -F _ept_server ept_server
complete -F _ept_configure ept-configure
complete -F _ept_view ept-view
complete -F _ept_points ept-points
complete -F _ept_alias ept-alias
