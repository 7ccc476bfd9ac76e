# completion of regmap for bash: commands, then files and options
_regmap() {
  local word=${COMP_WORDS[COMP_CWORD]} options=
  if [ "$COMP_CWORD" = 1 ]; then
    mapfile -t COMPREPLY < <(compgen -W 'build list get root diff set add unset replay witness range prefix full merge cbor uncbor check ask read dot html log run help --help --version' -- "$word")
    return
  fi
  case ${COMP_WORDS[1]} in
  list | read) options=--json ;;
  check) options='--json -c' ;;
  range) options=--values ;;
  build) options=--capacity ;;
  esac
  case $word in
  -*) mapfile -t COMPREPLY < <(compgen -W "$options" -- "$word") ;;
  *) mapfile -t COMPREPLY < <(compgen -f -- "$word") ;;
  esac
}
complete -o filenames -F _regmap regmap
