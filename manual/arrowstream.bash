# bash completion for arrowstream
_arrowstream() {
  local words current=${COMP_WORDS[COMP_CWORD]}
  local previous=${COMP_WORDS[COMP_CWORD - 1]}
  # bash takes --option=value for three words.
  [ "$previous" != = ] || previous=${COMP_WORDS[COMP_CWORD - 2]}
  [ "$current" != = ] || current=
  COMPREPLY=()
  case "${COMP_WORDS[1]} $previous" in
    "check --expect"|"show --expect"|"to-csv --expect"|"from-csv --schema"|"rewrite --expect") compopt -o filenames
      mapfile -t COMPREPLY < <(compgen -f -- "$current")
      return ;;
    *" --batch"|*" --batch-bytes"|*" --delimiter"|*" --label"|*" --limit"|*" --max-batches"|*" --max-body"|*" --max-depth"|*" --max-fields"|*" --max-held"|*" --max-metadata"|*" --max-output-body"|*" --max-pairs"|*" --max-rows"|*" --max-text"|*" --max-total-bytes"|*" --max-total-rows"|*" --null") return ;;
  esac
  case "${COMP_WORDS[1]}" in
    check) words='--schema --max-metadata --max-body --max-rows --max-held --max-fields --max-depth --max-text --max-pairs --expect --require-mark --require-eof --explain --label --summary --progress --help' ;;
    show) words='--objects --pairs --limit --max-metadata --max-body --max-rows --max-held --max-fields --max-depth --max-text --max-pairs --expect --require-mark --require-eof --explain --label --summary --progress --help' ;;
    to-csv) words='--delimiter --null --limit --max-metadata --max-body --max-rows --max-held --max-fields --max-depth --max-text --max-pairs --expect --require-mark --require-eof --explain --label --summary --progress --help' ;;
    from-csv) words='--schema --batch --batch-bytes --delimiter --null --strict --explain --label --summary --help' ;;
    rewrite) words='--max-output-body --max-batches --max-total-rows --max-total-bytes --max-metadata --max-body --max-rows --max-held --max-fields --max-depth --max-text --max-pairs --expect --require-mark --require-eof --explain --label --summary --progress --help' ;;
    help) words='check show to-csv from-csv rewrite' ;;
  esac
  [ "$COMP_CWORD" -gt 1 ] || words='check show to-csv from-csv rewrite help --help --version'
  mapfile -t COMPREPLY < <(compgen -W "$words" -- "$current")
}
complete -F _arrowstream arrowstream
