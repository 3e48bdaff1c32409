# Completes the words of isofarm in bash. Load it by: source isofarm.bash
_isofarm() {
  local word=${COMP_WORDS[COMP_CWORD]} words=""
  COMPREPLY=()
  if [ "$COMP_CWORD" = 1 ]; then
    COMPREPLY=($(compgen -W "check one count rank order show classes run join missing holds report audit judge test help -h --help -V --version" -- "$word"))
    return
  fi
  case ${COMP_WORDS[1]} in
    check) words="-h --help" ;;
    one) words="-h --help" ;;
    count) words="-h --help" ;;
    rank) words="-h --help" ;;
    order) words="-h --help" ;;
    show) words="--json --level -h --help" ;;
    classes) words="--all-orders --level --levels --book --waits --no-waits --deadlock --no-deadlock --error --no-error --stuck --no-stuck --anomaly --no-anomaly --not-sent --no-not-sent --by-result --expect --query --final-rows --outcomes --ranks --brief --json --html --progress --memory --sample --seed -h --help" ;;
    run) words="--every --workers --progress -h --help" ;;
    join) words="-h --help" ;;
    missing) words="--lines -h --help" ;;
    holds) words="-h --help" ;;
    report) words="-h --help" ;;
    audit) words="-h --help" ;;
    judge) words="--show -h --help" ;;
    test) words="--update --junit --workers --level -h --help" ;;
    help) COMPREPLY=($(compgen -W "check one count rank order show classes run join missing holds report audit judge test" -- "$word")); return ;;
  esac
  # What is no flag is completed as a path.
  case $word in -*) COMPREPLY=($(compgen -W "$words" -- "$word")) ;; esac
}
complete -o default -F _isofarm isofarm
