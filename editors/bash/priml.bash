# Completion of `priml` and `lens` for bash: source this file.

_priml_commands="check serial graph report plan judge run trace sample"

_priml() {
  COMPREPLY=()
  if [ "$COMP_CWORD" = 1 ]; then
    mapfile -t COMPREPLY < <(compgen -W "$_priml_commands --help --version" -- "${COMP_WORDS[1]}")
  fi
}

_lens() {
  local word=${COMP_WORDS[COMP_CWORD]} before=${COMP_WORDS[COMP_CWORD - 1]} command= at
  for ((at = 1; at < COMP_CWORD; at++)); do
    case ${COMP_WORDS[at]} in
      check | report | judge | dot | svg | view | trace | lsp) command=${COMP_WORDS[at]}; break ;;
    esac
  done
  local options="--program --help"
  case $command in
    check) options+=" --json" ;;
    report | judge) options+=" -p -l --csv --json" ;;
    dot) options+=" -l -o" ;;
    svg | view) options+=" -p -l -o" ;;
    trace) options+=" -p --workers -q -l -o" ;;
    lsp) options+=" --stdio" ;;
  esac
  COMPREPLY=()
  case $before in
    -p) mapfile -t COMPREPLY < <(compgen -W "1 2 4 8 1,2,4,8" -- "$word"); return ;;
    --workers) mapfile -t COMPREPLY < <(compgen -W "1 2 4 8 16" -- "$word"); return ;;
    -q) mapfile -t COMPREPLY < <(compgen -W "1 8 64 1000" -- "$word"); return ;;
    -l) mapfile -t COMPREPLY < <(compgen -W "1000 10000 100000" -- "$word"); return ;;
    --program | -o) mapfile -t COMPREPLY < <(compgen -f -- "$word"); return ;;
  esac
  if [ "${word:0:1}" = - ]; then
    mapfile -t COMPREPLY < <(compgen -W "$options" -- "$word")
  elif [ -z "$command" ]; then
    mapfile -t COMPREPLY < <(compgen -W "check report judge dot svg view trace lsp" -- "$word")
  elif [ "$command" != lsp ]; then
    mapfile -t COMPREPLY < <(compgen -f -X '!*.priml' -- "$word"; compgen -d -S / -- "$word")
  fi
}

complete -o default -F _priml priml ./priml
complete -o filenames -F _lens lens ./lens
