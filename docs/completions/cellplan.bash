# Completions of cellplan for bash: source this file, or lay it into the folder of bash-completion as `cellplan`.
# tests/sources/command-words --write writes it.
_cellplan() {
  local word=${COMP_WORDS[COMP_CWORD]} before=${COMP_WORDS[COMP_CWORD - 1]} command=${COMP_WORDS[1]} options
  COMPREPLY=()
  if [ "$COMP_CWORD" -eq 1 ]; then
    mapfile -t COMPREPLY < <(compgen -W 'facts shape check explain schedule bounds margin plan improve decide revise drive resume hub digest audit state gantt --help --version' -- "$word")
    return
  fi
  case $before in
    --lines) mapfile -t COMPREPLY < <(compgen -W '1 2' -- "$word"); return ;;
    --instance | --at | --job | --rounds | --seed | --choices | --until | --add | --release | --budget | --name | --route | --scrap | --down | --leap) return ;;
  esac
  case $command in
    facts | shape | digest | audit) options='--instance --help' ;;
    check) options='--instance --after --at --help' ;;
    explain) options='--instance --after --at --job --names --help' ;;
    schedule) options='--instance --after --at --svg --moves --names --help' ;;
    bounds | margin) options='--instance --names --help' ;;
    plan) options='--instance --rounds --help' ;;
    improve) options='--instance --after --at --rounds --seed --help' ;;
    decide) options='--instance --after --at --least --job --choices --names --help' ;;
    revise) options='--instance --at --until --add --release --budget --name --route --scrap --down --file --all --forget --names --hand-over --help' ;;
    drive) options='--instance --log --new --continue --hand-over --at --lines --leap --help' ;;
    resume) options='--instance --at --lines --leap --help' ;;
    hub) options='--instance --lines --leap --help' ;;
    state) options='--instance --at --names --help' ;;
    gantt) options='--instance --svg --names --help' ;;
    *) return ;;
  esac
  case $word in
    -*) mapfile -t COMPREPLY < <(compgen -W "$options" -- "$word") ;;
    *) mapfile -t COMPREPLY < <(compgen -f -- "$word") ;;
  esac
}
complete -o filenames -F _cellplan cellplan
