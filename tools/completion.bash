# Completes the words of `reggio` in bash. Read it by `.`, or put it as `reggio` into bash-completion's folder.
_reggio() {
  local word=${COMP_WORDS[COMP_CWORD]} before=${COMP_WORDS[COMP_CWORD - 1]}
  COMPREPLY=()
  case $COMP_CWORD in
    1) mapfile -t COMPREPLY < <(compgen -W 'run slide plain check fmt code pack exec when bulk' -- "$word") ;;
    2)
      case $before in
        bulk) mapfile -t COMPREPLY < <(compgen -W '1000 10000 100000' -- "$word") ;;
        exec)
          compopt -o filenames
          mapfile -t COMPREPLY < <(compgen -f -- "$word")
          ;;
        *)
          compopt -o filenames
          mapfile -t COMPREPLY < <(compgen -f -X '!*.rg' -- "$word"; compgen -d -- "$word")
          ;;
      esac
      ;;
    *)
      case ${COMP_WORDS[1]},$before in
        when,*)
          case $COMP_CWORD in
            3)
              compopt -o filenames
              mapfile -t COMPREPLY < <(compgen -f -- "$word")
              ;;
            4) mapfile -t COMPREPLY < <(compgen -W '--keep' -- "$word") ;;
          esac
          ;;
        *,--steps) mapfile -t COMPREPLY < <(compgen -W '1000 1000000 1000000000' -- "$word") ;;
        run,--every | slide,--every | exec,--every) mapfile -t COMPREPLY < <(compgen -W '0 1 100 1000' -- "$word") ;;
        run,* | slide,* | exec,* | plain,*)
          local option left='--steps'
          [ "${COMP_WORDS[1]}" != plain ] && left='--steps --every --report'
          for option in $left; do
            case " ${COMP_WORDS[*]:0:COMP_CWORD} " in *" $option "*) left=${left/$option/} ;; esac
          done
          mapfile -t COMPREPLY < <(compgen -W "$left" -- "$word")
          ;;
      esac
      ;;
  esac
}
complete -F _reggio reggio ./reggio
