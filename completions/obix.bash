# Completion of obix for bash: commands, options and files.
# Written by `dev/words_check.py --write` from crates/ob_command/src/form.rt: change it there.

_obix() {
  local word=${COMP_WORDS[COMP_CWORD]} names='serve keep compact stdio schedule watch console check record audit super storm' options= operands= kind= before= at=0 plain= i
  COMPREPLY=()
  if [ "$COMP_CWORD" -eq 1 ]; then
    mapfile -t COMPREPLY < <(compgen -W "$names help --help --version" -- "$word")
    return
  fi
  case ${COMP_WORDS[1]} in
    help | --help)
      [ "$COMP_CWORD" -gt 2 ] || mapfile -t COMPREPLY < <(compgen -W "$names" -- "$word")
      return ;;
    serve) options='--workers --quota' operands='file word word' ;;
    keep) options='--workers --quota' operands='file file word word' ;;
    compact) options='' operands='file file file' ;;
    stdio) options='--at --tick' operands='file' ;;
    schedule) options='--at --tick' operands='file file' ;;
    watch) options='--polls --retry' operands='word word word' ;;
    console) options='--polls --ack --user' operands='word word' ;;
    check) options='' operands='file' ;;
    record) options='--at --tick' operands='file' ;;
    audit) options='' operands='file file' ;;
    super) options='--rounds --wait' operands='file' ;;
    storm) options='' operands='word word word' ;;
    *) return ;;
  esac
  # The words between the command and this one: options that were given are not offered again, and operands are counted.
  for ((i = 2; i < COMP_CWORD; i++)); do
    before=${COMP_WORDS[i]}
    if [ -n "$plain" ]; then at=$((at + 1))
    elif [ "$before" = -- ]; then plain=1
    elif [ "$before" = = ]; then i=$((i + 1))
    elif [[ " $options " == *" $before "* ]]; then
      options=" $options " options=${options/" $before "/ }
      if [ "${COMP_WORDS[i + 1]}" = = ]; then i=$((i + 1)); fi
      i=$((i + 1))
      if [ "$i" -ge "$COMP_CWORD" ]; then return; fi   # the word is the option's value
    elif [[ $before != -* ]]; then at=$((at + 1))
    fi
  done
  if [ -z "$plain" ] && [[ $word == -* ]]; then
    mapfile -t COMPREPLY < <(compgen -W "$options --help" -- "$word")
    return
  fi
  for kind in $operands; do
    if [ "$at" -eq 0 ]; then break; fi
    at=$((at - 1)) kind=
  done
  if [ "$kind" = file ]; then
    compopt -o filenames 2>/dev/null   # so that blanks are escaped and folders end with a slash
    mapfile -t COMPREPLY < <(compgen -f -- "$word")
  fi
}
complete -F _obix obix
