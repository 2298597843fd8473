# Completions of serdimko-live for bash: its own options, the commands, and from the command on the completions of serdimko.
# tests/man_page.sh runs it, and compares it with scripts/live.

declare -F _serdimko > /dev/null || . "${BASH_SOURCE[0]%-live}"

_serdimko_live() {
  local cur=${COMP_WORDS[COMP_CWORD]} values=AbBCdDefHIklLmNoOpPRStTUyz value= place word
  [[ " ${COMP_WORDS[*]} " != *' --freeipmi '* ]] || values=aDFhIklpuW

  # The options of the tool end before a command that is no value of an option, or with --.
  for ((place = 1; place < COMP_CWORD; place++)); do
    word=${COMP_WORDS[place]}
    if [[ $value ]]; then
      value=
    elif [[ $word == -- || $word == @(sdr|sensor|sel|fru|check|metrics|capture|image|help) ]]; then
      [[ $word == -- ]] || ((place--))
      COMP_WORDS=(serdimko "${COMP_WORDS[@]:place + 1}")
      ((COMP_CWORD -= place))
      _serdimko
      return
    elif [[ $word == --deadline || $word == -*([!-$values])[$values] ]]; then
      value=$word
    fi
  done

  COMPREPLY=()
  if [[ $value == --deadline ]]; then
    return
  elif [[ $value ]]; then
    compopt -o default
  elif [[ $cur == -* ]]; then
    COMPREPLY=($(compgen -W '--ipmitool --freeipmi --deadline --help' -- "$cur"))
  else
    COMPREPLY=($(compgen -W 'fru sdr sensor sel check metrics capture help' -- "$cur"))
  fi
}

complete -F _serdimko_live serdimko-live
