# Completions of serdimko for bash: the words of commands, kinds, options, and file names after --image.
# tests/man_page.sh compares the options and the table of words with README.md.
# It calls no function of the package bash-completion, so that a shell may also read it by itself.

_serdimko() {
  local options='--image --live --records --from --part --tries --id --type --entity --exclude --since --until --now --worse --cursor-file --strict --json --csv --separator --label --output --partial --quiet --perfdata --openmetrics --help --version -h -V'
  local cur=${COMP_WORDS[COMP_CWORD]} word value= plain= line= next=

  # What comes before the word: the option whose value it is, whether -- came, and the words without options.
  for word in "${COMP_WORDS[@]:1:COMP_CWORD-1}"; do
    if [[ $value ]]; then
      # readline cuts --image=FILE at its =, so that = is a word here.
      [[ $word == = ]] || value=
    elif [[ ! $plain && $word == -- ]]; then
      plain=yes
    elif [[ ! $plain && $word == -?* ]]; then
      # An option comes at most once, but --image, --label and --exclude.
      options=" $options "
      [[ $word == --image* || $word == --label* || $word == --exclude* ]] || options=${options/ "${word%%=*}" / }
      case $word in --image | --live | --records | --output | --cursor-file | --from | --part | --tries | --id | --type | --entity | --exclude | --since | --until | --now | --worse | --separator | --label) value=$word ;; esac
    else
      line+="${line:+ }$word"
    fi
  done

  COMPREPLY=()
  if [[ $value == --image || $value == --records || $value == --output || $value == --cursor-file ]]; then
    # With no reply of its own bash completes file names, with their quotes.
    compopt -o default
    return
  fi
  [[ $value == --worse ]] && COMPREPLY=($(compgen -W 'warning critical' -- "$cur"))
  [[ $value ]] && return
  if [[ ! $plain && $cur == -* ]]; then
    COMPREPLY=($(compgen -W "$options" -- "$cur"))
    return
  fi

  # What may follow the words before. Names and numbers are not completed.
  case $line in
    '') next='fru sdr sensor sel check metrics capture image help' ;;
    'fru') next='print list' ;;
    'sdr') next='list elist type entity get info hex' ;;
    'sdr list') next='all full compact event generic mclocator fru' ;;
    'sdr elist') next='all full compact event generic mclocator fru' ;;
    'sensor') next='list get' ;;
    'sel') next='info list elist tail get' ;;
    'sel list') next='first last' ;;
    'sel elist') next='first last' ;;
    'image') next='rewrite' ;;
    'help') next='fru sdr sensor sel check metrics capture image' ;;
  esac
  COMPREPLY=($(compgen -W "$next" -- "$cur"))
}

complete -F _serdimko serdimko
