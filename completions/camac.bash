# Completion of camac and of the other commands for bash.

# Sets `words`, the words of the line up to the one that is completed: bash also cuts a word before `@`, though no blank is there.
_camac_words() {
  local line=$COMP_LINE word after i
  words=()
  for ((i = 0; i <= COMP_CWORD; i++)); do
    word=${COMP_WORDS[i]}
    after=${line#"${line%%[![:blank:]]*}"}
    if ((i == 0)) || [[ $after != "$line" || -z $word ]]; then
      words+=("$word")
    else
      words[-1]+=$word
    fi
    line=${after#"$word"}
  done
}

_camac() {
  local words word place offered=
  _camac_words
  word=${words[-1]} place=$((${#words[@]} - 2))
  COMPREPLY=()
  case $place:${words[1]-} in
  0:*) offered='plan check explain bounds costs tell response run drive events help --help --version -h -V' ;;
  1:help) offered='plan check explain bounds costs tell response run drive events help' ;;
  *:help) ;;
  [1-4]:plan)
    case $word in
    -*) offered='--commands --help -h' ;;
    *) _camac_file "${words[1]}:$place" "$word" && return ;;
    esac
    ;;
  [1-9]:response)
    case $word:${words[-2]} in
    -*) offered='--every --within --help -h' ;;
    *:--every | *:--within) ;;
    *) _camac_file "${words[1]}:$place" "$word" && return ;;
    esac
    ;;
  [1-9]:explain)
    case $word:${words[-2]} in
    -*) offered='--at --turn --bounds --help -h' ;;
    *:--at | *:--turn) ;;
    *) _camac_file "${words[1]}:$place" "$word" && return ;;
    esac
    ;;
  [1-4]:check | [1-4]:bounds | [1-4]:costs | [1-4]:tell | [1-4]:run | [1-4]:drive | [1-4]:events)
    case $word in
    -*) offered='--help -h' ;;
    *) _camac_file "${words[1]}:$place" "$word" && return ;;
    esac
    ;;
  esac
  mapfile -t COMPREPLY < <(compgen -W "$offered" -- "$word")
}

# Offers files, and the words that may be at this place of the command.
_camac_file() {
  local offered=
  case $1 in
  plan:1 | check:1 | explain:1 | bounds:1 | costs:1 | tell:1 | response:1 | run:1) offered='@sample @in' ;;
  check:2 | explain:2 | bounds:2 | costs:2 | tell:2 | response:2 | run:[23] | events:1) offered='@in' ;;
  drive:1) offered='@sample' ;;
  drive:[23] | run:4) ;;
  *) return ;;
  esac
  mapfile -t COMPREPLY < <(compgen -W "$offered" -- "$2")
  [[ $2 == @* ]] && return
  compopt -o filenames 2>/dev/null
  mapfile -t -O "${#COMPREPLY[@]}" COMPREPLY < <(compgen -f -- "$2")
}

complete -F _camac camac

_camac_commands() {
  local word=${COMP_WORDS[COMP_CWORD]} command=${COMP_WORDS[0]##*/} options= offered=@sample at
  COMPREPLY=()
  case $command:${COMP_WORDS[COMP_CWORD - 1]} in
  camac-check:--format)
    mapfile -t COMPREPLY < <(compgen -W 'text json github sarif' -- "$word")
    return
    ;;
  esac
  case $command in
  camac-check) options='--help --format --json --keeps --strict --version --write -h' ;;
  camac-fmt) options='--check --help -h' offered= ;;
  camac-report) options='--bins --every --gate --help --out --over --overwrite --pair --region --survey --words --write-record -h -o' ;;
  camac-survey) options='--also --driver --driver-test --empty --help --keep --only --out --overwrite --wiring -h -o' ;;
  esac
  case $word in
  -*)
    mapfile -t COMPREPLY < <(compgen -W "$options" -- "$word")
    return
    ;;
  esac
  # The plan is the first word that is no option.
  for ((at = 1; at < COMP_CWORD; at++)); do
    case ${COMP_WORDS[at]} in
    --format) ((at++)) ;;
    -*) ;;
    *) break ;;
    esac
  done
  ((at == COMP_CWORD)) || offered=
  [ "$command:${COMP_WORDS[COMP_CWORD - 1]}" = camac-survey:--driver ] && offered=mock
  mapfile -t COMPREPLY < <(compgen -W "$offered" -- "$word")
  compopt -o filenames 2>/dev/null
  mapfile -t -O "${#COMPREPLY[@]}" COMPREPLY < <(compgen -f -- "$word")
}

complete -F _camac_commands camac-check camac-fmt camac-report camac-survey
complete -W '--help -h' camac-lsp
