# dispatch.bash: what bash completes behind `dispatch`: commands, options, fixed values, and files where one is taken.
_dispatch() {
  local commands='match hours simulate office report explain page audit book serve help'
  local cur=${COMP_WORDS[COMP_CWORD]} line=() options=--help formats='' values=() option='' at=0 word
  # (bash parts `--format=csv` into three words)
  for word in "${COMP_WORDS[@]:1:COMP_CWORD-1}"; do
    [ "$word" = = ] || [ "${#line[@]}$word" = 0--verbose ] || line+=("$word")
  done
  [ "$cur" != = ] || cur=''
  case ${line[0]-} in
    '') options='--help --version --verbose' values=("$commands") ;;
    match) ;;
    hours) ;;
    simulate) options+=' --trace --strict' ;;
    office) options+=' --book --point --clock --wait --strict' values=('I M') ;;
    report)
      options+=' --format --day --portfolio --book --point' formats='text csv json'
      values=('open confirmed refused schedule cut changes' 'I M')
      ;;
    explain) options+=' --format --book --point' formats='text json' values=('I M' '' '' 'IM MI') ;;
    page) options+=' --book --point' values=('I M') ;;
    audit) options+=' --format --initiating --matching --point' formats='text json' ;;
    book) options+=' --expect' values=(FILE) ;;
    serve) options+=' --sessions --books --wait --old --dry-run --strict' ;;
    help) values=("$commands") ;;
    *) options='' ;;
  esac
  # What stands before this word: so many others, and perhaps an option that wants a value.
  for word in "${line[@]:1}"; do
    if [ -n "$option" ]; then
      option=''
    else
      case $word in
        -h | --help | --trace | --clock | --old | --dry-run | --strict) ;;
        --*) option=$word ;;
        *) at=$((at + 1)) ;;
      esac
    fi
  done
  local wanted=${values[at]-} kind=-W
  case $option:$cur in
    --format:*) wanted=$formats ;;
    --book:* | --initiating:* | --matching:*) wanted=FILE ;;
    --books:*) wanted=FOLDER ;;
    --*:*) wanted='' ;;
    :-*) wanted=$options ;;
  esac
  [[ ${COMP_WORDS[COMP_CWORD - 1]} != [\<\>]* ]] || wanted=FILE
  case $wanted in
    FILE) kind=-f ;;
    FOLDER) kind=-d ;;
  esac
  if [ "$kind" = -W ]; then
    mapfile -t COMPREPLY < <(compgen -W "$wanted" -- "$cur")
  else
    compopt -o filenames 2>/dev/null
    mapfile -t COMPREPLY < <(compgen "$kind" -- "$cur")
  fi
}
complete -F _dispatch dispatch
