# Completion of zebraidx for bash: options, commands, and files where a path stands.
_zebraidx() {
  local word=${COMP_WORDS[COMP_CWORD]} before=${COMP_WORDS[COMP_CWORD - 1]} command='' place
  for ((place = 1; place < COMP_CWORD; place++)); do
    case ${COMP_WORDS[place]} in
      -c | -d) place=$((place + 1)) ;;
      -*) ;;
      *) command=${COMP_WORDS[place]}; break ;;
    esac
  done
  case $command:$before in
    :-c) mapfile -t COMPREPLY < <(compgen -f -- "$word") ;;
    :-d) COMPREPLY=() ;;
    :*) mapfile -t COMPREPLY < <(compgen -W "-c -d -s --help --version init create drop update delete adelete stat dump check reindex upgrade find scan batch shell" -- "$word") ;;
    update:* | delete:* | adelete:*) mapfile -t COMPREPLY < <(compgen -f -- "$word") ;;
    init:* | upgrade:*) mapfile -t COMPREPLY < <(compgen -W "--leaves" -- "$word") ;;
    find:*) mapfile -t COMPREPLY < <(compgen -W "--first --count" -- "$word") ;;
    scan:*) mapfile -t COMPREPLY < <(compgen -W "--number --position" -- "$word") ;;
  esac
}
complete -o filenames -F _zebraidx zebraidx
