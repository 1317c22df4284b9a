# Completion for bash: modes, options, models.
_alloyc() {
  local word=${COMP_WORDS[COMP_CWORD]} before=${COMP_WORDS[COMP_CWORD-1]}
  case $before in
    --part) mapfile -t COMPREPLY < <(compgen -W "answer cnf proof all" -- "$word"); return ;;
    --chooser) mapfile -t COMPREPLY < <(compgen -W "0 1" -- "$word"); return ;;
    --command | --conflicts | --expr | --at) return ;;
  esac
  if [ "$COMP_CWORD" -eq 1 ]; then
    mapfile -t COMPREPLY < <(compgen -W "exec least core replay eval lrat commands make" -- "$word")
  elif [[ $word == -* ]]; then
    mapfile -t COMPREPLY < <(compgen -W "--command --conflicts --part --chooser --expr --at" -- "$word")
  elif [ "$COMP_CWORD" -eq 2 ] && [[ ${COMP_WORDS[1]} != lrat && ${COMP_WORDS[1]} != make ]]; then
    mapfile -t COMPREPLY < <(compgen -f -X '!*.als' -- "$word"; compgen -d -S / -- "$word")
    compopt -o nospace 2>/dev/null
  else
    mapfile -t COMPREPLY < <(compgen -f -- "$word")
  fi
}
complete -o filenames -F _alloyc alloyc
