# Completions of isolationtester, timeline and outcomes for bash.
_isolationtester() {
  local word=${COMP_WORDS[COMP_CWORD]}
  if [[ ${COMP_WORDS[COMP_CWORD - 1]} == --limit ]]; then return; fi
  mapfile -t COMPREPLY < <(compgen -W "--list --free --limit --help" -- "$word")
}
_outcomes() {
  local word=${COMP_WORDS[COMP_CWORD]}
  if [[ ${COMP_WORDS[COMP_CWORD - 1]} == --limit ]]; then return; fi
  mapfile -t COMPREPLY < <(compgen -W "--html --serial --limit --help" -- "$word")
}
_timeline() {
  local word=${COMP_WORDS[COMP_CWORD]}
  if [[ $word == -* ]]; then
    mapfile -t COMPREPLY < <(compgen -W "--svg --split --help" -- "$word")
  else
    mapfile -t COMPREPLY < <(compgen -f -X '!*.spec' -- "$word"; compgen -d -- "$word")
  fi
}
complete -F _isolationtester isolationtester
complete -F _outcomes outcomes
complete -o filenames -F _timeline timeline
