# shellcheck shell=bash
# Completes the words of awari in bash: made by completions/make of what the program says in its helps.
# Source this file, or lay it as awari into ~/.local/share/bash-completion/completions.

# by command its options; by command and option, or by command and the place of an argument, what it may be:
# a folder, a number from the first to the second, or one of these words
declare -gA _awari_words=(
  ["help 0"]="check move judge build verify text migrate ask moves line serve rank board plays counts boards"
  ["check"]="-h --help"
  ["move"]="-h --help"
  ["move 0"]="other"
  ["move 1"]="other"
  ["judge"]="-h --help"
  ["judge 0"]="other"
  ["judge 1"]="other"
  ["judge 2"]="other"
  ["build"]="-f --folder --progress --estimate -j --threads -h --help --owners --room --sweeps"
  ["build -f"]="folder"
  ["build --folder"]="folder"
  ["build -j"]="1 64"
  ["build --threads"]="1 64"
  ["build --owners"]="0 16"
  ["build --room"]="other"
  ["build --sweeps"]="other"
  ["build 0"]="0 24"
  ["verify"]="--levels --digest --progress -h --help"
  ["verify --levels"]="other"
  ["verify --digest"]="other"
  ["verify 0"]="folder"
  ["text"]="--boards -h --help"
  ["text 0"]="folder"
  ["text 1"]="0 24"
  ["migrate"]="-h --help"
  ["migrate 0"]="folder"
  ["migrate 1"]="folder"
  ["ask"]="--json --unverified -h --help"
  ["ask 0"]="folder"
  ["ask 1"]="other"
  ["moves"]="--replies --json --unverified -h --help"
  ["moves 0"]="folder"
  ["moves 1"]="other"
  ["line"]="--longest --plies --json --unverified -h --help"
  ["line 0"]="folder"
  ["line 1"]="other"
  ["serve"]="--unverified -h --help"
  ["serve 0"]="folder"
  ["serve 1"]="0 24"
  ["serve 2"]="0 16"
  ["rank"]="-h --help"
  ["rank 0"]="other"
  ["board"]="-h --help"
  ["board 0"]="0 24"
  ["board 1"]="other"
  ["plays"]="-h --help"
  ["plays 0"]="other"
  ["plays 1"]="other"
  ["counts"]="--by --csv --json --unverified -h --help"
  ["counts --by"]="other"
  ["counts 0"]="folder"
  ["counts 1"]="0 24"
  ["boards"]="--value --distance --plan --captures --greedy --side --moves --keep --trap --other --waits --ended --open --farthest --every --random --seed --sort --most --with-moves --with-keep --with-greedy --with-trap --with-other --with-waits --count --csv --json --unverified -h --help"
  ["boards --value"]="other"
  ["boards --distance"]="other"
  ["boards --plan"]="other"
  ["boards --captures"]="other"
  ["boards --greedy"]="other"
  ["boards --side"]="other"
  ["boards --moves"]="other"
  ["boards --keep"]="other"
  ["boards --trap"]="other"
  ["boards --other"]="other"
  ["boards --every"]="other"
  ["boards --random"]="other"
  ["boards --seed"]="other"
  ["boards --sort"]="other"
  ["boards --most"]="other"
  ["boards 0"]="folder"
  ["boards 1"]="0 24"
)

# the place of the argument that is typed: how many stand behind the command already
_awari_place() {
  local at place=0
  for ((at = 2; at < COMP_CWORD; at++)); do
    case ${COMP_WORDS[at]} in
      -*) [ -z "${_awari_words[${COMP_WORDS[1]} ${COMP_WORDS[at]}]:-}" ] || at=$((at + 1)) ;;
      *) place=$((place + 1)) ;;
    esac
  done
  echo "$place"
}

# prints what the word may be, if it begins as it is typed
_awari_candidates() {
  local what=$1 typed=$2
  case $what in
    folder) compgen -d -- "$typed" ;;
    [0-9]*) compgen -W "$(seq "${what% *}" "${what#* }")" -- "$typed" ;;
    other) ;;
    *) compgen -W "$what" -- "$typed" ;;
  esac
}

_awari() {
  local typed=${COMP_WORDS[COMP_CWORD]} command=${COMP_WORDS[1]:-} what
  if [ "$COMP_CWORD" -eq 1 ]; then
    what="check move judge build verify text migrate ask moves line serve rank board plays counts boards help -h --help -V --version"
  else
    what=${_awari_words[$command ${COMP_WORDS[COMP_CWORD - 1]}]:-}
    [ -n "$what" ] || case $typed in
      -*) what=${_awari_words[$command]:-other} ;;
      *) what=${_awari_words[$command $(_awari_place)]:-other} ;;
    esac
  fi
  mapfile -t COMPREPLY < <(_awari_candidates "$what" "$typed")
}

complete -o filenames -F _awari awari ./awari
