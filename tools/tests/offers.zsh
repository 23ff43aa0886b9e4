# What zsh offers at the end of each LINE, as on a terminal, one to a line and a line '.' after them: zsh -f tools/tests/offers.zsh LINE..
# A second zsh has a pseudo-terminal, and tells what its completion adds instead of adding it.
zmodload zsh/zpty || exit
offers=$(mktemp) || exit
trap 'zpty -d shell; rm -f $offers' EXIT
# (zsh runs that if it exits, and not if a signal ends it)
trap 'exit 130' INT
trap 'exit 143' TERM
zpty shell zsh -f -i

# says TEXT: the second zsh gets this, and has it all.
says() {
  local shown
  zpty -w -n shell "$1"
  while zpty -r -t shell shown; do :; done
}

says "PS1= fpath=(${(q)PWD}/docs/completions \$fpath) offers=${(q)offers}"$'\n'
says 'autoload -Uz compinit && compinit -u -D
compadd() {
  local -a added
  [[ ${@[1,(i)(-|--)]} == *-(O|A|D)\ * ]] && { builtin compadd "$@"; return }
  builtin compadd -A added "$@"
  (( $#added )) && print -rl -- $added >>$offers
}
offer() { _main_complete; compstate[insert]= compstate[list]=; print . >>$offers }
zle -C offer complete-word offer; bindkey "^I" offer
'
for line; do
  says $'\C-u'"$line"$'\t'
  (( wanted++ ))
  for (( i = 0; i < 1000; i++ )); do
    [[ $(grep -cx '\.' $offers) -ge wanted ]] && break
    sleep 0.01
    says ''
  done
done
cat $offers
[[ $(grep -cx '\.' $offers) == $# ]]
