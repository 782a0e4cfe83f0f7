# Completions of perkeep for bash, made from docs/commands.md, docs/guide.md and docs/search.md by install/make.py.

# The positions and options of a command.
_perkeep_words() {
  positions=() options=()
  case $1 in
    put) positions=(DIR) options=() ;;
    get) positions=(DIR REF) options=() ;;
    stat) positions=(DIR REF) options=() ;;
    list) positions=(DIR) options=(--after --limit) ;;
    search) positions=(DIR) options=(--attr --value --at) ;;
    words) positions=(DIR TEXT) options=(--at) ;;
    query) positions=(DIR) options=() ;;
    salvage) positions=(DIR) options=() ;;
    search-pack) positions=(A V) options=() ;;
    permanode) positions=(DIR) options=(--key) ;;
    claim) positions=(DIR KIND REF ATTR VALUE) options=(--key) ;;
    multi) positions=(DIR) options=(--key) ;;
    delete) positions=(DIR REF) options=(--key) ;;
    get-file) positions=(DIR REF) options=() ;;
    put-file) positions=(DIR NAME) options=() ;;
    push) positions=(DIR ADDR) options=() ;;
    pull) positions=(DIR ADDR) options=() ;;
    mirror) positions=(DIR ADDR..) options=() ;;
    load) positions=(COUNT START) options=() ;;
    serve) positions=(DIR) options=(--port --workers --indexers --connections) ;;
    serve-shares) positions=(DIR) options=(--port --connections) ;;
  esac
}

# Offers the words that begin with the one being typed.
_perkeep_offer() {
  mapfile -t COMPREPLY < <(compgen "$@" -- "$word")
}

_perkeep() {
  local words=() word name place count=0 is_over='' given=' ' folder='' option='' positions options
  COMPREPLY=()
  _perkeep_join
  word=${words[-1]} name=${words[0]}
  if [ "${#words[@]}" -eq 1 ]; then
    _perkeep_offer -W 'put get stat list search words query salvage search-pack permanode claim multi delete get-file put-file push pull mirror load serve serve-shares'
    return
  fi
  _perkeep_words "$name"
  for ((place = 1; place < ${#words[@]} - 1; place++)); do
    if [ -z "$is_over" ] && [ "${words[place]}" = -- ]; then
      is_over=1
    elif [ -z "$is_over" ] && [[ ${words[place]} == --* ]]; then
      option=${words[place]}
      given+="$option "
      # Its value comes next. A `=` before it is a word of its own here, even before a value that is yet to be typed.
      [ "${words[place + 1]}" != = ] || [ $((place + 2)) -eq "${#words[@]}" ] || place=$((place + 1))
      place=$((place + 1))
    else
      [ "${positions[count]:-}" != DIR ] || folder=${words[place]}
      count=$((count + 1))
    fi
  done
  if [ "$place" -eq "${#words[@]}" ]; then
    # The value of an option. It may be anything, except that of --key.
    word=${word#=}
    [ "$option" != --key ] || _perkeep_keys
    return
  fi
  # The last position may come several times.
  [[ $count -lt ${#positions[@]} || ${positions[*]} != *.. ]] || count=$((${#positions[@]} - 1))
  case $is_over$word in
    -*) _perkeep_options ;;
    *) _perkeep_position "${positions[count]:-}" ;;
  esac
}

# The words up to the one being typed. Bash may take colons for words of their own; here they are parts of words.
_perkeep_join() {
  local place last=''
  for ((place = 1; place <= COMP_CWORD; place++)); do
    if [ "${#words[@]}" -gt 1 ] && [[ ${COMP_WORDS[place]} == : || $last == *: ]]; then
      words[-1]+=${COMP_WORDS[place]}
    else
      words+=("${COMP_WORDS[place]}")
    fi
    last=${COMP_WORDS[place]}
  done
}

# Offers the values of a position, and the options if those aren't known.
_perkeep_position() {
  case $1 in
    DIR)
      compopt -o filenames 2>/dev/null
      _perkeep_offer -d
      ;;
    NAME)
      compopt -o filenames 2>/dev/null
      _perkeep_offer -f
      ;;
    ADDR | ADDR..) _perkeep_addresses ;;
    KIND) _perkeep_offer -W 'set add del' ;;
    *) _perkeep_options ;;
  esac
}

# Offers the names of the keys of the folder that was typed before.
_perkeep_keys() {
  folder=${folder//\\/}
  _perkeep_offer -W "$(cut -d ' ' -f 1 "${folder/#\~\//$HOME/}/keyring" 2>/dev/null)"
}

# Offers the ports of 127.0.0.1 at which some program listens: servers, and tunnels to them.
_perkeep_addresses() {
  local local state addresses=''
  while read -r _ local _ state _; do
    [[ $local != 0100007F:* || $state != 0A ]] || addresses+=" 127.0.0.1:$((16#${local#*:}))"
  done 2>/dev/null </proc/net/tcp
  _perkeep_offer -W "$addresses"
  # If bash takes colons for words, the text before the last one stays.
  [[ $word != *:* || $COMP_WORDBREAKS != *:* ]] || COMPREPLY=("${COMPREPLY[@]#"${word%:*}:"}")
}

# Offers the options that aren't there yet. There are none after a word `--`.
_perkeep_options() {
  local option left=()
  for option in "${options[@]}"; do
    [[ $given == *" $option "* ]] || left+=("$option")
  done
  [ -n "$is_over" ] || _perkeep_offer -W "${left[*]}"
}

complete -F _perkeep perkeep
