# Completions of sfbank for bash.

# The options of a command, or of the program if there is none.
_sfbank_options() {
  case $1 in
    apply) echo --force --neutral --no-undo --explain --help ;;
    check) echo --strict --explain --help ;;
    copy) echo --as --dry-run --force --name --no-comments --script --explain --help ;;
    diff) echo --force --no-comments --explain --help ;;
    map | pack | page | unpack) echo --force --explain --help ;;
    import) echo --channel --dither --force --instrument --key --kit --name --preset --explain --help ;;
    keep) echo --dry-run --force --no-comments --notes --preset --script --zones --explain --help ;;
    live | play) echo --force --report --explain --help ;;
    merge) echo --dry-run --force --no-comments --script --shift --explain --help ;;
    new) echo --force --minor --explain --help ;;
    replace) echo --channel --dither --force --key --explain --help ;;
    script) echo --force --no-comments --no-points --explain --help ;;
    show) echo --zones --uses --explain --help ;;
    take) echo --dry-run --force --no-comments --preset --script --explain --help ;;
    tidy) echo --dry-run --force --merge --no-comments --script --explain --help ;;
    wave) echo --all --force --instrument --pair --explain --help ;;
    canon | explain) echo --explain --help ;;
    '') echo --help --version ;;
  esac
}

# The extensions of the files of a command, in order; - is an argument that is no file, preset/inst one of these words,
# and folder a folder.
_sfbank_endings() {
  case $1 in
    apply) echo sf2 txt sf2 txt ;;
    canon) echo sf2 sf2 ;;
    copy) echo sf2 preset/inst/sample - sf2 txt ;;
    diff) echo sf2 sf2 txt ;;
    explain) echo - ;;
    import) echo sf2 wav sf2 txt ;;
    keep | tidy) echo sf2 sf2 txt ;;
    live) echo sf2 pcm ;;
    map) echo sf2 preset/inst/sample - svg ;;
    merge | take) echo sf2 sf2 sf2 txt ;;
    check | new | show) echo sf2 ;;
    pack) echo folder sf2 ;;
    page) echo sf2 html ;;
    play) echo sf2 txt wav ;;
    replace) echo sf2 - wav sf2 txt ;;
    script) echo sf2 txt ;;
    unpack) echo sf2 folder ;;
    wave) echo sf2 - wav ;;
  esac
}

# Prints the command and then the files before the cursor, without options and their values. The numbers of presets
# are words of their own, around a colon or an equals sign. Only `import` has a name after them.
_sfbank_given() {
  local i option command=
  for ((i = 1; i < COMP_CWORD; i++)); do
    option=${COMP_WORDS[i]}
    case $option in
      --all | --as | --channel | --dither | --instrument | --key | --kit | --minor | --name | --notes | --preset | --script | --shift)
        [ "${COMP_WORDS[i + 1]}" = = ] && ((i++))
        ((i++))
        while [[ ${COMP_WORDS[i + 1]} == [:=] ]]; do ((i += 2)); done
        [[ $command$option == import--preset ]] && ((i++))
        ;;
      -*) ;;
      *)
        command=${command:-$option}
        echo "$option"
        ;;
    esac
  done
}

# Completes a folder or a file with one of some extensions, or any file if there is no such file; or another argument.
_sfbank_files() {
  local ending=$1 word=$2
  if [[ $ending == - ]]; then
    return
  elif [[ $ending == folder ]]; then
    compopt -o filenames 2> /dev/null
    mapfile -t COMPREPLY < <(compgen -d -- "$word")
    return
  elif [[ $ending == */* ]]; then
    mapfile -t COMPREPLY < <(compgen -W "${ending//\// }" -- "$word")
    return
  fi
  compopt -o filenames -o default 2> /dev/null
  mapfile -t COMPREPLY < <(
    for ending in $1; do
      compgen -f -X "!*.$ending" -- "$word"
      compgen -f -X "!*.${ending^^}" -- "$word"
    done
    compgen -d -- "$word"
  )
}

_sfbank() {
  local word=${COMP_WORDS[COMP_CWORD]} before=${COMP_WORDS[COMP_CWORD - 1]}
  local given endings
  local commands="apply canon check copy diff explain help import keep live map merge new pack page play replace script show take tidy unpack wave"
  COMPREPLY=()
  mapfile -t given < <(_sfbank_given)
  read -ra endings < <(_sfbank_endings "${given[0]}")
  if [[ $before == --@(kit|notes|script) || $before == = && ${COMP_WORDS[COMP_CWORD - 2]} == --@(kit|notes|script) ]]; then
    _sfbank_files txt "${word#=}"
  elif [[ $before == --all ]]; then
    mapfile -t COMPREPLY < <(compgen -d -- "$word")
  elif [[ $before == --@(as|channel|dither|instrument|key|minor|name|preset|shift) || $before == [:=] || $word == [:=] ]]; then
    return
  elif [[ $word == -* ]]; then
    mapfile -t COMPREPLY < <(compgen -W "$(_sfbank_options "${given[0]}")" -- "$word")
  elif [[ ${#given[@]} -eq 0 || ${given[0]} == help && ${#given[@]} -eq 1 ]]; then
    mapfile -t COMPREPLY < <(compgen -W "$commands" -- "$word")
  elif [[ ${given[0]} == import && ${#given[@]} -gt 1 ]]; then
    _sfbank_files "sf2 txt wav" "$word"
  elif [[ ${#given[@]} -le ${#endings[@]} ]]; then
    _sfbank_files "${endings[${#given[@]} - 1]}" "$word"
  fi
}

complete -F _sfbank sfbank
