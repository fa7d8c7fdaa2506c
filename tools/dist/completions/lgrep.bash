# Completes the arguments of lgrep in bash.
_lgrep() {
    local current=${COMP_WORDS[COMP_CWORD]} flag=${COMP_WORDS[COMP_CWORD - 1]} value
    value=$current
    # With "=" among COMP_WORDBREAKS, as it is by default, `--flag=value` is three words.
    if [ "$current" = "=" ]; then
        value=
    elif [ "$flag" = "=" ]; then
        flag=${COMP_WORDS[COMP_CWORD - 2]}
    elif [[ $current == --*=* ]]; then
        flag=${current%%=*}
        value=${current#*=}
    fi
    COMPREPLY=()
    case $flag in
        --binary-files) mapfile -t COMPREPLY < <(compgen -W "binary text without-match" -- "$value") ;;
        --color | --colour) mapfile -t COMPREPLY < <(compgen -W "auto never" -- "$value") ;;
        -f | --file) mapfile -t COMPREPLY < <(compgen -f -- "$value") ;;
        -A | --after-context | -B | --before-context | -C | --context) ;;
        -e | --regexp | -m | --max-count | --replace | --include | --exclude | --exclude-dir | --cache) ;;
        *)
            if [[ $current == -* ]]; then
                mapfile -t COMPREPLY < <(compgen -W "$_lgrep_flags" -- "$current")
            else
                mapfile -t COMPREPLY < <(compgen -f -- "$current")
            fi
            ;;
    esac
}

_lgrep_flags="-e --regexp -f --file -F --fixed-strings -E --extended-regexp -P --perl-regexp -i -y --ignore-case
    --no-ignore-case -w --word-regexp -x --line-regexp -v --invert-match -m --max-count -z --null-data
    -A --after-context -B --before-context -C --context -c --count -l --files-with-matches -L --files-without-match
    -q --quiet --silent -o --only-matching --replace --which -n --line-number -b --byte-offset -T --initial-tab -H
    --with-filename -h --no-filename -Z --null -s --no-messages --color --stats --help -V --version -r -R --recursive
    --dereference-recursive --include --exclude --exclude-dir -a --text -I --binary-files --cache -U --binary
    --line-buffered"

complete -o filenames -F _lgrep lgrep
