# Completes the commands and options of reviewgate in bash: source it, or put it into /etc/bash_completion.d.
_reviewgate() {
    local commands="ready why graph merge footers check simulate serve recover events queries enqueue help"
    local word=${COMP_WORDS[COMP_CWORD]} before=${COMP_WORDS[COMP_CWORD - 1]} command=${COMP_WORDS[1]} words=""
    if [ "$COMP_CWORD" -eq 1 ]; then
        words="$commands --help --version"
    elif [ "$before" = --print ]; then
        words="report changes none"
    elif [ "$before" = --mode ]; then
        words="600 660"
    else
        case $command in
            help) [ "$COMP_CWORD" -gt 2 ] || words="$commands" ;;
            check) words="--strict --json --help" ;;
            enqueue) words="--tenant --pipeline --template --projects --handed --help" ;;
            events) words="--to --keys --query --complete --project --projects --gate --help" ;;
            footers) words="--change --json --help" ;;
            graph) words="--around --help" ;;
            queries) words="--every --gather --pause --help" ;;
            ready) words="--item --json --help" ;;
            recover) words="--without --until --help" ;;
            serve)
                words="--site --start --port --listen --mode --keys --sites --workers --pause --sessions --idle --connections --until-input-ends --print --log-time --http --http-host --load --save --journal --help"
                ;;
            why) words="--all --json --help" ;;
            *) words="--help" ;;
        esac
    fi
    if [[ $words == --* && $word != -* ]]; then
        compopt -o filenames
        mapfile -t COMPREPLY < <(compgen -f -- "$word")
    else
        mapfile -t COMPREPLY < <(compgen -W "$words" -- "$word")
    fi
}
complete -F _reviewgate reviewgate
