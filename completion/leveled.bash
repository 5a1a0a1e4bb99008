# Completes the arguments of leveled in bash.
_leveled() {
    local word=${COMP_WORDS[COMP_CWORD]} subcommand=${COMP_WORDS[1]}
    if [ "$COMP_CWORD" -eq 1 ]; then
        mapfile -t COMPREPLY < <(compgen -W 'scratch create edit check lint draw dump picture build rebuild inspect help --help --version' -- "$word")
        return
    fi
    case ${COMP_WORDS[COMP_CWORD-1]} in
    --only | --except)
        mapfile -t COMPREPLY < <(compgen -W 'check no-start start-twice few-deathmatch-starts ceiling-below-floor tag-missing tag-of-no-sector tag-of-no-line line-special-unknown sector-special-unknown thing-type-unknown texture-hidden sector-inside-out line-crossed thing-outside door-without-back donut-without-back too-many-scrolls teleport-nowhere no-exit key-missing too-many-neighbours thing-stuck flat-unknown texture-unknown texture-short texture-patched' -- "$word")
        return
        ;;
    esac
    case $word in
    -*)
        local flags=--help
        [ "$subcommand" = create ] && flags='--slot --journal --help'
        [ "$subcommand" = lint ] && flags='--iwad --only --except --help'
        [ "$subcommand" = dump ] && flags='--exact --salvage --help'
        [ "$subcommand" = draw ] && flags='--check --verbose --help'
        [ "$subcommand" = picture ] && flags='--out --numbers --nodes --lint --heights --grid --crop --help'
        [ "$subcommand" = rebuild ] && flags='--map --help'
        mapfile -t COMPREPLY < <(compgen -W "$flags" -- "$word")
        ;;
    *)
        case $subcommand in
        help) mapfile -t COMPREPLY < <(compgen -W 'scratch create edit check lint draw dump picture build rebuild inspect codes scripts' -- "$word") ;;
        create | edit | check | lint | draw | dump | picture | build | rebuild | inspect) mapfile -t COMPREPLY < <(compgen -f -- "$word") ;;
        esac
        ;;
    esac
}
complete -o filenames -F _leveled leveled
