# netgame in bash: . completions/netgame.bash
_netgame() {
    local word=${COMP_WORDS[COMP_CWORD]} words=
    [ "$COMP_CWORD" = 1 ] && words='show demo rows upgrade stats lumps diff record sim storm loop play host join key --help --version'
    case ${COMP_WORDS[1]} in
        show) words='--json --help' ;;
        demo) words='--json --help' ;;
        rows) words='--json --help' ;;
        upgrade) words='--limit --help' ;;
        stats) words='--json --help' ;;
        lumps) words='--json --help' ;;
        diff) words='--help' ;;
        record) words='--help' ;;
        sim) words='--players --skill --episode --map --deathmatch --limit --respawn --nomonsters --extra --trace --help' ;;
        storm) words='--players --skill --episode --map --deathmatch --limit --respawn --nomonsters --extra --seed --count --calm --trace --script --help' ;;
        loop) words='--players --skill --episode --map --deathmatch --limit --respawn --nomonsters --extra --seed --rounds --base --help' ;;
        play) words='--players --skill --episode --map --deathmatch --limit --respawn --nomonsters --extra --seed --rounds --base --me --raw --help' ;;
        host) words='--players --skill --episode --map --deathmatch --limit --respawn --nomonsters --extra --port --rate --key --seed --seconds --raw --help' ;;
        join) words='--me --players --port --key --seed --seconds --raw --help' ;;
        key) words='--help' ;;
    esac
    case $word in
        -*) mapfile -t COMPREPLY < <(compgen -W "$words" -- "$word") ;;
        *) if [ "$COMP_CWORD" = 1 ]; then mapfile -t COMPREPLY < <(compgen -W "$words" -- "$word")
            else mapfile -t COMPREPLY < <(compgen -f -- "$word"); fi ;;
    esac
}
complete -o filenames -F _netgame netgame
