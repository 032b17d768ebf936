# Completion of tcam's words for bash: subcommands, and of each its options with their values.
_tcam() {
    local word=${COMP_WORDS[COMP_CWORD]} before=${COMP_WORDS[COMP_CWORD - 1]} command=${COMP_WORDS[1]} words=
    if [ "$command" = explain ] && [ "$COMP_CWORD" -gt 2 ]; then command=${COMP_WORDS[2]}; fi # behind it a command line
    case $before in
    --ranges) words="cover bits" ;;
    --placement) words="middle rank ends" ;;
    --removals) words="first last" ;;
    --chain) words="INPUT FORWARD OUTPUT" ;;
    --since) ;; # a file
    --slots | --depth | --commit | --commits | --list) ;; # a number, or two, or a name
    import) words="ip-routes ip-monitor ip-json cisco fpm iptables nft --version --leave-out --list --chain --in --since --help" ;;
    tcam | */tcam) words="route acl route6 acl6 router router6 gen verify draw explain import judge --help --version" ;;
    explain) words="route acl route6 acl6 router router6 gen verify draw import judge --help" ;;
    *)
        case $command in
        route | route6) words="--slots --placement --removals --trace --names --depth --json --large --help" ;;
        acl | acl6) words="--slots --ranges --placement --removals --trace --names --depth --json --large --help" ;;
        router | router6) words="--slots --ranges --placement --trace --large --help" ;;
        gen) words="--slots --ranges --placement --help" ;;
        verify) words="--help" ;;
        draw) words="--commit --commits --occupancy --help" ;;
        import) words="--version --leave-out --list --chain --in --since --help" ;;
        judge) words="--results --help" ;;
        esac
        ;;
    esac
    mapfile -t COMPREPLY < <(compgen -W "$words" -- "$word")
}
complete -o default -F _tcam tcam
