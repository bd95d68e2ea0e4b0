# Completions of seamless for bash. gate/manual.py writes this file.
_seamless() {
    local words=""
    case "${COMP_WORDS[1]} ${COMP_WORDS[COMP_CWORD - 1]}" in
    "replay --role") words="danp danh san prp hsr" ;;
    "replay --mac") ;;
    "replay --lan") words="a b" ;;
    "replay --net") ;;
    "replay --format") words="text json" ;;
    "replay --mode") words="h x" ;;
    "replay --window") words="1024 2048" ;;
    "status --role") words="danp danh san prp hsr" ;;
    "status --mac") ;;
    "status --lan") words="a b" ;;
    "status --net") ;;
    "status --format") words="text json" ;;
    "status --mode") words="h x" ;;
    "status --window") words="1024 2048" ;;
    "script --a") compopt -o filenames; mapfile -t COMPREPLY < <(compgen -f -- "$2"); return ;;
    "script --b") compopt -o filenames; mapfile -t COMPREPLY < <(compgen -f -- "$2"); return ;;
    "script --c") compopt -o filenames; mapfile -t COMPREPLY < <(compgen -f -- "$2"); return ;;
    "script --network") words="prp hsr" ;;
    "script --shift-a") ;;
    "script --shift-b") ;;
    "script --shift-c") ;;
    "script --shift") words="auto none" ;;
    "script --fcs") words="4" ;;
    "script --from") ;;
    "script --to") ;;
    "script --tick") ;;
    "script --format") words="text json" ;;
    "audit --a") compopt -o filenames; mapfile -t COMPREPLY < <(compgen -f -- "$2"); return ;;
    "audit --b") compopt -o filenames; mapfile -t COMPREPLY < <(compgen -f -- "$2"); return ;;
    "audit --mirror") compopt -o filenames; mapfile -t COMPREPLY < <(compgen -f -- "$2"); return ;;
    "audit --network") words="prp hsr" ;;
    "audit --shift-a") ;;
    "audit --shift-b") ;;
    "audit --fcs") words="4" ;;
    "audit --from") ;;
    "audit --to") ;;
    "audit --shift") words="auto none" ;;
    "audit --list") words="lost wrong pairs" ;;
    "audit --format") words="text json csv svg html" ;;
    "audit --time") words="utc" ;;
    "audit --title") ;;
    "audit --note") ;;
    "audit --names") compopt -o filenames; mapfile -t COMPREPLY < <(compgen -f -- "$2"); return ;;
    "audit --max-lost") ;;
    "audit --max-skew-us") ;;
    "merge --a") compopt -o filenames; mapfile -t COMPREPLY < <(compgen -f -- "$2"); return ;;
    "merge --b") compopt -o filenames; mapfile -t COMPREPLY < <(compgen -f -- "$2"); return ;;
    "merge --write") compopt -o filenames; mapfile -t COMPREPLY < <(compgen -f -- "$2"); return ;;
    "merge --network") words="prp hsr" ;;
    "merge --shift-a") ;;
    "merge --shift-b") ;;
    "merge --fcs") words="4" ;;
    "merge --from") ;;
    "merge --to") ;;
    "merge --shift") words="auto none" ;;
    "merge --only") words="lost" ;;
    "merge --format") words="text json" ;;
    "watch --a") compopt -o filenames; mapfile -t COMPREPLY < <(compgen -f -- "$2"); return ;;
    "watch --b") compopt -o filenames; mapfile -t COMPREPLY < <(compgen -f -- "$2"); return ;;
    "watch --mirror") compopt -o filenames; mapfile -t COMPREPLY < <(compgen -f -- "$2"); return ;;
    "watch --network") words="prp hsr" ;;
    "watch --shift-a") ;;
    "watch --shift-b") ;;
    "watch --fcs") words="4" ;;
    "watch --every") ;;
    "watch --format") words="text json" ;;
    "watch --metrics") compopt -o filenames; mapfile -t COMPREPLY < <(compgen -f -- "$2"); return ;;
    "watch --alone-for") ;;
    "watch --skew-over") ;;
    "watch --lost-over") ;;
    "watch --slack") ;;
    "watch --for") ;;
    "ring --nodes") ;;
    "ring --turns") ;;
    "ring --format") words="text json svg" ;;
    "ring --mode") words="h x" ;;
    "ring --window") words="1024 2048" ;;
    "lan --nodes") ;;
    "lan --turns") ;;
    "lan --format") words="text json svg" ;;
    "lan --mode") words="h x" ;;
    "lan --window") words="1024 2048" ;;
    "ring-lan --ring") ;;
    "ring-lan --lan") ;;
    "ring-lan --format") words="text json svg" ;;
    "ring-lan --mode") words="h x" ;;
    "ring-lan --window") words="1024 2048" ;;
    "two-rings --left") ;;
    "two-rings --right") ;;
    "two-rings --joins") ;;
    "two-rings --format") words="text json svg" ;;
    "two-rings --mode") words="h x" ;;
    "two-rings --window") words="1024 2048" ;;
    *)
        case "$COMP_CWORD ${COMP_WORDS[1]}" in
        "1 "*) words="replay status script audit merge watch ring lan ring-lan two-rings --help --version" ;;
        *" replay") words="--role --mac --lan --net --format --mode --window --help" ;;
        *" status") words="--role --mac --lan --net --format --mode --window --counters --help" ;;
        *" script") words="--a --b --c --network --shift-a --shift-b --shift-c --shift --fcs --from --to --tick --format --help" ;;
        *" audit") words="--a --b --mirror --network --shift-a --shift-b --fcs --from --to --shift --list --format --time --title --note --names --check --complete --whole --max-lost --max-skew-us --help" ;;
        *" merge") words="--a --b --write --network --shift-a --shift-b --fcs --from --to --shift --keep --only --format --help" ;;
        *" watch") words="--a --b --mirror --network --shift-a --shift-b --fcs --reopen --every --format --metrics --alone-for --skew-over --lost-over --slack --for --check --help" ;;
        *" ring") words="--nodes --turns --format --mode --window --help" ;;
        *" lan") words="--nodes --turns --format --mode --window --help" ;;
        *" ring-lan") words="--ring --lan --format --mode --window --help" ;;
        *" two-rings") words="--left --right --joins --format --mode --window --help" ;;
        esac
        ;;
    esac
    COMPREPLY=($(compgen -W "$words" -- "$2"))
}
complete -F _seamless seamless ./seamless
