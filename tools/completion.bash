# Completion for v6 and its tools: the commands of v6, disk.py and log.py, options, rows, and the names of files.

_v6() {
    local word=${COMP_WORDS[COMP_CWORD]} words= rows
    case ${COMP_WORDS[0]##*/} in
    v6) [ "$COMP_CWORD" -eq 1 ] && words='run run8 run2 memory check make demo audit' ;;
    v6-disk | disk.py)
        if [ "$COMP_CWORD" -eq 1 ]; then
            words='list cat get put new grow mkdir rm mv ln chmod chown check wants repair'
            case $word in -*) words='--help --pack --v6 --version' ;; esac
        else
            case $word in -*) words='--as --blocks --damaged --help --inodes --mode --replace --short --table --time -l -r' ;; esac
        fi ;;
    v6-console | console.py)
        case $word in -*) words='--clock --core --disk --help --lines --replay --script --second --second-disk --side --slots --v6 --version' ;; esac ;;
    v6-log | log.py)
        if [ "$COMP_CWORD" -eq 1 ]; then
            words='show draw diff ask audit'
            case $word in -*) words='--help --version' ;; esac
        else
            case $word in -*) words='--book --count --disk --from --help --output --script --to --v6 -o' ;; esac
        fi ;;
    v6-look | look.py) case $word in -*) words='--eight --help --log --replay --second --symbols --v6 --version -c' ;; esac ;;
    v6-page | page.py)
        case $word in -*) words='--disk --eight --help --log --marks --moments --output --replay --script --second --symbols --term --title --v6 --version -o' ;; esac ;;
    v6-as | as.py) case $word in -*) words='--disassemble --help --into --version --with -g -l -n -o -s' ;; esac ;;
    v6-cc | cc.py) case $word in -*) words='--compiler --gcc --help --version -D -I -S -g -n -o -s' ;; esac ;;
    v6-lessonpages | lessonpages.py) case $word in -*) words='--help --moments --output --v6 --version -o' ;; esac ;;
    v6-run | run.py) case $word in -*) words='--core --damaged --disk --eight --help --log --replay --second --second-disk --term --v6 --version' ;; esac ;;
    v6-trace | trace.py) case $word in -*) words='--from --help --process --replay --to --v6 --version' ;; esac ;;
    v6-try | try.py) case $word in -*) words='--back --binary --core --disk --file --final --folder --help --slots --v6 --version --with -t' ;; esac ;;
    row.py)
        rows=$(dirname "${COMP_WORDS[0]}")/../crates/run_rows/data/rows
        case $word in
        -*) words='--data --from --help --page --quiet --slots --v6 --version -q' ;;
        *) words=$(cd -P "$rows" 2>/dev/null && printf '%s\n' */*) ;;
        esac ;;
    esac
    if [ -n "$words" ]; then
        mapfile -t COMPREPLY < <(compgen -W "$words" -- "$word")
    else
        mapfile -t COMPREPLY < <(compgen -f -- "$word")
    fi
}

complete -o filenames -F _v6 v6 v6-as v6-cc v6-console v6-disk v6-lessonpages v6-log v6-look v6-page v6-run v6-trace v6-try as.py cc.py console.py disk.py \
    lessonpages.py log.py look.py page.py row.py run.py trace.py try.py
