# Completion for bash: `source` this file. Made by `scripts/options --write` of what `--help` tells.
# shellcheck shell=bash

# _tlsf_offer WORDS: offers those of the words that begin as the last one.
_tlsf_offer() {
    mapfile -t COMPREPLY < <(compgen -W "$1" -- "${COMP_WORDS[COMP_CWORD]}")
}

# _tlsf COMMAND: offers a command of tlsf, an option, what is told of an option's value, or a file.
_tlsf() {
    local name=${1##*/} before=${COMP_WORDS[COMP_CWORD - 1]} options values
    COMPREPLY=()
    if [ "$name" = tlsf ] && [ "$COMP_CWORD" -eq 1 ]; then
        _tlsf_offer 'leaks peak walk sites timeline fit size save check help -h --help -V --version'
        return
    fi
    [ "$name" != tlsf ] || name="tlsf ${COMP_WORDS[1]}"
    case $name in
    'tlsf leaks' | 'tlsf peak')
        options='--pool --pools --records --no-heap --every -h --help'
        values='--pool --pools --records --every' ;;
    'tlsf walk')
        options='--pool --pools --records --image -h --help'
        values='--pool --pools --records' ;;
    'tlsf sites')
        options='--pool --pools --records --calls --every -h --help'
        values='--pool --pools --records --every' ;;
    'tlsf timeline')
        options='--pool --pools --records --points --sites -h --help'
        values='--pool --pools --records --points' ;;
    'tlsf fit')
        options='--step --heaps --front -h --help'
        values='--step --heaps --front' ;;
    'tlsf size')
        options='--blocks --largest --bytes --align --front --part -h --help'
        values='--blocks --largest --bytes --align --front --part' ;;
    'tlsf save')
        options='--pool --pools --records -h --help'
        values='--pool --pools --records' ;;
    'tlsf check')
        options='-h --help'
        values='' ;;
    'tlsf-leaks')
        options='-h --help --version -o --frames --reachable --report --format --error-exitcode --baseline --compare --gen-suppressions --all-frames --suppress --all-sites --join --paths --sysroot --names --pid --follow --every --max-log --give-up'
        values='--frames --format --error-exitcode --pid --every --max-log' ;;
    'tlsf-trace')
        options='-h --help --version -o --frames --reachable --index --follow --every --ring --tee --max-log --calls --give-up --copy --pid --stop'
        values='--frames --every --ring --max-log --pid --stop' ;;
    'tlsf-page')
        options='-h --help --version --svg --names --snapshots --plain --sysroot --points --pool --pools --records'
        values='--points --pool --pools --records' ;;
    'tlsf-source-lines')
        options='-h --help --version --all-frames --suppress --all-sites --join --paths --sysroot --names --fold'
        values='' ;;
    'tlsf-image')
        options='-h --help --at'
        values='--at' ;;
    *) return ;;
    esac
    case $before in
    --format) _tlsf_offer 'text json sarif pprof xml' && return ;;
    esac
    case " $values " in *" $before "*) return ;; esac
    case ${COMP_WORDS[COMP_CWORD]} in
    -*) _tlsf_offer "$options" ;;
    *) mapfile -t COMPREPLY < <(compgen -f -- "${COMP_WORDS[COMP_CWORD]}") ;;
    esac
}

complete -o filenames -F _tlsf tlsf tlsf-leaks tlsf-trace tlsf-page tlsf-source-lines tlsf-image
