# SPDX-License-Identifier: Apache-2.0
# Completion of mel for bash.
_mel()
{
    local word=${COMP_WORDS[COMP_CWORD]} before=${COMP_WORDS[COMP_CWORD - 1]} options
    local commands='list check unpack replace mask catalogue explain --help --version'
    if [ "$COMP_CWORD" -eq 1 ]; then
        mapfile -t COMPREPLY < <(compgen -W "$commands" -- "$word")
        return
    fi
    case $before in
    --as)
        mapfile -t COMPREPLY < <(compgen -W 'npy raw text pgm' -- "$word")
        return
        ;;
    --above | --value | --wait)
        return
        ;;
    esac
    case ${COMP_WORDS[1]} in
    list) options='--json' ;;
    check) options='--verbose' ;;
    unpack) options='--as --output --wait' ;;
    replace) options='--raw --dry-run --output --wait' ;;
    mask) options='--above --mask --value --dry-run --output --wait' ;;
    catalogue) options='--output --wait' ;;
    explain)
        mapfile -t COMPREPLY < <(compgen -W "--help $(seq -s ' ' 18)" -- "$word")
        return
        ;;
    *) return ;;
    esac
    case $word in
    -*) mapfile -t COMPREPLY < <(compgen -W "$options --help" -- "$word") ;;
    *)
        compopt -o filenames
        mapfile -t COMPREPLY < <(compgen -f -- "$word")
        ;;
    esac
}
complete -F _mel mel
