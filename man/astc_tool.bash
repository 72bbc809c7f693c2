# Completion of astc_tool for bash: source this file, or copy it to a folder of bash-completion.

_astc_tool() {
    local word=${COMP_WORDS[COMP_CWORD]} command=${COMP_WORDS[1]} place=$COMP_CWORD
    local before=--progress,--explain
    while [ "$place" -gt 1 ] && [[ $command == --* && ,$before, == *,"$command",* ]]; do
        before=${before/"$command"/}
        place=$((place - 1))
        command=${COMP_WORDS[COMP_CWORD - place + 1]}
    done
    # made by packaging/write_texts: the lists
    local footprints='4x4 5x4 5x5 6x5 6x6 8x5 8x6 8x8 10x5 10x6 10x8 10x10 12x10 12x12'
    local presets='flat quick medium thorough pairs'
    local commands='pack packktx unpack audit polish part join import export trial'
    # end of the lists
    local wanted=
    if [ "$place" = 1 ]; then
        wanted="$commands ${before//,/ } --help --version"
    else
        case $command:$place in
            # made by packaging/write_texts: the places
            pack:[23] | packktx:[23] | unpack:[23] | audit:[23] | polish:[234] | part:[23] | join:* | import:[23] | export:[23]) wanted=files ;;
            pack:4 | packktx:4 | part:6 | trial:5) wanted=$footprints ;;
            pack:5 | packktx:5 | audit:4 | polish:5 | part:7 | trial:6) wanted=$presets ;;
            part:[45] | trial:[234]) ;;
            pack:*) wanted='levels= levels=full elements= cube srgb weights= fitted advised' ;;
            packktx:*) wanted='srgb weights= fitted advised' ;;
            audit:* | polish:*) wanted='weights=' ;;
            part:*) wanted='levels= levels=full elements= cube srgb weights= fitted' ;;
            import:4) wanted='srgb' ;;
            trial:7) wanted='fitted' ;;
            # end of the places
        esac
    fi
    if [ "$wanted" = files ]; then
        compopt -o filenames 2> /dev/null
        mapfile -t COMPREPLY < <(compgen -f -- "$word")
        return
    fi
    # readline breaks words at `=`
    case ${COMP_WORDS[COMP_CWORD - 2]}${COMP_WORDS[COMP_CWORD - 1]}$word in
        *levels=*) wanted=full word=${word#=} ;;
    esac
    mapfile -t COMPREPLY < <(compgen -W "$wanted" -- "$word")
    [[ ${COMPREPLY[0]-} == *= ]] && compopt -o nospace 2> /dev/null
}
complete -F _astc_tool astc_tool
