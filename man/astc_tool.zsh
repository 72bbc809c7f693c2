#compdef astc_tool
# Completion of astc_tool for zsh: copy this file as _astc_tool to a folder of fpath.

_astc_tool() {
    local command=$words[2]
    local -i place=$((CURRENT - 1))
    # made by packaging/write_texts: the lists
    local -a footprints=(4x4 5x4 5x5 6x5 6x6 8x5 8x6 8x8 10x5 10x6 10x8 10x10 12x10 12x12) presets=(flat quick medium thorough pairs)
    local -a commands=(
        'pack:pack the images of a PAM file into a KTX file'
        'packktx:pack the mip levels of an uncompressed KTX file'
        'unpack:decode a KTX file to PAM images'
        'audit:count the blocks of a KTX file that could be improved'
        'polish:improve each block of a KTX file, or leave it unchanged'
        'part:make part PLACE, counted from 0, of the COUNT parts of a pack'
        'join:join all parts into the KTX file of the pack'
        'import:convert an .astc file to a KTX file'
        'export:convert an image of a KTX file to an .astc file'
        'trial:pack a generated picture in memory'
    )
    # end of the lists
    local -a before=(--progress --explain)
    while ((place > 1 && ${before[(Ie)$command]})); do
        before=(${before:#$command})
        ((place -= 1))
        command=$words[CURRENT-place+1]
    done
    if ((place == 1)); then
        compadd -a before
        _describe command commands
        compadd -- --help --version
        return
    fi
    case $command:$place in
        # made by packaging/write_texts: the places
        pack:[23] | packktx:[23] | unpack:[23] | audit:[23] | polish:[234] | part:[23] | join:* | import:[23] | export:[23]) _files ;;
        pack:4 | packktx:4 | part:6 | trial:5) compadd -V footprints -a footprints ;;
        pack:5 | packktx:5 | audit:4 | polish:5 | part:7 | trial:6) compadd -V presets -a presets ;;
        part:[45] | trial:[234]) ;;
        pack:*)
            compadd -- levels=full cube srgb fitted advised
            compadd -S '' -- levels= elements= weights=
            ;;
        packktx:*)
            compadd -- srgb fitted advised
            compadd -S '' -- weights=
            ;;
        audit:* | polish:*) compadd -S '' -- weights= ;;
        part:*)
            compadd -- levels=full cube srgb fitted
            compadd -S '' -- levels= elements= weights=
            ;;
        import:4) compadd -- srgb ;;
        trial:7) compadd -- fitted ;;
        # end of the places
    esac
}

_astc_tool "$@"
