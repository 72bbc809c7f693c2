# Completion of astc_tool for fish: copy this file to a folder `completions` or `vendor_completions.d`.

# Prints the kind of word that the cursor is at.
function __astc_tool_expected
    set -l words (commandline -opc)
    set -e words[1]
    set -l before --progress --explain
    while contains -- "$words[1]" $before
        set -e before[(contains -i -- $words[1] $before)]
        set -e words[1]
    end
    set -l place (math (count $words) + 1)
    test $place = 1; and echo commands $before; and return
    switch $words[1]:$place
        # made by packaging/write_texts: the places
        case pack:2 pack:3 packktx:2 packktx:3 unpack:2 unpack:3 audit:2 audit:3 polish:2 polish:3 polish:4 part:2 part:3 'join:*' import:2 import:3 export:2 export:3
            echo files
        case pack:4 packktx:4 part:6 trial:5
            echo footprints
        case pack:5 packktx:5 audit:4 polish:5 part:7 trial:6
            echo presets
        case import:4
            echo options_of_import
        case trial:7
            echo options_of_trial
        case part:4 part:5 trial:2 trial:3 trial:4 'unpack:*' 'join:*' 'import:*' 'export:*' 'trial:*'
            echo nothing
        # end of the places
        case '*'
            echo options_of_$words[1]
    end
end

complete -c astc_tool -f
complete -c astc_tool -n 'test (__astc_tool_expected) = files' -F
for word in --progress --explain
    complete -c astc_tool -n "string match -q -- '*$word*' (__astc_tool_expected)" -a $word
end
complete -c astc_tool -n 'string match -q "commands*" (__astc_tool_expected)' -a '--help --version'
# made by packaging/write_texts: the commands
for command in 'pack:pack the images of a PAM file into a KTX file' \
        'packktx:pack the mip levels of an uncompressed KTX file' \
        'unpack:decode a KTX file to PAM images' \
        'audit:count the blocks of a KTX file that could be improved' \
        'polish:improve each block of a KTX file, or leave it unchanged' \
        'part:make part PLACE, counted from 0, of the COUNT parts of a pack' \
        'join:join all parts into the KTX file of the pack' \
        'import:convert an .astc file to a KTX file' \
        'export:convert an image of a KTX file to an .astc file' \
        'trial:pack a generated picture in memory'
# end of the commands
    set -l command_and_text (string split -m 1 : $command)
    complete -c astc_tool -n 'string match -q "commands*" (__astc_tool_expected)' -a $command_and_text[1] -d $command_and_text[2]
end
# made by packaging/write_texts: the offers
complete -c astc_tool -n 'test (__astc_tool_expected) = footprints' -k -a '4x4 5x4 5x5 6x5 6x6 8x5 8x6 8x8 10x5 10x6 10x8 10x10 12x10 12x12'
complete -c astc_tool -n 'test (__astc_tool_expected) = presets' -k -a 'flat quick medium thorough pairs'
complete -c astc_tool -n 'contains (__astc_tool_expected) options_of_pack options_of_part' -a 'levels= levels=full elements= cube'
complete -c astc_tool -n 'contains (__astc_tool_expected) options_of_pack options_of_packktx options_of_part options_of_import' -a 'srgb'
complete -c astc_tool -n 'contains (__astc_tool_expected) options_of_pack options_of_packktx options_of_part options_of_polish options_of_audit' -a 'weights='
complete -c astc_tool -n 'contains (__astc_tool_expected) options_of_pack options_of_packktx options_of_part options_of_trial' -a 'fitted'
complete -c astc_tool -n 'contains (__astc_tool_expected) options_of_pack options_of_packktx' -a 'advised'
# end of the offers
