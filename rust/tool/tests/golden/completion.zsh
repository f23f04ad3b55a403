#compdef dsr
_dsr() {
    local -a commands
    commands=(
        'list:Say in words what came of each recording'
        'plot:Draw a recording'
        'write:Write frames into an image of multiframes, as a terminal sends them'
        'read:Read a recording back into frames'
        'damage:Damage an image as a bad link would, the same way each time'
        'trial:Send many utterances through damage and both readers, and count'
        'explain:Say what a refusal or a note means, and what to do'
        'completion:Print the completion for a shell'
        'man:Print the manual page, dsr(1)'
    )
    if (( CURRENT == 2 )); then
        _describe command commands
        return
    fi
    shift words
    (( CURRENT-- ))
    case $words[1] in
    list)
        _arguments \
            '--json[One line of JSON for each file]' \
            '--numbers[The lines that dsrlist prints]' \
            '--bits[The file is bits with no octet boundary, as a radio modem gives them]' \
            '--from[With --bits]:N:' \
            '--match[With --bits]:T:' \
            '--outside[With --bits]:N:' \
            '--one-header-settles[Read an only multiframe too, if its header is a codeword]' \
            '--codebook[The codebooks 1,280 numbers, for finding pairs that are bad though their CRC is right]:FILE:_files' \
            '--thresholds[The 14 thresholds, two for each codebook]:FILE:_files' \
            '--jobs[Read N files at a time (as many as there are processors)]:N:' \
            '-h[Print this text]' '--help[Print this text]' \
            '*:file:_files'
        ;;
    plot)
        _arguments \
            '-o[Write there instead of to standard output]:FILE:_files' '--output[Write there instead of to standard output]:FILE:_files' \
            '--compare[Draw this recording below the first, on the same scale]:FILE:_files' \
            '--bits[The file is bits with no octet boundary, as a radio modem gives them]' \
            '--from[With --bits]:N:' \
            '--match[With --bits]:T:' \
            '--one-header-settles[Read an only multiframe too, if its header is a codeword]' \
            '--codebook[The codebooks 1,280 numbers, for finding pairs that are bad though their CRC is right]:FILE:_files' \
            '--thresholds[The 14 thresholds, two for each codebook]:FILE:_files' \
            '-h[Print this text]' '--help[Print this text]' \
            '*:file:_files'
        ;;
    write)
        _arguments \
            '--rate[The sample rate in kHz]:word:(8 11 16)' \
            '--front-end[The front end that made the frames]:word:(standard noise-robust)' \
            '--raw[The frames are raw octets, seven for each, instead of lines of text]' \
            '-o[Write there instead of to standard output]:FILE:_files' '--output[Write there instead of to standard output]:FILE:_files' \
            '-h[Print this text]' '--help[Print this text]' \
            '*:file:_files'
        ;;
    read)
        _arguments \
            '--raw[Give the frames as raw octets, seven for each, instead of lines of text]' \
            '--notes[Add to each line of text the note of the frames pair]' \
            '-o[Write there instead of to standard output]:FILE:_files' '--output[Write there instead of to standard output]:FILE:_files' \
            '--bits[The file is bits with no octet boundary, as a radio modem gives them]' \
            '--from[With --bits]:N:' \
            '--match[With --bits]:T:' \
            '--outside[With --bits]:N:' \
            '--one-header-settles[Read an only multiframe too, if its header is a codeword]' \
            '--codebook[The codebooks 1,280 numbers, for finding pairs that are bad though their CRC is right]:FILE:_files' \
            '--thresholds[The 14 thresholds, two for each codebook]:FILE:_files' \
            '-h[Print this text]' '--help[Print this text]' \
            '*:file:_files'
        ;;
    damage)
        _arguments \
            '--seed[What all chance is drawn from (1)]:N:' \
            '--ber[Flip bits at this rate, 0 to 0]:P:' \
            '--burst[With --ber]:N:' \
            '--bounded[Damage of the kind for which naming is proved]:P:' \
            '--spare-syncs[Flip no bit of a sync]' \
            '*--drop[Lose N bits from bit AT on, counted in the bits as they are then]:ATN:' \
            '*--repeat[Send the N bits from bit AT on twice]:ATN:' \
            '--shift[Put N bits drawn by chance before all others, so that octets begin anywhere]:N:' \
            '-o[Write there instead of to standard output]:FILE:_files' '--output[Write there instead of to standard output]:FILE:_files' \
            '-h[Print this text]' '--help[Print this text]' \
            '*:file:_files'
        ;;
    trial)
        _arguments \
            '--utterances[So many utterances for each row (200)]:N:' \
            '--frames[So many frames in each utterance, 1 to 6,119 (300]:N:' \
            '--ber[One row for each of these bit error rates (1e-5,3e-5,1e-4,3e-4,1e-3,3e-3,1e-2,3e-2)]:P,:' \
            '--burst[With --ber]:N:' \
            '--bounded[Instead of --ber]:P,:' \
            '--spare-syncs[Flip no bit of a sync]' \
            '--shift[Put N bits drawn by chance before each image (0)]:N:' \
            '--match[The hunting reader asks for at least T of a syncs sixteen bits, 12 to 16 (14)]:T:' \
            '--seed[What all chance is drawn from (1)]:N:' \
            '--trust[Instead]' \
            '-o[Write a chart of the table there too, as SVG]:FILE:_files' '--output[Write a chart of the table there too, as SVG]:FILE:_files' \
            '-h[Print this text]' '--help[Print this text]' \
            '*:word:()'
        ;;
    explain)
        _arguments \
            '-h[Print this text]' '--help[Print this text]' \
            '*:word:(note end)'
        ;;
    completion)
        _arguments \
            '-h[Print this text]' '--help[Print this text]' \
            '*:word:(bash zsh fish)'
        ;;
    man)
        _arguments \
            '-h[Print this text]' '--help[Print this text]' \
            '*:word:()'
        ;;
    esac
}
_dsr "$@"
