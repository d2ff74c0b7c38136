# Completions of sfbank for fish.

# Prints the command and then the files before the cursor, without options and their values.
function __sfbank_given
    set -l values 0
    set -l command
    for word in (commandline -opc)[2..]
        if test $values -gt 0
            set values (math $values - 1)
        else if test "$command$word" = import--preset
            set values 2
        else if contains -- "$word" --all --as --channel --dither --instrument --key --kit --minor --name --notes --preset --script --shift
            set values 1
        else if not string match -q -- '-*' $word
            set -q command[1]; or set command $word
            echo $word
        end
    end
end

# Whether the command is one of the arguments.
function __sfbank_is
    set -l given (__sfbank_given)
    set -q given[1]; and contains -- $given[1] $argv
end

# Whether there is no command yet.
function __sfbank_is_bare
    test -z "$(__sfbank_given)"
end

# The files at the cursor, those with the expected extension first, or another argument.
function __sfbank_files
    set -l given (__sfbank_given)
    set -l endings
    switch $given[1]
        case apply
            set endings sf2 txt sf2 txt
        case canon
            set endings sf2 sf2
        case copy
            set endings sf2 preset/inst/sample - sf2 txt
        case diff
            set endings sf2 sf2 txt
        case explain
            set endings -
        case import
            set endings sf2 wav sf2 txt
        case keep tidy
            set endings sf2 sf2 txt
        case live
            set endings sf2 pcm
        case map
            set endings sf2 preset/inst/sample - svg
        case merge take
            set endings sf2 sf2 sf2 txt
        case check new show
            set endings sf2
        case pack
            set endings folder sf2
        case page
            set endings sf2 html
        case play
            set endings sf2 txt wav
        case replace
            set endings sf2 - wav sf2 txt
        case script
            set endings sf2 txt
        case unpack
            set endings sf2 folder
        case wave
            set endings sf2 - wav
    end
    set -l place (count $given)
    if test "$given[1]" = import; and test $place -gt 1
        for ending in sf2 txt wav
            __fish_complete_suffix .$ending
        end
        return
    end
    set -q endings[$place]; or return
    switch $endings[$place]
        case -
        case folder
            __fish_complete_directories
        case '*/*'
            string split / $endings[$place]
        case '*'
            __fish_complete_suffix .$endings[$place]
    end
end

set -l commands apply canon check copy diff explain import keep live map merge new pack page play replace script show take tidy unpack wave

complete -c sfbank -f
complete -c sfbank -n __sfbank_is_bare -a apply -d 'Run a script of edits on a bank, and write its undo script'
complete -c sfbank -n __sfbank_is_bare -a canon -d 'Write a bank in its canonical form'
complete -c sfbank -n __sfbank_is_bare -a check -d 'List what is probably a mistake in a bank'
complete -c sfbank -n __sfbank_is_bare -a copy -d 'Copy a preset, an instrument or a sample to the end of its list'
complete -c sfbank -n __sfbank_is_bare -a diff -d 'Write a script that turns bank A into bank B'
complete -c sfbank -n __sfbank_is_bare -a explain -d 'Explain a fault or a refusal, or list the generators'
complete -c sfbank -n __sfbank_is_bare -a help -d 'Print the help of the program or of a command'
complete -c sfbank -n __sfbank_is_bare -a import -d 'Add recordings to a bank, and an instrument that plays them'
complete -c sfbank -n __sfbank_is_bare -a keep -d 'Keep some presets of a bank, and remove what they do not need'
complete -c sfbank -n __sfbank_is_bare -a live -d 'Edit and play a bank live, by the lines of the standard input'
complete -c sfbank -n __sfbank_is_bare -a map -d 'Draw ranges, or the waveform of a sample, as an SVG picture'
complete -c sfbank -n __sfbank_is_bare -a merge -d 'Add all that another bank has after what a bank has'
complete -c sfbank -n __sfbank_is_bare -a new -d 'Write an empty bank'
complete -c sfbank -n __sfbank_is_bare -a pack -d 'Make the bank of a folder that unpack made'
complete -c sfbank -n __sfbank_is_bare -a page -d 'Write a bank as an HTML page'
complete -c sfbank -n __sfbank_is_bare -a play -d 'Play notes on a bank into a WAVE file'
complete -c sfbank -n __sfbank_is_bare -a script -d 'Write a script that makes the bank from the empty bank'
complete -c sfbank -n __sfbank_is_bare -a show -d 'List what a bank has, and what was dropped or repaired in reading it'
complete -c sfbank -n __sfbank_is_bare -a take -d 'Copy presets of another bank into a bank, with what they need'
complete -c sfbank -n __sfbank_is_bare -a tidy -d 'Remove what a bank does not use, and change no sound'
complete -c sfbank -n __sfbank_is_bare -a replace -d 'Put a recording in the place of a sample, or of a pair'
complete -c sfbank -n __sfbank_is_bare -a unpack -d 'Write a bank as a folder of its script and WAVE files'
complete -c sfbank -n __sfbank_is_bare -a wave -d 'Write a sample of a bank as a WAVE file, or all samples'
complete -c sfbank -n 'test "$(__sfbank_given)" = help' -a "$commands"
complete -c sfbank -n "__sfbank_is $commands" -k -a '(__sfbank_files)'

complete -c sfbank -n 'not __sfbank_is help' -s h -l help -d 'Print help'
complete -c sfbank -n __sfbank_is_bare -s V -l version -d 'Print version'
complete -c sfbank -n "__sfbank_is $commands" -l explain -d 'Follow the line of a fault by its explanation'
complete -c sfbank -n '__sfbank_is apply' -l force -d 'Write UNDO even if a bank is there'
complete -c sfbank -n '__sfbank_is apply' -l no-undo -d 'Write no undo script; UNDO is left out'
complete -c sfbank -n '__sfbank_is copy' -l force -d 'Write UNDO and FILE even if a bank is there'
complete -c sfbank -n '__sfbank_is diff' -l force -d 'Write OUT even if a bank is there'
complete -c sfbank -n '__sfbank_is import' -l force -d 'Write UNDO even if a bank is there'
complete -c sfbank -n '__sfbank_is import' -l name -x -d 'Give the sample this name'
complete -c sfbank -n '__sfbank_is import' -l kit -r -k -a '(__fish_complete_suffix .txt)' -d 'Add the kit of this table'
complete -c sfbank -n '__sfbank_is import' -l instrument -x -d 'Add an instrument of this name'
complete -c sfbank -n '__sfbank_is import' -l preset -x -d 'Add a preset with these numbers, BANK:NUMBER, and this name'
complete -c sfbank -n '__sfbank_is import' -l channel -x -d 'Read this channel, counted from 1, as mono'
complete -c sfbank -n '__sfbank_is import' -l key -x -d 'Set this root key'
complete -c sfbank -n '__sfbank_is import' -l dither -x -d 'Dither, by random numbers from this seed'
complete -c sfbank -n '__sfbank_is replace' -l force -d 'Write UNDO even if a bank is there'
complete -c sfbank -n '__sfbank_is replace' -l channel -x -d 'Read this channel, counted from 1, as mono'
complete -c sfbank -n '__sfbank_is replace' -l key -x -d 'Set this root key'
complete -c sfbank -n '__sfbank_is replace' -l dither -x -d 'Dither, by random numbers from this seed'
complete -c sfbank -n '__sfbank_is keep' -l force -d 'Write UNDO and FILE even if a bank is there'
complete -c sfbank -n '__sfbank_is live' -l force -d 'Write PCM, and UNDO of each save, even if a bank is there'
complete -c sfbank -n '__sfbank_is live' -l report -d 'Report silent notes, the peak and clipping at the end'
complete -c sfbank -n '__sfbank_is map' -l force -d 'Write OUT even if a bank is there'
complete -c sfbank -n '__sfbank_is merge' -l force -d 'Write UNDO and FILE even if a bank is there'
complete -c sfbank -n '__sfbank_is new' -l force -d 'Write OUT even if a bank is there'
complete -c sfbank -n '__sfbank_is pack' -l force -d 'Write OUT even if a bank is there'
complete -c sfbank -n '__sfbank_is page' -l force -d 'Write OUT even if a bank is there'
complete -c sfbank -n '__sfbank_is play' -l force -d 'Write OUT even if a bank is there'
complete -c sfbank -n '__sfbank_is play' -l report -d 'Report silent notes, the peak and clipping at the end'
complete -c sfbank -n '__sfbank_is script' -l force -d 'Write OUT even if a bank is there'
complete -c sfbank -n '__sfbank_is take' -l force -d 'Write UNDO and FILE even if a bank is there'
complete -c sfbank -n '__sfbank_is tidy' -l force -d 'Write UNDO and FILE even if a bank is there'
complete -c sfbank -n '__sfbank_is unpack' -l force -d 'Write into a folder that is there'
complete -c sfbank -n '__sfbank_is wave' -l force -d 'Write OUT even if a bank is there, or into a folder that is there'
complete -c sfbank -n '__sfbank_is wave' -l all -x -a '(__fish_complete_directories)' -d 'Write all samples into this folder'
complete -c sfbank -n '__sfbank_is wave' -l instrument -x -d 'List the zones of this instrument in its table'
complete -c sfbank -n '__sfbank_is wave' -l pair -d 'Write the left and the right sample of its pair'
complete -c sfbank -n '__sfbank_is apply' -l neutral -d 'Accept only edits of the thirteen neutral forms'
complete -c sfbank -n '__sfbank_is copy' -l dry-run -d 'Print the script of edits, and save nothing'
complete -c sfbank -n '__sfbank_is copy' -l script -r -k -a '(__fish_complete_suffix .txt)' -d 'Save the edits too'
complete -c sfbank -n '__sfbank_is copy' -l as -x -d 'Give the copy of a preset these numbers, BANK:NUMBER'
complete -c sfbank -n '__sfbank_is copy' -l name -x -d 'Give the copy this name'
complete -c sfbank -n '__sfbank_is keep' -l dry-run -d 'Print the script of edits, and save nothing'
complete -c sfbank -n '__sfbank_is keep' -l script -r -k -a '(__fish_complete_suffix .txt)' -d 'Save the edits too'
complete -c sfbank -n '__sfbank_is keep' -l notes -r -k -a '(__fish_complete_suffix .txt)' -d 'Keep the presets of these notes'
complete -c sfbank -n '__sfbank_is keep' -l preset -x -d 'Keep the presets with these numbers, BANK:NUMBER'
complete -c sfbank -n '__sfbank_is keep' -l zones -d 'Remove zones too that none of these notes selects'
complete -c sfbank -n '__sfbank_is merge' -l dry-run -d 'Print the script of edits, and save nothing'
complete -c sfbank -n '__sfbank_is merge' -l script -r -k -a '(__fish_complete_suffix .txt)' -d 'Save the edits too'
complete -c sfbank -n '__sfbank_is merge' -l shift -x -d 'Add this to the bank number of each preset of FROM'
complete -c sfbank -n '__sfbank_is take' -l dry-run -d 'Print the script of edits, and save nothing'
complete -c sfbank -n '__sfbank_is take' -l script -r -k -a '(__fish_complete_suffix .txt)' -d 'Save the edits too'
complete -c sfbank -n '__sfbank_is take' -l preset -x -d 'Copy the preset with these numbers, BANK:NUMBER or FROM=TO'
complete -c sfbank -n '__sfbank_is tidy' -l dry-run -d 'Print the script of edits, and save nothing'
complete -c sfbank -n '__sfbank_is tidy' -l script -r -k -a '(__fish_complete_suffix .txt)' -d 'Save the edits too'
complete -c sfbank -n '__sfbank_is tidy' -l merge -d 'Join equal samples and equal instruments too'
complete -c sfbank -n '__sfbank_is check' -l strict -d 'End with status 7 if there is anything to list'
complete -c sfbank -n '__sfbank_is copy' -l no-comments -d 'Write no comments into the script'
complete -c sfbank -n '__sfbank_is diff' -l no-comments -d 'Write no comments into the script'
complete -c sfbank -n '__sfbank_is keep' -l no-comments -d 'Write no comments into the script'
complete -c sfbank -n '__sfbank_is merge' -l no-comments -d 'Write no comments into the script'
complete -c sfbank -n '__sfbank_is script' -l no-comments -d 'Write no comments into the script'
complete -c sfbank -n '__sfbank_is take' -l no-comments -d 'Write no comments into the script'
complete -c sfbank -n '__sfbank_is tidy' -l no-comments -d 'Write no comments into the script'
complete -c sfbank -n '__sfbank_is new' -l minor -x -d 'The minor version, 4 by default'
complete -c sfbank -n '__sfbank_is script' -l no-points -d 'Leave the points of the samples out'
complete -c sfbank -n '__sfbank_is show' -l zones -d 'Tell the zones of each preset and instrument too'
complete -c sfbank -n '__sfbank_is show' -l uses -d 'Tell how many zones use each instrument and sample too'
