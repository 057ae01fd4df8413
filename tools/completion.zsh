#compdef nesthv nesthv-gdb nesthv-trace nesthv-run nesthv-build nesthv-look nesthv-debug nesthv-profile nesthv-batch nesthv-explore nesthv-fuzz nesthv-inputs nesthv-saved nesthv-qemu-run
# Completion of zsh for nesthv and its tools. tools/install puts it into share/zsh/site-functions; ~/.zshrc needs
# `fpath=(~/.local/share/zsh/site-functions $fpath)` before `compinit` for that of ~/.local.

local -a image
image=(
    '--steps[how many steps]:number:'
    '--blocks[RAM in blocks of 2 MiB]:number:'
    '--spaces[spaces]:number:'
    '--entries[entries of a space]:number:'
    '--console[bytes of the console]:number:'
    '--input[a file of inputs]:file:_files'
    '--device[give it the device page]'
    '--write[keep the files in this folder]:folder:_files -/'
)
case $service in
nesthv) _arguments "1:command:(run replay check work save)" "2:configuration:_files -g '*.toml'" "3:file:_files" ;;
nesthv-gdb) _arguments "1:configuration:_files -g '*.toml'" "2:guest:" ;;
nesthv-trace)
    _arguments "1:configuration:_files -g '*.toml'" "2:guest:" \
        '3:kinds:_values -s , kind traps worlds calls fences fills stale steps counts' '4:first step:' '5:last step:'
    ;;
nesthv-run)
    _arguments '--help[say what it does]' \
        '--program[the program to take]:file:_files' \
        '--json[print the report as JSON]' \
        '--expect[end with 0 where this is the status]:word:(running waiting stopped 0 1 2 3 4 5 6)' \
        '--verdict[end with the guests'\'' own verdict]' \
        '--progress[say how far the guests are]' \
        '--quiet[do not say by which program it runs]' \
        '--raw[write control characters as they are]' \
        '--seconds[the limit of rt try]:word:' \
        '--elf[run an ELF image as it is]' \
        '--version[print the version]' \
        "${image[@]}" \
        '*:configuration:_files'
    ;;
nesthv-look)
    _arguments '--help[say what it does]' \
        '--version[print the version]' \
        '--as[the mode of a walk]:word:(HS U VS VU)' \
        '--step[the state]:word:(end)' \
        '--svg[draw maps into this file]:file:_files' \
        '--most[at how many steps fences drops]:word:' \
        '--first[end fences with the first finding]' \
        '--strict[tell what hardware may use]' \
        '--time[seconds that doctor may take]:number:' \
        '--elf[one more ELF file with symbols]:file:_files' \
        '--json[print JSON]' \
        '--program[the program to take]:file:_files' \
        '--cache[where states are kept]:folder:_files -/' \
        '--cache-size[MiB of kept states]:word:' \
        "${image[@]}" \
        '1:configuration:_files' '*:word:(at walk maps first trace traps first-trap last-trap entered diff fences doctor)'
    ;;
nesthv-debug)
    _arguments '--help[say what it does]' \
        '--version[print the version]' \
        '--print[print gdb'\''s command]' \
        '--gdb[the gdb to take]:word:' \
        '--stub[the nesthv-gdb to take]:file:_files' \
        "${image[@]}" \
        '1:configuration:_files' '2:guest:'
    ;;
nesthv-profile)
    _arguments '--help[say what it does]' \
        '--version[print the version]' \
        '--callgrind[write a profile for callgrind_annotate]:file:_files' \
        '--functions[draw the functions that executed most]:file:_files' \
        '--lcov[write coverage for genhtml]:file:_files' \
        '--exits[print a table of exits]' \
        '--timeline[write a timeline for Perfetto]:file:_files' \
        '--svg[draw the timeline into this file]:file:_files' \
        '--columns[how many columns the drawing has at most]:number:' \
        '--from[the first step]:number:' \
        '--to[the step after the last]:number:' \
        '--no-modes[do not tell VS from VU]' \
        '--log[read a log that is there]:file:_files' \
        '--trace[the nesthv-trace to take]:file:_files' \
        '--hs[an ELF file of HS and U]:file:_files' \
        '--vs[an ELF file of VS and VU]:file:_files' \
        "${image[@]}" \
        '1:configuration:_files' '2:guest:'
    ;;
nesthv-batch)
    _arguments '--help[say what it does]' \
        '--version[print the version]' \
        '--only[those whose name fits]:word:' \
        '--jobs[how many at a time]:word:' \
        '--seconds[the limit of one]:word:' \
        '--first[stop at the first that fails]' \
        '--store[store the reports]' \
        '--verdict[take the guests'\'' own verdict]' \
        '--times[print the seconds of each]' \
        '--tap[print TAP]' \
        '--json[print JSON]' \
        '--junit[write JUnit XML]:file:_files' \
        '--program[the program to take]:file:_files' \
        '--sshlogin[machines]:word:' \
        "${image[@]}" \
        '*:folder or ELF file:_files'
    ;;
nesthv-build)
    _arguments '--help[say what it does]' \
        '--version[print the version]' \
        '-o[another name of what is made]:file:_files' \
        '*:source:_files -g "*.[csS]"'
    ;;
nesthv-explore)
    _arguments '--help[say what it does]' \
        '--version[print the version]' \
        '--try[the kinds of events]:kind:(timer input late wake reservation translations)' \
        '--by[how far late moves the clock]:number:' \
        '--twice[add a second event]' \
        '--seed[choose the random steps]:number:' \
        '--from[the first step]:number:' \
        '--to[the step after the last]:number:' \
        '--each[how many steps of a place]:number:' \
        '--runs[how many trials]:number:' \
        '--time[begin no trial after so long]:number:' \
        '--shard[make a part of the trials]:part:' \
        '--again[try kept findings alone]:folder:_files -/' \
        '--verdict[ask for the exit number]' \
        '--console[ask for the same console]' \
        '--stops[ask that it stops]:number:' \
        '--expect[ask for a text]:text:' \
        '--expect-regex[ask for what fits]:text:' \
        '--json[print JSON]' \
        '--tap[print TAP]' \
        '--junit[write JUnit XML]:file:_files' \
        '--write[keep the findings]:folder:_files -/' \
        '--elf[one more ELF file]:file:_files' \
        '--program[the program to take]:file:_files' \
        '--sshlogin[machines]:word:' \
        '--steps[how many steps]:number:' \
        '--blocks[blocks of RAM]:number:' \
        '--spaces[spaces]:number:' \
        '--entries[entries of a space]:number:' \
        '--input[a file of inputs]:file:_files' \
        '--device[give it the device page]' \
        '1:configuration:_files' '2:guest:'
    ;;
nesthv-fuzz)
    _arguments '--help[say what it does]' \
        '--version[print the version]' \
        '--write[where it is put]:folder:_files -/' \
        '--at[from which step on it has inputs]:number:' \
        '--most[how many steps a run has]:number:' \
        '--time[end after so long]:number:' \
        '--prepare[make the target alone]' \
        '--show[say what comes of a file]:file:_files' \
        '--program[the program to take]:file:_files' \
        '--steps[how many steps]:number:' \
        '--blocks[blocks of RAM]:number:' \
        '--spaces[spaces]:number:' \
        '--entries[entries of a space]:number:' \
        '--input[a file of inputs]:file:_files' \
        '--device[give it the device page]' \
        '1:configuration:_files' '2:guest:' '3:corpus:_files -/'
    ;;
nesthv-inputs)
    _arguments '--help[say what it does]' \
        '--version[print the version]' \
        '--text[make a text of a file of inputs]' \
        '*:file:_files'
    ;;
nesthv-saved)
    _arguments '--help[say what it does]' \
        '--version[print the version]' \
        '--console[write the bytes of the console]' \
        '--ram[write the bytes of RAM]' \
        '--raw[write control characters as they are]' \
        '1:file:_files'
    ;;
nesthv-qemu-run)
    _arguments '--help[say what it does]' \
        '--version[print the version]' \
        '--guest[the number of the guest]:word:' \
        '--traps[print each trap]' \
        '--trace[print each block]' \
        '--gdb[wait for gdb]' \
        '--seconds[the limit]:word:' \
        '--plain[QEMU'\''s own clock]' \
        '--single[one instruction at a time]' \
        '--time[print how long it took]' \
        '--raw[write control characters as they are]' \
        '--cpu[the words of -cpu]:word:' \
        '1:configuration:_files'
    ;;
esac
