"""Prints the path of the program that examples, benches and tools take: the one that NESTHV names, else
dist/nesthv where it has the SHA-256 that dist/nesthv.sha256 names, else the one that `rt run` has built in
crates/nesthv. Where there is none it ends with status 1.
"""
from nesthv_tools import command_line, programs, streams



def main() -> int:
    command_line.Parser(__doc__).parse_args()
    try:
        program = programs.found()
    except programs.Unusable as error:
        streams.say(f"NESTHV: {error}")
        return 1
    if not program:
        return 1
    if program.notice:
        streams.say(f"{program.path} {program.notice}")
    print(program.path)
    return 0
